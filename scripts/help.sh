# Sourced by every script before anything else: how it answers --help, and how it refuses words that it doesn't know.
script=$(basename "$(readlink -f "$0")")
unset CDPATH # with it cd prints where it went

# help_asked WORD..: where -h or --help is among the words, and no -- before it, prints the comment at the top of the script and ends it
help_asked() {
  local word
  for word in "$@"; do
    case $word in
    --) return 0 ;;
    -h | --help) sed -n -e 1d -e '/^#/!q' -e 's/^# \{0,1\}//p' "$0" && exit 0 ;;
    esac
  done
}

# refuse WHY: says why the script doesn't do what it was asked for, and ends it with status 2
refuse() { echo "$script: $1; scripts/$script --help says more" >&2; exit 2; }

# takes_nothing WORD..: refuses any word
takes_nothing() { [ $# -eq 0 ] || refuse "takes no arguments"; }
