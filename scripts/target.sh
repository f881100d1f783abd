# Sourced behind help.sh at the top of the checkout: the processors that archives are made for, this machine's own among them (own), and what a
# word names of them; and how what was built is put in its places.
targets="x86-64 aarch64"
own=$(uname -m | tr _ -)

# target_named WORD: the target that a word names; native is this machine's own
target_named() {
  case $1 in
  native) echo "$own" ;;
  x86-64 | aarch64) echo "$1" ;;
  *) refuse "no target $1; there are ${targets// / and }, and native, this machine's own ($own)" ;;
  esac
}

# put FILE PLACE: copies it there, where it isn't there yet; who has opened what was there keeps that
put() { cmp -s "$1" "$2" || { cp "$1" "$2.$$" && mv "$2.$$" "$2"; }; }

# native FILE: a file of target/$own stands in target/native too, as a copy, since rt ci refuses a link anywhere in the checkout
native() {
  local copy=target/native/${1#target/"$own"/}
  [ ! -L target/native ] || rm target/native
  mkdir -p "$(dirname "$copy")"
  put "$1" "$copy"
}
