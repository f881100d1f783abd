# Sourced behind kit.sh at the top of the checkout: what was built from the files as they stood then (sources), each with a key in target/built.
# What is proved of one crate stands on every crate below it, so the files of all are in the key, with the kit and with what was built.
sources=$({ cat "$kit/KIT-ID" "$kit/WHAT" crates.txt scripts/native.sh
  find crates \( -name out -o -name must-fail \) -prune -o -type f -print | LC_ALL=C sort | xargs -d '\n' sha256sum; } | sha256sum)
key_of() { echo "target/built/${1//\//,}"; }

# note FILE: FILE was built from sources
note() { mkdir -p target/built && { echo "$sources" && sha256sum "$1"; } >"$(key_of "$1")"; }

# is_built FILE: whether FILE was built from sources, and is still what was built
is_built() { [ -f "$1" ] && [ "$(cat "$(key_of "$1")" 2>/dev/null)" = "$(echo "$sources" && sha256sum "$1")" ]; }
