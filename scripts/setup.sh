#!/usr/bin/env bash
# setup.sh: installs what the project needs from Debian's packages, where it is missing; with sudo where it isn't root's.
#
# The Rattle kit, gcc, cargo and rustc are taken to be there. Takes a minute where something is missing, else no time. All other
# scripts that need it call it.
# Exit status: 0 all is there, 1 or more apt-get or sudo failed, 2 a wrong call too.
set -eu
. "$(dirname "$(readlink -f "$0")")/help.sh"
help_asked "$@"
takes_nothing "$@"
needed=(librust-proptest-dev librust-criterion-dev g++)
# One setup at a time on a machine: apt-get doesn't wait for another
exec 8</var/lib/dpkg
flock 8
missing=()
for p in "${needed[@]}"; do
  dpkg-query -W -f='${Status}' "$p" 2>/dev/null | grep -q 'ok installed' || missing+=("$p")
done
if [ ${#missing[@]} -gt 0 ]; then
  as_root=$([ "$(id -u)" = 0 ] || echo sudo)
  $as_root apt-get update -qq >&2
  DEBIAN_FRONTEND=noninteractive $as_root apt-get install -y -qq "${missing[@]}" >&2
fi
