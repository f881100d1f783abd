# Sourced: where the Rattle kit is (kit), and its compiler, its linker and its archiver (tools).
command -v rt >/dev/null || { echo "${script:-kit.sh}: the Rattle kit isn't there: no rt on the PATH" >&2; exit 1; }
kit=$(dirname "$(rt doc)")
tools=$kit/toolchain/bin
