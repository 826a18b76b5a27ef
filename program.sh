# Sourced by ./judge and ./returns, which name the built program in `name`: finds it or builds it, and opens what it is to read, FILE or -
# for standard input. Sets `command`, and `what` it reads in words. PELIRANOPI_BIN names the folder of the built program where it is not
# its crate's out/, in which `rt run` and `rt ci` leave it.
set -u
could_not() { echo "${0##*/}: $*" >&2; exit 2; }
[ $# -eq 1 ] || { echo "usage: ${0##*/} FILE|-" >&2; exit 2; }
here=$(CDPATH= cd -- "$(dirname "$0")" && pwd) || exit 2
program=${PELIRANOPI_BIN:-$here/crates/$name/out}/$name

# `rt run` builds the proved program and runs it, here on no input.
[ -x "$program" ] || (cd "$here/crates/$name" && rt run </dev/null >/dev/null) || true
[ -x "$program" ] || could_not "the program could not be built"

# Programs are for x86-64; another processor needs Debian's emulator for them.
command=("$program")
[ "$(uname -m)" = x86_64 ] || command=(qemu-x86_64 -L /usr/x86_64-linux-gnu "$program")

# A pipe without a reader is an error, not a signal.
trap '' PIPE
what=$1
[ "$1" != - ] || what="standard input"
if [ "$1" = - ]; then [ -e /dev/fd/0 ]; else exec <"$1"; fi || could_not "$what could not be read"
