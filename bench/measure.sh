#!/usr/bin/env bash
# Measures the program, which it builds first if that in dist/ is none of this checkout, or the one that WARP names: bench/measure.sh WORD, where WORD is
#   instructions        how many instructions it takes by callgrind: a turn on the loads, a line of check, a byte of a source, a component, a step
#   examples [FOLDER]   how many instructions a turn of each source in examples/ takes, and their geometric mean; then the token, and those in the folder
#   hunts               how many seeds a second of a processor a hunt for the alarm looks at, over each example that has one, and over the token
#   times               how many turns a second it takes on the loads, and how fast workers are beside one thread
#   runs                whether 20,000 random runs by workers, with all options together, end and write what one thread writes
set -eu
top=$(cd "$(dirname "${BASH_SOURCE[0]}")/.." && pwd)
case ${1:-} in
instructions | examples | hunts | times | runs) ;;
*)
    sed -n '2,7s/^# //p' "$0" >&2
    exit 2
    ;;
esac
program=${WARP:-}
if [ -z "$program" ]; then
    "$top/warp" --version >&2
    program=$top/dist/warp-x86_64-linux-gnu
    ! "$top/scripts/is-built" || program=$top/crates/warp/out/warp
fi
exec "$top/bench/$1.py" "$program" "${@:2}"
