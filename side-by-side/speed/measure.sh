#!/bin/sh
# Builds the original, times both, and puts the figures into docs/PERFORMANCE.md: measure.sh SOURCE_FOLDER OUT [OPTIONS OF run.py..]
# crates/bench and crates/resolve have to be built: `rt run -- data/..` in each leaves its program in out/.
set -eu
if [ $# -lt 2 ]; then
    sed -n 2,3p "$0"
    exit 1
fi
here=$(cd "$(dirname "$0")" && pwd)
top=$here/../..
source=$1
out=$2
shift 2

"$here/build.sh" "$source" "$out"
"$here/run.py" "$top/crates/bench/out/bench" "$top/crates/resolve/out/resolve" "$out/times" "$out/images" --into "$top/docs/PERFORMANCE.md" "$@"
