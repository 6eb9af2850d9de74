#!/bin/sh
# Compiles the original, over the stand-ins of ../reference with plain names, to a program that is timed: build.sh SOURCE_FOLDER OUT [OPTIONS OF
# RUSTC..]. SOURCE_FOLDER is that of ../reference/build.sh. The program is OUT/times.
set -eu
if [ $# -lt 2 ]; then
    sed -n 2,3p "$0"
    exit 1
fi
here=$(cd "$(dirname "$0")" && pwd)
source=$1
out=$2
shift 2

"$here/../reference/build.sh" "$source" "$out" --cfg plain "$@"
rustc -O -L "$out" --out-dir "$out" --edition 2021 --crate-name times --extern pdb --extern pdb_addr2line "$here/times.rs" "$@"
