#!/bin/sh
# Compiles the original together with the stand-ins here: build.sh SOURCE_FOLDER OUT [OPTIONS OF RUSTC..]
# SOURCE_FOLDER has the original's lib.rs and constants.rs, which are compiled as they are. The program is OUT/reference.
set -eu
if [ $# -lt 2 ]; then
    sed -n 2,3p "$0"
    exit 1
fi
here=$(cd "$(dirname "$0")" && pwd)
source=$1
out=$2
shift 2

# The original looks for its other modules beside it.
mkdir -p "$out/original"
cp "$source/lib.rs" "$source/constants.rs" "$here/error.rs" "$here/type_formatter.rs" "$out/original/"

compile() {
    rustc -O -L "$out" --out-dir "$out" "$@"
}
externs=
for name in pdb elsa maybe_owned range_collections; do
    compile --edition 2021 --crate-type lib "$here/$name.rs" "$@"
    externs="$externs --extern $name"
done
compile --edition 2018 --crate-type lib --crate-name pdb_addr2line --cap-lints allow $externs "$out/original/lib.rs" "$@"
compile --edition 2021 --crate-name reference --extern pdb --extern pdb_addr2line "$here/main.rs" "$@"
