#!/bin/sh
# Makes the images in the folder OUT: each an .exe and its .pdb, and a second .exe with DWARF. Wants clang-cl and lld-link of LLVM 14, or others
# by CL_PROGRAM and LINK_PROGRAM. What is described of an image does not depend on where it is made.
set -eu
[ $# = 1 ] || { echo "usage: build.sh OUT" >&2; exit 2; }
compile=${CL_PROGRAM:-clang-cl-14}
link=${LINK_PROGRAM:-lld-link-14}
mkdir -p "$1"
out=$(cd "$1" && pwd)
cd "$(dirname "$0")/sources"

# image NAME WORDS..: compiles all sources with these words, and links them. The same code is made once more with DWARF, in NAME.dwarf.exe.
image() {
    name=$1
    shift
    made "$name" /Z7 /debug "$@"
    made "$name.dwarf" /clang:-gdwarf-4 /debug:dwarf "$@"
}

# made NAME DEBUG LINK_DEBUG WORDS..
made() {
    made=$1 debug=$2 link_debug=$3
    shift 3
    mkdir -p "$out/$made.objects"
    for source in main.c hashing.c shapes.cpp trees.cpp nodebug.c; do
        told=$debug
        [ "$source" = nodebug.c ] && told=
        "$compile" --target=x86_64-pc-windows-msvc -fdebug-compilation-dir=. /c /GS- /GR- -Xclang "-object-file-name=${source%.*}.obj" \
            $told "$@" "/Fo$out/$made.objects/${source%.*}.obj" "$source"
    done
    (cd "$out/$made.objects" && "$link" "$link_debug" /nodefaultlib /entry:entry /subsystem:console /timestamp:0 /opt:noref /opt:noicf \
        '/pdbsourcepath:s:\real' "/pdbaltpath:$made.pdb" "/out:../$made.exe" "/pdb:../$made.pdb" \
        main.obj hashing.obj shapes.obj trees.obj nodebug.obj)
}

# Fast code; the same with one section for all functions of a unit, and with cold code put apart; small code; code as it is written.
image fast /O2
image joined /O2 /Gy-
image apart /O2 /clang:-mllvm /clang:-hot-cold-split=true /clang:-mllvm /clang:-hotcoldsplit-threshold=-1
image small /O1
image plain /Od
