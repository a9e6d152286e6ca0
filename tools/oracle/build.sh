#!/bin/sh
# Builds the oracle with the unchanged Rust files, or tests it.
# usage: tools/oracle/build.sh [--no-rattle | --test] FOLDER
# FOLDER holds the originals, which stay where they are.
# With neither flag the Rattle's static libraries are proved and built first, where they have changed, and copied to target/staticlib.
# --no-rattle: the model stands in for the Rattle's libraries.
# --test: the small comparisons, and whether the stored samples are what the oracle writes; needs no Rattle either.
set -eu
usage='usage: tools/oracle/build.sh [--no-rattle | --test] FOLDER
FOLDER holds the unchanged Rust files: card, chain, courier, data, epoch, kdf, state and transfer.'

mode=--rattle
case ${1:-} in
--no-rattle | --test)
    mode=$1
    shift
    ;;
esac
[ $# = 1 ] && [ -d "$1" ] || { echo "$usage" >&2; exit 2; }
CAIRN_ORIGINALS=$(cd "$1" && pwd)
export CAIRN_ORIGINALS

cd "$(dirname "$0")"
out=../../target/oracle

# Has rt lib build each C face as crates/NAME/out/libNAME.a, and copies these. That of c_card is c_card_c's, since other faces use c_card as a library.
fill_libraries() {
    libraries=../../target/staticlib
    mkdir -p "$libraries"
    for name in c_card c_rows c_contact c_veil c_restore; do
        face=$name
        if [ "$name" = c_card ]; then face=c_card_c; fi
        folder=../../crates/$face
        echo "proving and building $face, where it has changed"
        (cd "$folder" && rt lib) >"$libraries/$name.log" 2>&1 || { cat "$libraries/$name.log" >&2; exit 1; }
        # an archive that is as it was stays, so that nothing is linked again
        cmp -s "$folder/out/lib$face.a" "$libraries/lib$name.a" || cp "$folder/out/lib$face.a" "$libraries/lib$name.a"
    done
}

case $mode in
--test) exec cargo test --frozen --release ;;
--rattle)
    fill_libraries
    cargo build --frozen --release --features rattle
    program=oracle
    ;;
--no-rattle)
    cargo build --frozen --release
    program=oracle-no-rattle
    ;;
esac
(cd "$CAIRN_ORIGINALS" && find . -type f -name '*.rs*' -exec sha256sum {} +) | sort -k 2 >"$out/originals.sha256"
cp "$out/cargo/release/oracle" "$out/$program"
echo "built target/oracle/$program"
