#!/bin/sh
# build.sh ION_HF [BUILD]: builds BUILD/oracle.
# ION_HF: an ion-hf checkout, the folder that holds crates/ion/src.
# BUILD: where the output goes (default target/oracle below the current folder).
# ORACLE_FLAGS: more flags for rustc. The files of the Rust are compiled where they stand, through links.
set -eu
[ $# -ge 1 ] || { echo "build.sh ION_HF [BUILD]" >&2; exit 2; }
here=$(cd "$(dirname "$0")" && pwd)
src=$(cd "$1/crates/ion/src" && pwd)
out=${2:-${ORACLE_BUILD:-target/oracle}}
mkdir -p "$out"
out=$(cd "$out" && pwd)
tree=$out/tree
rm -rf "$tree"
place() { # FILE PLACE
    mkdir -p "$(dirname "$tree/$2")"
    ln -s "$1" "$tree/$2"
}
place "$src/level.rs" level/ladder.rs
for f in frame net net/ncs net/stream net/wire net/relay net/prime; do
    place "$src/link/$f.rs" "link/$f.rs"
done
(cd "$here/rust" && find . -name '*.rs') | while read -r f; do
    place "$here/rust/$f" "$f"
done
CARGO_PKG_VERSION=0.0.0 rustc --edition 2024 --crate-name oracle -O -C overflow-checks=off -C debug-assertions=off \
    -A warnings ${ORACLE_FLAGS:-} -o "$out/oracle" "$tree/main.rs"
echo "$out/oracle"
