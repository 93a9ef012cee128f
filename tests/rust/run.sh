#!/bin/sh
# run.sh [NUMBER [SEED]]: builds wildtree and compares it with listings, over all groups of scripts.py, NUMBER of them by chance.
# LISTINGS names another listings program, CARGO_TARGET_DIR another folder to build in.
set -eu
here=$(cd "$(dirname "$0")" && pwd)
target=${CARGO_TARGET_DIR:-$here/target}
listings=${LISTINGS:-$here/../../crates/listings/out/listings}
cargo build --offline --release -j1 --quiet --manifest-path "$here/Cargo.toml" --target-dir "$target"
exec python3 "$here/compare.py" "$target/release/wildtree" "$listings" "${1:-100000}" "${2:-1}"
