#!/bin/sh
# run.sh [SHAPE ..]: builds wildtree and the bare pass for release and measures both beside `timing`.
# TIMING names another timing program, SPEED_TARGET another folder to build in.
set -eu
here=$(cd "$(dirname "$0")" && pwd)
target=${SPEED_TARGET:-$here/target}
mkdir -p "$target"
cargo build --offline --profile speed -j1 --quiet --manifest-path "$here/../rust/Cargo.toml" --target-dir "$target"
cc -O2 -o "$target/bare" "$here/bare.c"
exec python3 "$here/measure.py" "${TIMING:-$here/../../crates/timing/out/timing}" "$target/speed/wildtree" "$target/bare" "$@"
