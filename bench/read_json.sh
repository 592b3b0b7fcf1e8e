#!/bin/sh
# Builds the program that does nothing but read JSON by the `serde_json` that `check` reads by, beside which `bench/run.py --json` puts `check`.
#
#     bench/read_json.sh PROGRAM
#
# PROGRAM is where it is put. It stands in bench/read_json, is put beside a copy of the crates that it needs, proved there and built. Beside it
# stands a program of Rust for Rust's own `serde_json` (`cd bench/read_json && cargo build --release`).
[ $# -eq 1 ] || { sed -n '2,/^[^#]/s/^# \{0,1\}//p' "$0"; exit 2; }
put=$(cd "$(dirname "$1")" && pwd)/$(basename "$1") || exit 1
. "$(dirname "$0")/room.sh"
room_of read_json kube_base byte_edge serde_json
echo '{}' | rt run && cp out/read_json "$put"
