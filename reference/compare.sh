#!/bin/sh
# Builds the proved programs and runs each beside the reference decoder on fresh cases.
#   reference/compare.sh [NAME...]     (default: frames octets packets)
# SEED, COUNT and SECONDS_EACH may be set; the seed is the time of day if it is not.
set -eu
here=$(cd "$(dirname "$0")" && pwd)
root=$(dirname "$here")
[ $# -gt 0 ] || set -- frames octets packets
seed=${SEED:-$(date +%s)}
count=${COUNT:-2000}
seconds=${SECONDS_EACH:-60}

cargo build --release --offline --quiet --manifest-path "$here/Cargo.toml"
for name; do
    (cd "$root/crates/$name" && rt run </dev/null >/dev/null)
done
"$here/target/release/reference" compare "$root" "$@" --seed "$seed" --count "$count" --seconds "$seconds"
