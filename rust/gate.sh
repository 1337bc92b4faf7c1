#!/bin/sh
# The gate's part in Rust: the tests of the host crate, the model and the comparison, the examples, the fixed list, and the
# comparison with the Rust for about as many seconds as $1 says (default: 120). What is not at hand is left out, and said. The
# library is built while cargo tests what does not need it.
set -eu
cd "$(dirname "$0")"
if ! command -v cargo > /dev/null; then
    echo "cargo is not at hand: nothing is compared with the Rust"
    exit 0
fi
log=$(mktemp)
trap 'rm -f "$log"' EXIT
./staticlib.sh > "$log" 2>&1 &
library=$!
cargo test --offline --quiet -p model
sources=yes
oracle/import.sh || sources=no
[ $sources = no ] || cargo test --offline --quiet -p oracle -p comparison --no-default-features
wait $library || { cat "$log"; exit 1; }
tail -n 1 "$log"
cargo test --offline --quiet -p stack-assembly
if [ $sources = no ]; then
    echo "the Rust's sources are not at hand: nothing is compared with the Rust"
    exit 0
fi
cargo build --offline --quiet --release -p comparison
target/release/comparison --examples ../examples
target/release/comparison --recorded ../crates/recorded/data
target/release/comparison --seconds "${1:-120}"
