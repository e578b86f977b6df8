#!/bin/sh
# Builds the independent program and runs its own tests: document 01's examples, document 02's landed
# requests, all rows of the outside vectors, and the generators. Under a minute.
set -eu
cd "$(dirname "$0")/../independent"
cargo build --offline --release --quiet
cargo test --offline --quiet
