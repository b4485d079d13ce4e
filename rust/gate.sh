#!/bin/sh
# All checks of the Rust side. The library must have been built before, by
# ./vahmizar or tools/build library, or be named by VAHMIZAR_LIB_DIR.
set -eu
cd "$(dirname -- "$0")"
checks=$PWD/target/checks

# Tests and lints have a folder of their own: cargo builds in one folder at a
# time only once.
check() {
    CARGO_TARGET_DIR=$checks MUTANTS=1 cargo "$@"
}

# compare SEED CASES: a part of the comparison
compare() {
    cargo run --release --quiet --package compare -- --seed "$1" --cases "$2"
}

tests() {
    if cargo clippy --version >/dev/null 2>&1; then
        check clippy --workspace --all-targets --quiet -- --deny warnings || return
    else
        echo "cargo clippy isn't installed: left out"
    fi
    check test --quiet && compare 1 200000
}

cargo fmt --all --check
cargo build --release --quiet --package copies --package reference

# Two lanes, one for each processor: the mistakes are tried beside the tests,
# and each lane makes as much of the comparison as lets both end together.
said=$(mktemp)
trap 'rm -f "$said"' EXIT
{ cargo run --release --quiet --package mutants && compare 2 100000; } >"$said" 2>&1 &
mistakes=$!
status=0
tests || status=1
wait "$mistakes" || status=1
cat "$said"
exit "$status"
