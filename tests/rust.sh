#!/usr/bin/env bash
# bind/rust and bind/rust/sys: their own tests and the examples of their documentation; then one source file over bind/rust and over the
# Rust original (oracle/dropin.sh), which says so where the original is not at hand. tests/rust_package.sh has the packages.
set -euo pipefail

root=$(cd "$(dirname "${BASH_SOURCE[0]}")/.." && pwd -P)

command -v cargo >/dev/null || { echo 'not tested: bind/rust: cargo is not at hand'; exit 0; }

# Prints the first Rust example of a file.
example() { awk '/^```rust$/ { inside = 1; next } inside && /^```$/ { exit } inside' "$1"; }

"$root/oracle/library.sh"
export HAYTHAW_LIB_DIR=$root/oracle/build CARGO_TARGET_DIR=$root/oracle/build/cargo
cd "$root/bind/rust"
cargo test --offline --quiet --workspace --all-features
RUSTDOCFLAGS='-D warnings' cargo doc --offline --no-deps --quiet --workspace --all-features

# README.md may show the example of bind/rust, which was just run; then it shows that one.
if grep -q '^```rust$' "$root/README.md"; then
    diff <(example "$root/README.md") <(example README.md) || { echo 'rust.sh: README.md has another example than bind/rust'; exit 1; }
fi

"$root/oracle/dropin.sh" --count 500
"$root/oracle/dropin.sh" --self-test | tail -n 1
# With debug assertions, where the original panics on a frame of wrong length; and what the runs beside it are made of.
if "$root/oracle/original.sh" >/dev/null 2>&1; then (cd "$root/oracle" && cargo test --offline --quiet -p dropin -p runs --lib); fi
echo 'rust: bind/rust passed'
