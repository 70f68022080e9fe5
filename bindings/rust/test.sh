#!/bin/sh
# make test-rust: builds the binding over the archive, and runs its tests and the examples of its documentation.
set -eu
cd "$(dirname "$0")/../.."
name=test-rust
. tools/common.sh

need_program cargo 'Rust package manager'
need_archive
DTOA_LIB=$library cargo test --offline --quiet --manifest-path bindings/rust/Cargo.toml --target-dir target/rust
