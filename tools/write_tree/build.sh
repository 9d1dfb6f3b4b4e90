#!/bin/sh
# Builds target/write_tree. The folder of sema.rs, ast.rs and span.rs may be given.
set -eu
. "$(dirname "$0")/../qasm.sh"
rustc -O -C overflow-checks=on --edition 2021 -o target/write_tree tools/write_tree/main.rs
