#!/usr/bin/env bash
# Builds target/staticlib/libpuntsalak.a, the checker for C.
set -euo pipefail
cd "$(dirname "$0")/.."
(cd crates/puntsalak_c && rt lib > /dev/null)
mkdir -p target/staticlib
cp crates/puntsalak_c/out/libpuntsalak_c.a target/staticlib/libpuntsalak.a
