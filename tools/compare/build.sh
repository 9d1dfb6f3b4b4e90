#!/bin/sh
# Builds target/compare. The folder of sema.rs, ast.rs and span.rs may be given.
set -eu
. "$(dirname "$0")/../qasm.sh"
# sema_wide.rs: its loops over a slice visit only what they need, and the sum
# of gate qubits and control count does not overflow. Five lines differ.
sed -e 's/for index in start..=end {/for index in crate::wide::indices(start, end, \&self.measured) {/' \
    -e 's/qubit_count + modifier_control_count(modifiers).unwrap_or_default();/crate::wide::sum(qubit_count, modifier_control_count(modifiers).unwrap_or_default());/' \
    -e 's/if args.len() != expected_qubits {/if args.len() as u128 != expected_qubits {/' \
    target/qasm/sema.rs > target/qasm/sema_wide.rs
changed=$(diff target/qasm/sema.rs target/qasm/sema_wide.rs | grep -c '^>')
[ "$changed" -eq 5 ] || { echo "build.sh: $changed lines changed, not 5" >&2; exit 1; }
rustc -O --edition 2021 -o target/compare -L target/staticlib -l static=puntsalak tools/compare/main.rs
