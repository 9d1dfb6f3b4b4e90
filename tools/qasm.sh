# Read by the build.sh of a tool: puts ast.rs, span.rs and sema.rs, unchanged, into target/qasm. Their folder may be given.
cd "$(dirname "$0")/../.."
src=${1:-../shared/docs/src}
mkdir -p target/qasm
cp "$src/ast.rs" "$src/span.rs" "$src/sema.rs" target/qasm/
chmod u+w target/qasm/*.rs
