//! The Rust's ast.rs, sema.rs and span.rs, where qasm.sh puts them, and the tree
//! file: its values, its judge and its writer.

#[path = "../target/qasm/ast.rs"]
#[allow(dead_code)]
pub mod ast;
#[path = "tree_cases/reader.rs"]
pub mod reader;
#[path = "../target/qasm/sema.rs"]
#[allow(dead_code)]
pub mod sema;
#[path = "../target/qasm/span.rs"]
#[allow(dead_code)]
pub mod span;
#[path = "tree_cases/tree.rs"]
pub mod tree;
#[path = "tree_cases/writer.rs"]
#[allow(dead_code)]
pub mod writer;
