//! The Rust of chatnoir-resiliparse's visible text (serialize.rs and the lexbor.rs that it uses, unchanged; oracle/serialize.sh puts them
//! into `parse/html/`) over the tree of a sheet. sheet.rs and random.rs are those of oracle/rust.

pub mod library;
pub mod pages;
pub mod parse;
pub mod random;
pub mod sheet;
pub mod third_party;
pub mod tree;

/// The visible text of a row.
pub fn visible(tree: &tree::Tree, row: usize) -> third_party::Text {
    parse::html::serialize::node_format_visible_text(tree.node(row))
}
