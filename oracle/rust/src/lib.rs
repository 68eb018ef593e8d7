//! The Rust of chatnoir-resiliparse (html2text.rs and filters.rs, unchanged; oracle/build.sh puts them into `extract/`) over
//! the tree of a sheet.

pub mod cases;
pub mod extract;
pub mod generate;
pub mod parse;
pub mod random;
pub mod sheet;
pub mod stand_in;
