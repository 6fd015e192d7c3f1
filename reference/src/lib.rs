//! An independent reading of document 01: the decoder, its programs and their generators.

pub mod compare;
pub mod compare_rows;
pub mod desk;
pub mod desk_text;
pub mod framing;
pub mod gateway;
pub mod gen;
pub mod lines;
pub mod listing;
pub mod programs;
pub mod router;
pub mod rows;
pub mod sheet;
pub mod store;
pub mod tree;
pub mod tree_text;
pub mod tree_writer;
pub mod values;
pub mod watch;
