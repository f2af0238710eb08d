// Both sets are the Rust's text, unchanged.
mod array_range_set;
mod btree_range_set;
pub use {array_range_set::ArrayRangeSet, btree_range_set::RangeSet};
