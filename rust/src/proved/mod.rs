//! Made by `bin/rust_crate` from the proved sources in `crates/`: do not edit.
// Clippy's lints that the sources do not meet, all of style. Loops and branches have the forms that proofs take in steps:
#![allow(clippy::manual_contains, clippy::manual_find, clippy::manual_ignore_case_cmp, clippy::manual_map)]
#![allow(clippy::manual_ok_err, clippy::needless_range_loop, clippy::question_mark, clippy::single_match)]
// Contracts name the items of a vector and the bytes of a string, and each push may fail there:
#![allow(clippy::byte_char_slices, clippy::ptr_arg, clippy::vec_init_then_push)]
// Memory is asked for and then filled, as the heads of these files say:
#![allow(clippy::slow_vector_initialization)]

pub mod glob_captures;
pub mod glob_pattern;
pub mod glob_rules;
pub mod glob_set;
pub mod glob_tree;
pub mod glob_walk;
pub mod glob {
    pub mod paths;
}
pub mod glob_search;
