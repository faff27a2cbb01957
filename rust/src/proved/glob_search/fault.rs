//! Made by `bin/rust_crate` from `crates/glob_search/src/fault.rt`, where its contracts are: sha256 5e6e461a97635069.
//! `SearchFault` is not `#[non_exhaustive]` there.
//!
//! What a search could not do.

use crate::proved::glob_rules::RuleRefusal;
use crate::proved::glob_search::meter::OverLimit;
use std::error::Error;
use std::{fmt, io};

/// What a search could not do. After `Limit` it has ended; otherwise it goes on.
#[derive(Debug)]
#[non_exhaustive]
pub enum SearchFault {
    /// The directory at the path could not be listed, so what is below it is not found.
    Unread(String, io::Error),
    /// The ignore file at the path could not be read, so its rules do not apply.
    UnreadRules(String, io::Error),
    /// Lines of the ignore file at the path are refused, and these are the refusals. The rules of its other lines do
    /// apply.
    RefusedRules(String, Vec<RuleRefusal>),
    /// The next unit of work does not fit the limit. The search has ended.
    Limit,
}

impl SearchFault {
    /// Whether the search has ended.
    pub fn is_last(&self) -> bool {
        match self {
            SearchFault::Limit => true,
            SearchFault::Unread(..) | SearchFault::UnreadRules(..) | SearchFault::RefusedRules(..) => false,
        }
    }
}

impl fmt::Display for SearchFault {
    fn fmt(&self, f: &mut fmt::Formatter<'_>) -> fmt::Result {
        match self {
            SearchFault::Unread(path, error) | SearchFault::UnreadRules(path, error) => {
                write!(f, "{path}: {error}")
            }
            SearchFault::RefusedRules(path, refusals) => {
                f.write_str(path.as_str())?;
                for (number, refusal) in refusals.iter().enumerate() {
                    f.write_str(if number == 0 { ": " } else { "; " })?;
                    write!(f, "{refusal}")?;
                }
                Ok(())
            }
            SearchFault::Limit => f.write_str("search limit reached"),
        }
    }
}

impl Error for SearchFault {}

/// A unit that does not fit the limit.
impl From<OverLimit> for SearchFault {
    fn from(_over: OverLimit) -> Self {
        SearchFault::Limit
    }
}
