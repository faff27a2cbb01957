//! The rules of ignore files, as gitignore(5) has them.
//!
//! ```
//! use cadmiumdove::ignore::IgnoreList;
//!
//! let list = IgnoreList::new("*.o\ntarget/\n!keep.o\n")?;
//! assert!(list.is_ignored("src/a.o", false));
//! assert!(!list.is_ignored("src/keep.o", false));
//! assert!(list.is_ignored("target/keep.o", false));
//! assert_eq!(list.deciding_rule("src/keep.o", false).map(|rule| rule.line), Some(3));
//! # Ok::<(), cadmiumdove::ignore::RuleRefusal>(())
//! ```
//!
//! [`Reason`] lists the kinds of lines that are refused, and the error has the number of the first refused line. For
//! somebody else's file, [`IgnoreList::lenient`] skips such lines, and returns an error for each:
//!
//! ```
//! use cadmiumdove::ignore::IgnoreList;
//!
//! let (list, refused) = IgnoreList::lenient("*.o\n[é]\ntarget/\n");
//! assert!(list.is_ignored("a.o", false) && list.is_ignored("target", true));
//! assert_eq!(refused[0].to_string(), IgnoreList::new("*.o\n[é]\ntarget/\n").unwrap_err().to_string());
//! assert_eq!(list.deciding_rule("target", true).map(|rule| rule.line), Some(3));
//! ```
//!
//! Threads and walks share a list by a reference or an `Arc`; a clone is independent:
//!
//! ```
//! use cadmiumdove::ignore::IgnoreList;
//!
//! let list = IgnoreList::new("*.o\n")?;
//! let copy = list.clone();
//! drop(list);
//! assert!(copy.is_ignored("src/a.o", false));
//! # Ok::<(), cadmiumdove::ignore::RuleRefusal>(())
//! ```

pub use crate::proved::glob_rules::{IgnoreList, Reason, Rule, RuleRefusal};

/// No rules: nothing is ignored.
///
/// ```
/// assert!(!cadmiumdove::ignore::IgnoreList::default().is_ignored("a", false));
/// ```
impl Default for IgnoreList {
    fn default() -> Self {
        IgnoreList::new("").expect("no line is refused")
    }
}
