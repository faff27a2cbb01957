//! Traits of Rust's library that the proved sources do not need.

use std::error::Error;
use std::fmt;
use std::iter::FusedIterator;
use std::slice;
use std::str::FromStr;

use crate::ignore::{IgnoreList, Reason, RuleRefusal};
use crate::set::{BraceSetRefusal, PatternSet, SetRefusal};
use crate::walk::{Name, Paths, Tree};
use crate::{MatchOptions, Pattern, PatternError};

/// The pattern's text.
///
/// ```
/// let pattern = cadmiumdove::Pattern::new("*.rs")?;
/// assert_eq!(AsRef::<str>::as_ref(&pattern), "*.rs");
/// # Ok::<(), cadmiumdove::PatternError>(())
/// ```
impl AsRef<str> for Pattern {
    fn as_ref(&self) -> &str {
        self.as_str()
    }
}

/// The same as [`Pattern::new`].
///
/// ```
/// use cadmiumdove::Pattern;
///
/// assert!(Pattern::try_from("*.rs").unwrap().matches("a.rs"));
/// assert_eq!(Pattern::try_from("a[").unwrap_err().pos, 1);
/// ```
impl TryFrom<&str> for Pattern {
    type Error = PatternError;

    fn try_from(text: &str) -> Result<Self, PatternError> {
        Pattern::new(text)
    }
}

/// The set of the patterns, in this order, under [`MatchOptions::new`].
///
/// ```
/// use cadmiumdove::set::PatternSet;
/// use cadmiumdove::Pattern;
///
/// let set = ["*.o", "*.a"].into_iter().map(Pattern::new).collect::<Result<PatternSet, _>>()?;
/// assert_eq!(set.first_match("x.a"), Some(1));
/// # Ok::<(), cadmiumdove::PatternError>(())
/// ```
impl FromIterator<Pattern> for PatternSet {
    fn from_iter<I: IntoIterator<Item = Pattern>>(patterns: I) -> Self {
        PatternSet::new(patterns.into_iter().collect(), MatchOptions::new())
    }
}

/// The patterns of the set, in their order.
impl<'a> IntoIterator for &'a PatternSet {
    type Item = &'a Pattern;
    type IntoIter = slice::Iter<'a, Pattern>;

    fn into_iter(self) -> Self::IntoIter {
        self.patterns().iter()
    }
}

/// The source is the fault of the text, without the number.
///
/// ```
/// use cadmiumdove::set::PatternSet;
/// use cadmiumdove::MatchOptions;
/// use std::error::Error;
///
/// let refusal = PatternSet::from_texts(["a", "["], MatchOptions::new()).unwrap_err();
/// let fault = "Pattern syntax error near position 0: invalid range pattern";
/// assert_eq!(refusal.source().unwrap().to_string(), fault);
/// ```
impl Error for SetRefusal {
    fn source(&self) -> Option<&(dyn Error + 'static)> {
        let SetRefusal::Syntax(_, error) = self;
        Some(error)
    }
}

/// The source is the fault of the text or of its alternative, without the numbers.
impl Error for BraceSetRefusal {
    fn source(&self) -> Option<&(dyn Error + 'static)> {
        match self {
            BraceSetRefusal::Braces(_, error) => Some(error),
            BraceSetRefusal::Pattern(_, _, error) => Some(error),
        }
    }
}

/// This lets a reason be the source of an error.
impl Error for Reason {}

/// The same as [`IgnoreList::new`].
///
/// ```
/// use cadmiumdove::ignore::IgnoreList;
///
/// let list: IgnoreList = "*.o\n".parse()?;
/// assert!(list.is_ignored("a.o", false));
/// # Ok::<(), cadmiumdove::ignore::RuleRefusal>(())
/// ```
impl FromStr for IgnoreList {
    type Err = RuleRefusal;

    fn from_str(text: &str) -> Result<Self, RuleRefusal> {
        IgnoreList::new(text)
    }
}

impl AsRef<str> for Name {
    fn as_ref(&self) -> &str {
        self.as_str()
    }
}

/// The name's text, with the format's width and precision.
impl fmt::Display for Name {
    fn fmt(&self, f: &mut fmt::Formatter<'_>) -> fmt::Result {
        f.pad(self.as_str())
    }
}

/// The same as [`Name::new`].
///
/// ```
/// use cadmiumdove::walk::Name;
///
/// let name: Name = String::from("a.rs").try_into()?;
/// assert_eq!(name.to_string(), "a.rs");
/// # Ok::<(), String>(())
/// ```
impl TryFrom<String> for Name {
    type Error = String;

    fn try_from(text: String) -> Result<Self, String> {
        Name::new(text)
    }
}

/// After `None` comes only `None`.
impl<T: Tree> FusedIterator for Paths<T> {}
