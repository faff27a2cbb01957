//! Made by `bin/rust_crate` from `crates/glob_tree/src/name.rt`, where its contracts are: sha256 93538640869ce295.
//! Not derived there: `Name`.
//!
//! Names of entries.

/// A proper name, as the entries of directories have: not empty, not `.` or `..`, and without `/` and NUL.
///
/// `a.rs` and `...` are names; `a/b` is not.
///
/// ```
/// use cadmiumdove::walk::Name;
///
/// assert_eq!(Name::new("a.rs".to_owned())?.as_str(), "a.rs");
/// assert_eq!(Name::new("a/b".to_owned()), Err("a/b".to_owned()));
/// # Ok::<(), String>(())
/// ```
#[derive(Debug, Clone, PartialEq, Eq, PartialOrd, Ord, Hash)]
pub struct Name {
    text: String,
}

impl Name {
    /// Makes the name `text`, such as `a.rs`.
    ///
    /// # Errors
    ///
    /// The error is `text` itself, if it is not a proper name: `Name::new(text)` is `Err(text)` for `..` and for `a/b`.
    ///
    /// <details><summary>Contract</summary>
    ///
    /// ```text
    /// ensures proper { is_ok result ≡ is_proper_text (string_bytes text) }
    /// ensures name { IfOk result (λ name. name ≡ string_bytes text) }
    /// ensures back { IfErr result (λ back. back ≡ text) }
    /// ```
    ///
    /// </details>
    pub fn new(text: String) -> Result<Self, String> {
        if is_proper(text.as_str()) {
            Ok(Name { text })
        } else {
            Err(text)
        }
    }

    /// The text of the name, such as `a.rs`.
    ///
    /// <details><summary>Contract</summary>
    ///
    /// ```text
    /// ensures { result.now ≡ self.now }
    /// ```
    ///
    /// </details>
    #[must_use]
    pub fn as_str(&self) -> &str {
        self.text.as_str()
    }
}

/// Whether the text is a proper name: `a.rs` is, `..` is not.
pub fn is_proper(text: &str) -> bool {
    names_entry(text.as_bytes()) && !has_barred(text)
}

/// Whether the bytes can name an entry: they are not empty, `.` or `..`.
pub(crate) fn names_entry(bytes: &[u8]) -> bool {
    !bytes.is_empty() && bytes != b".".as_slice() && bytes != b"..".as_slice()
}

/// Whether some byte is `/` or NUL, which no name contains.
fn has_barred(text: &str) -> bool {
    text.as_bytes().iter().any(|&byte| byte == b'/' || byte == 0)
}
