//! Made by `bin/rust_crate` from `crates/glob_pattern/src/pattern/escape.rt`, where its contracts are: sha256 8ca735165486f6ab.
//!
//! Escaped texts: patterns that match the text they are made from.

use crate::proved::glob_pattern::pattern::Pattern;

impl Pattern {
    /// Escapes a text to a pattern that matches it: puts each `?`, `*`, `[` and `]` in a bracket of its own, and keeps
    /// every other character. `a[1].rs` becomes `a[[]1[]].rs`.
    ///
    /// ```
    /// # use cadmiumdove::Pattern;
    /// let escaped = Pattern::escape("a[1].rs");
    /// assert_eq!(escaped, "a[[]1[]].rs");
    /// assert!(Pattern::new(escaped.as_str())?.matches("a[1].rs"));
    /// # Ok::<(), Box<dyn std::error::Error>>(())
    /// ```
    ///
    /// <details><summary>Contract</summary>
    ///
    /// ```text
    /// ensures { IfOk result
    ///     (λ t. chars (string_bytes t) ≡ escaped_text (chars s.now)) }
    /// ```
    ///
    /// </details>
    #[must_use]
    pub fn escape(s: &str) -> String {
        let specials = count_special(s);
        if specials == 0 {
            return String::from(s);
        }
        // Each special character grows from one byte to three.
        let length = specials.saturating_mul(2).saturating_add(s.len());
        let mut escaped = String::with_capacity(length);
        for c in s.chars() {
            push_escaped(&mut escaped, c);
        }
        escaped
    }
}

/// The number of special characters, each of one byte.
fn count_special(text: &str) -> usize {
    text.bytes().filter(|byte| is_special(char::from(*byte))).count()
}

/// Appends a character, escaped.
#[inline(always)]
fn push_escaped(escaped: &mut String, c: char) {
    if !is_special(c) {
        return escaped.push(c);
    }
    escaped.push('[');
    escaped.push(c);
    escaped.push(']')
}

/// Whether the character is one of `?`, `*`, `[` and `]`.
fn is_special(c: char) -> bool {
    matches!(c, '?' | '*' | '[' | ']')
}
