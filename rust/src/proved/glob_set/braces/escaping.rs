//! Made by `bin/rust_crate` from `crates/glob_set/src/braces/escaping.rt`, where its contracts are: sha256 b03024f8bb2e4995.
//!
//! Escaped texts: patterns with braces that match the text they are made from.

/// Escapes a text to a pattern with braces that matches it: puts each `?`, `*`, `[`, `]`, `{` and `}` in a bracket of
/// its own, and keeps every other character. `{a}*` becomes `[{]a[}][*]`, which
/// [`expand`](crate::proved::glob_set::braces::expand) returns as its only alternative.
///
/// ```
/// use cadmiumdove::set::braces::{escape, expand};
///
/// assert_eq!(expand(&escape("{a}*"))?, ["[{]a[}][*]"]);
/// # Ok::<(), cadmiumdove::set::braces::BraceError>(())
/// ```
///
/// <details><summary>Contract</summary>
///
/// ```text
/// ensures escaped { IfOk result
///     (λ escaped. chars (string_bytes escaped) ≡ escaped_text (chars text.now)) }
/// ensures stands { IfOk result (λ escaped. StandsFor (string_bytes escaped) text.now) }
/// ```
///
/// </details>
#[must_use]
pub fn escape(text: &str) -> String {
    let mut escaped = String::new();
    for c in text.chars() {
        push_escaped(&mut escaped, c);
    }
    escaped
}

/// Appends a character, escaped.
fn push_escaped(escaped: &mut String, c: char) {
    if !is_special(c) {
        return escaped.push(c);
    }
    escaped.push('[');
    escaped.push(c);
    escaped.push(']')
}

/// Whether the character has a meaning in patterns or braces.
fn is_special(c: char) -> bool {
    matches!(c, '?' | '*' | '[' | ']' | '{' | '}')
}
