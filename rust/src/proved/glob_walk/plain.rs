//! Made by `bin/rust_crate` from `crates/glob_walk/src/plain.rt`, where its contracts are: sha256 068b1a7ac9a1cc21.
//!
//! Which patterns are plain.

use crate::proved::glob_pattern::{MatchOptions, PatternError};
use crate::proved::glob_tree::begins_with_dot;
use crate::proved::glob_walk::component::{is_current_or_parent, is_literal, is_recursive};
use crate::proved::glob_walk::plan::{past_root, Plan};

/// Whether the pattern is plain, so that its walk finds what the undivided pattern matches: no component is empty, `.`
/// or `..`, and each that has a wildcard and begins with a dot is right after a `**`. A `/` at the start or at the end
/// makes no component, but the pattern `/` has an empty component, and so does the empty pattern.
///
/// For example, `src/**/*.rs` is plain, `src/./*.rs` and `.*` are not, and `a**` is refused.
///
/// ```
/// use cadmiumdove::walk::is_plain;
///
/// assert!(is_plain("src/**/*.rs")? && !is_plain("src/./*.rs")?);
/// assert!(is_plain("a**").is_err());
/// # Ok::<(), cadmiumdove::PatternError>(())
/// ```
///
/// # Errors
///
/// The errors are those of [`WalkMachine::new`](crate::proved::glob_walk::WalkMachine::new).
///
/// <details><summary>Contract</summary>
///
/// ```text
/// ensures plain { IfOk result (λ yes. yes ≡ is_plain pattern.now) }
/// ensures accepted { IfOk result (λ _. walk_fault pattern.now ≡ None) }
/// ensures refused { IfErr result (RefusesWith (walk_fault pattern.now)) }
/// ```
///
/// </details>
pub fn is_plain(pattern: &str) -> Result<bool, PatternError> {
    Plan::read(pattern, MatchOptions::new())?;
    Ok(are_plain(past_root(pattern)))
}

/// Whether the components of a text, which are the parts between separators, are plain.
fn are_plain(text: &str) -> bool {
    let mut after_recursive = false;
    for component in text.split('/') {
        if !is_plain_component(after_recursive, component) {
            return false;
        }
        after_recursive = is_recursive(component);
    }
    true
}

/// Whether the component is plain; `after_recursive` says whether it is right after a `**`.
fn is_plain_component(after_recursive: bool, component: &str) -> bool {
    !component.is_empty()
        && !is_current_or_parent(component)
        && (is_literal(component) || !begins_with_dot(component) || after_recursive)
}
