//! Made by `bin/rust_crate` from `crates/glob_set/src/pattern_keys.rt`, where its contracts are: sha256 ec0318f6c87546a1.
//!
//! The keys of a pattern: literals that every matching text has at its end, at the start of a component, or as a whole
//! component.

use crate::proved::glob_pattern::{literal_at, token_kind, tokens_len, Pattern, TokenKind};
use crate::proved::glob_set::components::{hash_before, Component};
use crate::proved::glob_set::key::Key;

/// The greatest length of a beginning or an ending in bytes. A text is looked up by each length that occurs.
const LONGEST: u8 = 8;

/// Replaces the content of `keys` with the keys of the pattern: its endings, its components without wildcards, and the
/// beginnings of its components. All are made of literals.
pub fn find_keys(pattern: &Pattern, keys: &mut Vec<Key>) {
    keys.clear();
    push_endings(pattern, keys);
    push_components(pattern, keys)
}

/// Adds the endings and extensions. For `*1.js` these are the endings `s`, `js`, `.js` and `1.js` and the extension
/// `js`.
fn push_endings(pattern: &Pattern, keys: &mut Vec<Key>) {
    let mut hash = 0;
    let mut len = 0;
    let mut token = tokens_len(pattern);
    while token > 0 {
        token -= 1;
        let Some(c) = literal_at(pattern, token) else {
            return;
        };
        if c == '.' {
            keys.push(Key::Extension(hash, len));
        }
        hash = hash_before(hash, c);
        len += c.len_utf8() as u8;
        if len > LONGEST {
            return;
        }
        keys.push(Key::Ending(hash, len));
    }
}

/// Adds the keys of components and of their beginnings.
fn push_components(pattern: &Pattern, keys: &mut Vec<Key>) {
    let mut component = Some(Component::start());
    for token in 0..tokens_len(pattern) {
        push_key(pattern, token, component, keys);
        component = read_token(pattern, token, component);
    }
    if let Some(last) = component {
        keys.push(Key::Component(last.hash));
    }
}

/// Adds the key right before this token, if there is one.
fn push_key(pattern: &Pattern, token: usize, component: Option<Component>, keys: &mut Vec<Key>) {
    if let Some(key) = key_before(pattern, token, component) {
        keys.push(key);
    }
}

/// The key right before this token, given the part of the component before it.
fn key_before(pattern: &Pattern, token: usize, component: Option<Component>) -> Option<Key> {
    let component = component?;
    if is_separator(pattern, token) {
        return Some(Key::Component(component.hash));
    }
    if component.len == 0 || component.len > LONGEST {
        return None;
    }
    Some(Key::Beginning(component.hash, component.len))
}

/// The component after this token, if it is known.
fn read_token(pattern: &Pattern, token: usize, component: Option<Component>) -> Option<Component> {
    if is_separator(pattern, token) {
        return Some(Component::start());
    }
    let component = component?;
    match literal_at(pattern, token) {
        Some(c) => Some(component.after_char(c)),
        None => read_wildcard(pattern, token, component),
    }
}

/// Whether this token is a `/`.
fn is_separator(pattern: &Pattern, token: usize) -> bool {
    matches!(literal_at(pattern, token), Some('/'))
}

/// The component after this wildcard, if it is known: after an inner `**` at the start of a component, another one
/// starts.
fn read_wildcard(pattern: &Pattern, token: usize, component: Component) -> Option<Component> {
    if component.hash == 0 && component.len == 0 && is_inner_recursive(pattern, token) {
        return Some(component);
    }
    None
}

/// Whether this token is a `**` that is not the last token.
fn is_inner_recursive(pattern: &Pattern, token: usize) -> bool {
    token < tokens_len(pattern) - 1 && matches!(token_kind(pattern, token), TokenKind::Recursive)
}
