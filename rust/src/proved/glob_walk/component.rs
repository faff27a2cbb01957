//! Made by `bin/rust_crate` from `crates/glob_walk/src/component.rt`, where its contracts are: sha256 6d9ddf77dbac3147.
//!
//! The components of a pattern, each read once.

use crate::proved::glob_pattern::{MatchOptions, Pattern, PatternError};

/// What is kept of a component: the text of a literal component, the pattern of a component with wildcards, and nothing
/// for `**`, since no name is matched against it.
enum Form {
    Literal(String),
    Recursive,
    Wild(Pattern),
}

/// A component of a pattern.
pub struct Component {
    form: Form,
}

impl Component {
    /// The text of the component.
    pub fn as_str(&self) -> &str {
        match &self.form {
            Form::Literal(text) => text.as_str(),
            Form::Recursive => "**",
            Form::Wild(pattern) => pattern.as_str(),
        }
    }

    /// Whether it has no wildcard, and so is looked up by name.
    pub fn is_literal(&self) -> bool {
        match &self.form {
            Form::Literal(_) => true,
            Form::Recursive | Form::Wild(_) => false,
        }
    }

    /// Whether it is `**`.
    pub fn is_recursive(&self) -> bool {
        match &self.form {
            Form::Recursive => true,
            Form::Literal(_) | Form::Wild(_) => false,
        }
    }

    /// Reads a component. The error is its fault.
    pub fn read(text: &str) -> Result<Self, PatternError> {
        let form = if is_literal(text) {
            Form::Literal(String::from(text))
        } else if is_recursive(text) {
            Form::Recursive
        } else {
            Form::Wild(compile(text)?)
        };
        Ok(Component { form })
    }

    /// Checks a text for a fault, and keeps nothing. The error is the fault.
    pub fn check(text: &str) -> Result<(), PatternError> {
        if is_literal(text) {
            return Ok(());
        }
        compile(text)?;
        Ok(())
    }

    /// Whether it matches the name; `**` matches no name.
    pub fn matches(&self, name: &str, options: MatchOptions) -> bool {
        match &self.form {
            Form::Literal(text) => is_same_text(name, text.as_str(), options.case_sensitive),
            Form::Recursive => false,
            Form::Wild(pattern) => pattern.matches_with(name, options),
        }
    }
}

/// Whether the texts are equal, case-sensitively or not.
fn is_same_text(text: &str, other: &str, case_sensitive: bool) -> bool {
    if case_sensitive {
        text == other
    } else {
        text.eq_ignore_ascii_case(other)
    }
}

/// Compiles a text. The error is its fault.
fn compile(text: &str) -> Result<Pattern, PatternError> {
    Pattern::new(text)
}

/// Whether the component is `**`.
pub fn is_recursive(component: &str) -> bool {
    component == "**"
}

/// Whether the component has no wildcard, and so matches only its own text.
pub fn is_literal(component: &str) -> bool {
    !has_wildcard(component)
}

/// Whether some character of the component is a wildcard.
fn has_wildcard(component: &str) -> bool {
    component.as_bytes().iter().any(|&byte| byte == b'?' || byte == b'*' || byte == b'[')
}

/// Whether the component is `.` or `..`.
pub fn is_current_or_parent(component: &str) -> bool {
    component == "." || component == ".."
}
