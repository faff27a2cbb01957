//! Made by `bin/rust_crate` from `crates/glob_search/src/beginnings/growing.rt`, where its contracts are: sha256 472c0914107dd636.
//!
//! Adds patterns to the tree of beginnings.

use crate::proved::glob_pattern::{Pattern, PatternError};
use crate::proved::glob_search::beginnings::node::{Component, Node};
use crate::proved::glob_search::beginnings::Beginnings;

impl Beginnings {
    /// Adds the beginnings of a pattern.
    pub(super) fn add(&mut self, pattern: &str) -> Result<(), PatternError> {
        Pattern::new(pattern)?;
        let at = self.walk(pattern)?;
        let end = self.end_of(at)?;
        self.mark_whole(end);
        Ok(())
    }

    /// Adds the beginnings that the components of a pattern lead to, one after another, and returns the last one.
    fn walk(&mut self, pattern: &str) -> Result<usize, PatternError> {
        let mut at = 0;
        for component in pattern.split('/') {
            at = self.child(at, component)?;
        }
        Ok(at)
    }

    /// The beginning that is the whole pattern, given the beginning of its last component. They differ after `**`,
    /// which needs one more name.
    fn end_of(&mut self, at: usize) -> Result<usize, PatternError> {
        if self.nodes[at].is_deep {
            return self.child(at, "*");
        }
        Ok(at)
    }

    /// Marks a beginning as a whole pattern.
    fn mark_whole(&mut self, at: usize) {
        self.nodes[at].mark_whole();
    }

    /// The beginning that a component leads to, added if it is missing. After `**`, another `**` leads to the same
    /// beginning.
    fn child(&mut self, at: usize, component: &str) -> Result<usize, PatternError> {
        let component = self.component(component)?;
        if component.is_deep() && self.nodes[at].is_deep {
            return Ok(at);
        }
        if let Some(node) = self.nodes[at].led_to(&component) {
            return Ok(node);
        }
        Ok(self.lead(at, component))
    }

    /// Makes a set for each beginning from which many components with wildcards lead on.
    pub(super) fn gather(&mut self) {
        for number in 0..self.nodes.len() {
            self.gather_at(number);
        }
    }

    /// Makes a set of the components with wildcards that lead on from this beginning, if there are many.
    fn gather_at(&mut self, at: usize) {
        self.nodes[at].gather(self.options)
    }

    /// Reads a component. The error is its fault.
    fn component(&self, text: &str) -> Result<Component, PatternError> {
        if text == "**" {
            return Ok(Component::Deep);
        }
        if !has_wildcard(text) {
            return Ok(Component::Literal(self.key_of(text)));
        }
        Ok(Component::Wild(Pattern::new(text)?))
    }

    /// Adds a beginning to which a component leads from the beginning `at`.
    fn lead(&mut self, at: usize, component: Component) -> usize {
        let node = self.nodes.len();
        let is_deep = component.is_deep();
        self.nodes.push(Node::new(is_deep));
        self.nodes[at].lead(component, node);
        node
    }

    /// The text by which literals are compared.
    fn key_of(&self, text: &str) -> String {
        if self.options.case_sensitive {
            String::from(text)
        } else {
            text.to_ascii_lowercase()
        }
    }
}

/// Whether some character of the component is a wildcard.
fn has_wildcard(component: &str) -> bool {
    component.as_bytes().iter().any(|&byte| byte == b'?' || byte == b'*' || byte == b'[')
}
