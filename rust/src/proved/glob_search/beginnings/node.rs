//! Made by `bin/rust_crate` from `crates/glob_search/src/beginnings/node.rt`, where its contracts are: sha256 e59ab05d1cf9e96f.
//!
//! A node of the tree of beginnings.

use crate::proved::glob_pattern::{MatchOptions, Pattern};
use crate::proved::glob_set::PatternSet;

/// A component of a pattern.
pub enum Component {
    /// A name; in lower case if matching is case-insensitive.
    Literal(String),
    /// A component with wildcards, other than `**`.
    Wild(Pattern),
    /// `**`.
    Deep,
}

impl Component {
    /// Whether it is `**`.
    pub fn is_deep(&self) -> bool {
        matches!(self, Component::Deep)
    }
}

/// A literal name, and where it leads.
pub struct Literal {
    pub text: String,
    /// The number of the beginning that it leads to.
    pub node: usize,
}

/// A component with wildcards, and where it leads.
pub struct Wild {
    pub pattern: Pattern,
    /// The number of the beginning that it leads to.
    pub node: usize,
}

/// A beginning, and the components by which it leads to others.
pub struct Node {
    /// Literal components, in ascending order.
    pub literals: Vec<Literal>,
    /// Components with wildcards, other than `**`.
    pub wilds: Vec<Wild>,
    /// The number of the beginning that `**` leads to, if there is one.
    pub deep: Option<usize>,
    /// Whether it ends in `**`, and so takes any further name that the dot rule allows.
    pub is_deep: bool,
    /// Whether it is a whole pattern.
    pub is_whole: bool,
    /// The components with wildcards as a set, if there are many.
    pub set: Option<PatternSet>,
}

/// The fewest components with wildcards that are kept as a set. Fewer are faster to ask one after another.
const FEWEST_IN_SET: usize = 9;

impl Node {
    /// A beginning that leads to no other yet.
    pub fn new(is_deep: bool) -> Self {
        Node { literals: Vec::new(), wilds: Vec::new(), deep: None, is_deep, is_whole: false, set: None }
    }

    /// The beginning that a component leads to, if there is one.
    pub fn led_to(&self, component: &Component) -> Option<usize> {
        match component {
            Component::Literal(text) => self.literal_leads(text.as_str()),
            Component::Wild(pattern) => self.wild_leads(pattern.as_str()),
            Component::Deep => self.deep,
        }
    }

    /// The beginning that a name leads to, if there is one.
    pub fn literal_leads(&self, text: &str) -> Option<usize> {
        match self.find_literal(text) {
            Ok(place) => Some(self.literals[place].node),
            Err(_) => None,
        }
    }

    /// The beginning that a component with wildcards leads to, if there is one.
    fn wild_leads(&self, text: &str) -> Option<usize> {
        for wild in self.wilds.iter() {
            if wild.pattern.as_str() == text {
                return Some(wild.node);
            }
        }
        None
    }

    /// The index of a literal component, or the index at which it belongs.
    fn find_literal(&self, text: &str) -> Result<usize, usize> {
        self.literals.as_slice().binary_search_by(|literal| literal.text.as_str().cmp(text))
    }

    /// Makes a component lead to a beginning.
    pub fn lead(&mut self, component: Component, node: usize) {
        match component {
            Component::Literal(text) => self.lead_literal(text, node),
            Component::Wild(pattern) => self.lead_wild(pattern, node),
            Component::Deep => {
                self.deep = Some(node);
            }
        }
    }

    /// Makes a name lead to a beginning.
    fn lead_literal(&mut self, text: String, node: usize) {
        let place = self.place_of(text.as_str());
        self.literals.insert(place, Literal { text, node });
    }

    /// The index at which a name belongs among the literals.
    fn place_of(&self, text: &str) -> usize {
        match self.find_literal(text) {
            Ok(place) => place,
            Err(place) => place,
        }
    }

    /// Makes a component with wildcards lead to a beginning.
    fn lead_wild(&mut self, pattern: Pattern, node: usize) {
        self.set = None;
        self.wilds.push(Wild { pattern, node });
    }

    /// Marks it as a whole pattern.
    pub fn mark_whole(&mut self) {
        self.is_whole = true;
    }

    /// Makes a set of its components with wildcards, if there are many. The set matches by these options.
    pub fn gather(&mut self, options: MatchOptions) {
        if self.wilds.len() >= FEWEST_IN_SET {
            let patterns = self.patterns();
            self.set = Some(PatternSet::new(patterns, options));
        }
    }

    /// Its components with wildcards.
    fn patterns(&self) -> Vec<Pattern> {
        let mut patterns = Vec::new();
        for wild in self.wilds.iter() {
            patterns.push(wild.pattern.clone());
        }
        patterns
    }

    /// Whether it can take a further name.
    pub fn goes_on(&self) -> bool {
        !self.is_literal() || !self.literals.is_empty()
    }

    /// Whether it leads on only by literal components.
    pub fn is_literal(&self) -> bool {
        !self.is_deep && self.deep.is_none() && self.wilds.is_empty()
    }
}
