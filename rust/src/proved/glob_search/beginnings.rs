//! Made by `bin/rust_crate` from `crates/glob_search/src/beginnings.rt`, where its contracts are: sha256 ab4f2842e71c258e.
//!
//! The beginnings of patterns, as a tree: what a search still has to match below a directory.
//!
//! A beginning is the first components of some patterns. It is a node of the tree, and leads to beginnings with one
//! more component. In a directory, a beginning is alive if it takes the names of the directory's path: in `src` these
//! are `src` and `src/**`, in `src/a` only `src/**`. Nothing else of the patterns matters there.

mod growing;
mod node;

use crate::proved::glob_pattern::{MatchOptions, PatternError};
use crate::proved::glob_set::{PatternSet, SetRefusal};
use crate::proved::glob_tree::begins_with_dot;
use node::Node;

/// The beginnings of some patterns, and how names are matched. The first is the empty one, the root of the tree.
pub struct Beginnings {
    nodes: Vec<Node>,
    options: MatchOptions,
}

impl Beginnings {
    /// The beginnings of some patterns. The error is the fault of the first faulty pattern: the fault of its whole text
    /// or, if that has none, of its first faulty component.
    pub fn of(patterns: &[&str], options: MatchOptions) -> Result<Self, SetRefusal> {
        let mut nodes = Vec::new();
        nodes.push(Node::new(false));
        let mut beginnings = Beginnings { nodes, options };
        for (number, pattern) in patterns.iter().enumerate() {
            if let Err(refusal) = beginnings.add(pattern) {
                return Err(refusal_of(number, refusal));
            }
        }
        beginnings.gather();
        Ok(beginnings)
    }

    /// The beginnings that are alive in the start directory.
    pub fn at_start(&self) -> Vec<usize> {
        let mut alive = Vec::new();
        self.enliven(0, &mut alive);
        alive
    }

    /// The beginnings that are alive after one more name.
    pub fn after(&self, alive: &[usize], name: &str) -> Vec<usize> {
        if self.options.case_sensitive {
            return self.after_key(alive, name, name);
        }
        let key = name.to_ascii_lowercase();
        self.after_key(alive, name, key.as_str())
    }

    /// The same, also given the text by which the name is compared with literals.
    fn after_key(&self, alive: &[usize], name: &str, key: &str) -> Vec<usize> {
        let mut next = Vec::new();
        for number in alive {
            self.step(*number, name, key, &mut next);
        }
        next.sort_unstable();
        next.dedup();
        next
    }

    /// Adds the beginnings that a name leads to from one beginning.
    fn step(&self, number: usize, name: &str, key: &str, next: &mut Vec<usize>) {
        let Some(node) = self.node(number) else {
            return;
        };
        self.stay(number, node, name, next);
        self.step_literal(node, key, next);
        self.step_wild(node, name, next)
    }

    /// Adds the beginning itself, if it ends in a `**` that may take the name.
    fn stay(&self, number: usize, node: &Node, name: &str, next: &mut Vec<usize>) {
        if node.is_deep && self.is_open(name) {
            next.push(number);
        }
    }

    /// Adds what the literal with this key leads to, if there is one.
    fn step_literal(&self, node: &Node, key: &str, next: &mut Vec<usize>) {
        if let Some(node) = node.literal_leads(key) {
            self.enliven(node, next);
        }
    }

    /// Adds the beginnings that matching components with wildcards lead to.
    fn step_wild(&self, node: &Node, name: &str, next: &mut Vec<usize>) {
        match &node.set {
            Some(set) if set.options() == self.options => self.step_set(set, node, name, next),
            _ => self.step_each(node, name, next),
        }
    }

    /// The same, asking the components one by one.
    fn step_each(&self, node: &Node, name: &str, next: &mut Vec<usize>) {
        for wild in node.wilds.iter() {
            if wild.pattern.matches_with(name, self.options) {
                self.enliven(wild.node, next);
            }
        }
    }

    /// The same, with the components as a set, which is asked once.
    fn step_set(&self, set: &PatternSet, node: &Node, name: &str, next: &mut Vec<usize>) {
        let mut numbers = Vec::new();
        set.matches_into(name, &mut numbers);
        for number in numbers.iter() {
            if let Some(wild) = node.wilds.get(*number) {
                self.enliven(wild.node, next);
            }
        }
    }

    /// Adds a beginning, and the beginning that `**` leads to from there, since `**` may take no name.
    fn enliven(&self, number: usize, alive: &mut Vec<usize>) {
        alive.push(number);
        if let Some(deep) = self.deep_of(number) {
            alive.push(deep);
        }
    }

    /// The beginning that `**` leads to from this one, if there is one.
    fn deep_of(&self, number: usize) -> Option<usize> {
        self.node(number)?.deep
    }

    /// The node of a beginning.
    fn node(&self, number: usize) -> Option<&Node> {
        self.nodes.get(number)
    }

    /// Whether the dot rule lets `**` take the name.
    fn is_open(&self, name: &str) -> bool {
        !self.options.require_literal_leading_dot || !begins_with_dot(name)
    }

    /// Whether one of these beginnings is a whole pattern.
    pub fn is_found(&self, alive: &[usize]) -> bool {
        self.has_whole(alive)
    }

    fn has_whole(&self, alive: &[usize]) -> bool {
        alive.iter().any(|number| self.is_whole(*number))
    }

    fn is_whole(&self, number: usize) -> bool {
        matches!(self.node(number), Some(node) if node.is_whole)
    }

    /// Whether one of these beginnings leads to another.
    pub fn goes_on(&self, alive: &[usize]) -> bool {
        self.has_further(alive)
    }

    fn has_further(&self, alive: &[usize]) -> bool {
        alive.iter().any(|number| self.is_further(*number))
    }

    fn is_further(&self, number: usize) -> bool {
        matches!(self.node(number), Some(node) if node.goes_on())
    }

    /// Whether these beginnings lead on only by literal names, which can be looked up as they are.
    pub fn is_literal(&self, alive: &[usize]) -> bool {
        self.are_looked_up(alive)
    }

    fn are_looked_up(&self, alive: &[usize]) -> bool {
        alive.iter().all(|number| self.is_looked_up(*number))
    }

    /// Whether a beginning leads on only by literal names, which can be looked up as they are.
    fn is_looked_up(&self, number: usize) -> bool {
        let Some(node) = self.node(number) else {
            return false;
        };
        node.is_literal() && (self.options.case_sensitive || node.literals.is_empty())
    }

    /// Whether a directory may have to be entered whose name is not a literal of these beginnings.
    pub fn enters_many(&self, alive: &[usize]) -> bool {
        alive.iter().any(|number| matches!(self.nodes.get(*number), Some(node) if self.leads_on(node)))
    }

    /// Whether `**` or a component with wildcards leads from a node to a node that leads on.
    fn leads_on(&self, node: &Node) -> bool {
        node.is_deep || node.wilds.iter().any(|wild| matches!(self.nodes.get(wild.node), Some(node) if node.goes_on()))
    }

    /// The literal names by which these beginnings lead on, in ascending order.
    pub fn literal_names(&self, alive: &[usize]) -> Vec<&str> {
        let mut names = self.literals_of(alive);
        names.sort_unstable();
        names.dedup();
        names
    }

    /// The literal names by which these beginnings lead on, in no particular order.
    fn literals_of(&self, alive: &[usize]) -> Vec<&str> {
        let mut names = Vec::new();
        for number in alive {
            if let Some(node) = self.node(*number) {
                for literal in node.literals.iter() {
                    names.push(literal.text.as_str());
                }
            }
        }
        names
    }
}

/// The error for the pattern at index `number`.
fn refusal_of(number: usize, refusal: PatternError) -> SetRefusal {
    let error = refusal;
    SetRefusal::Syntax(number, error)
}
