//! Made by `bin/rust_crate` from `crates/glob_rules/src/steps.rt`, where its contracts are: sha256 d8bed8cfd57bf321.
//!
//! What one byte of a rule does, given the bytes before it.

use crate::proved::glob_rules::classes::Class;
use crate::proved::glob_rules::error::Reason;

/// What comes before a byte of a rule with a separator. In other rules both fields are false.
#[derive(Clone, Copy)]
pub struct Prefix {
    /// All of it is unescaped literals.
    pub all_literal: bool,
    /// A component begins after it: it is empty, or ends in a separator.
    pub opening: bool,
}

impl Prefix {
    /// Inside a component, and not only literals.
    const INSIDE: Prefix = Prefix { all_literal: false, opening: false };

    /// At the start of a component, and not only literals.
    const AT_START: Prefix = Prefix { all_literal: false, opening: true };

    /// The prefix with one more literal.
    fn with(self, c: u8) -> Prefix {
        Prefix { opening: c == b'/', ..self }
    }
}

/// What the translation has read last.
#[derive(Clone, Copy)]
pub enum Mode {
    /// A complete unit, and the prefix up to its end.
    Units(Prefix),
    /// A backslash.
    Escape,
    /// A star, and the prefix before it.
    Star(Prefix),
    /// Two or more stars, and the prefix before them, which is `all_literal` or `opening`.
    Stars(Prefix),
    /// Two or more such stars and a backslash.
    EscapedStars,
    /// The `[` of a bracket.
    Open,
    /// `[!` or `[^`.
    Negation,
    /// A range or a class in a bracket: the next byte begins a new item.
    Range,
    /// An item of a bracket that may begin a range.
    Item(u8),
    /// A class in a bracket, up to its `]`.
    InClass,
    /// An item and a hyphen.
    Hyphen(u8),
    /// A backslash in a bracket.
    ItemEscape,
    /// An item, a hyphen and a backslash.
    HyphenEscape(u8),
    /// Something that is refused.
    Refused(Reason),
}

/// Some characters of a bracket.
#[derive(Clone, Copy)]
pub enum BracketSpan {
    /// From the first to the last, both included. Empty if the last is below the first.
    Between(u8, u8),
    /// The characters of a class.
    OfClass(Class),
}

/// What a byte does to the characters of the bracket.
#[derive(Clone, Copy)]
pub enum Change {
    /// Leaves them as they are.
    Keep,
    /// Removes them: a bracket begins.
    Clear,
    /// Adds these.
    Add(BracketSpan),
}

/// What a byte appends to the pattern.
#[derive(Clone, Copy)]
pub enum Writing {
    /// Nothing.
    Nothing,
    /// This byte.
    Byte(u8),
    /// This byte in a bracket of its own.
    Bracketed(u8),
    /// `*/`, which turns the star before it into `**/`.
    StarSlash,
    /// `/**/`, which makes the star before it match one or more directories.
    SlashStars,
    /// The characters of the bracket, and `]`.
    Held,
}

/// What a byte does.
#[derive(Clone, Copy)]
pub struct Step {
    /// The mode after the byte.
    pub mode: Mode,
    /// The change to the bracket's characters.
    pub change: Change,
    /// What is appended to the pattern.
    pub writing: Writing,
}

/// A step that only changes the mode.
fn moves(mode: Mode) -> Step {
    writes(mode, Writing::Nothing)
}

/// A step that leaves the bracket's characters as they are.
fn writes(mode: Mode, writing: Writing) -> Step {
    Step { mode, change: Change::Keep, writing }
}

/// A step that adds the characters from `first` to `last` to the bracket.
fn adds(mode: Mode, first: u8, last: u8) -> Step {
    Step { mode, change: Change::Add(BracketSpan::Between(first, last)), writing: Writing::Nothing }
}

/// A step that refuses the line.
fn refuses(reason: Reason) -> Step {
    moves(Mode::Refused(reason))
}

/// How a byte that matches itself is written.
fn literal(c: u8) -> Writing {
    if c == b'?' || c == b'*' || c == b'[' {
        Writing::Bracketed(c)
    } else {
        Writing::Byte(c)
    }
}

/// A byte after a complete unit.
fn after_units(prefix: Prefix, c: u8) -> Step {
    if c == b'\\' {
        moves(Mode::Escape)
    } else if c == b'*' {
        writes(Mode::Star(prefix), Writing::Byte(c))
    } else if c == b'?' {
        writes(Mode::Units(Prefix::INSIDE), Writing::Byte(c))
    } else if c == b'[' {
        Step { mode: Mode::Open, change: Change::Clear, writing: Writing::Byte(c) }
    } else {
        writes(Mode::Units(prefix.with(c)), Writing::Byte(c))
    }
}

/// A byte after a backslash.
fn after_escape(c: u8) -> Step {
    writes(Mode::Units(Prefix::INSIDE.with(c)), literal(c))
}

/// A byte after one star.
fn after_star(prefix: Prefix, c: u8) -> Step {
    if c != b'*' {
        after_units(Prefix::INSIDE, c)
    } else if prefix.all_literal || prefix.opening {
        moves(Mode::Stars(prefix))
    } else {
        moves(Mode::Star(Prefix::INSIDE))
    }
}

/// A byte after two or more stars that may be a component.
fn after_stars(prefix: Prefix, c: u8) -> Step {
    if c == b'*' {
        moves(Mode::Stars(prefix))
    } else if c == b'\\' {
        moves(Mode::EscapedStars)
    } else if c != b'/' {
        after_units(Prefix::INSIDE, c)
    } else if prefix.opening {
        writes(Mode::Units(Prefix::AT_START), Writing::StarSlash)
    } else {
        refuses(Reason::StarsBehindText)
    }
}

/// A byte after such stars and a backslash.
fn after_escaped_stars(c: u8) -> Step {
    if c == b'/' {
        writes(Mode::Units(Prefix::AT_START), Writing::SlashStars)
    } else {
        after_escape(c)
    }
}

/// A byte after the opening `[`.
fn after_open(c: u8, ahead: &[u8]) -> Step {
    if c == b'!' || c == b'^' {
        writes(Mode::Negation, Writing::Byte(b'!'))
    } else {
        as_first_item(c, ahead)
    }
}

/// The first item of a bracket, which may be `]`.
fn as_first_item(c: u8, ahead: &[u8]) -> Step {
    if c == b']' {
        adds(Mode::Item(c), c, c)
    } else {
        as_item(c, ahead)
    }
}

/// `[` in a bracket: the start of a class, or an item.
fn as_open(ahead: &[u8]) -> Step {
    match ahead {
        [b':', name @ .., b':'] => as_class(Class::named(name)),
        _ => adds(Mode::Item(b'['), b'[', b'['),
    }
}

/// The `[` of a class, which is refused if git does not know the class.
fn as_class(class: Option<Class>) -> Step {
    match class {
        None => refuses(Reason::UnknownClass),
        Some(class) => {
            Step { mode: Mode::InClass, change: Change::Add(BracketSpan::OfClass(class)), writing: Writing::Nothing }
        }
    }
}

/// A byte in a class, which ends at `]` and cannot begin a range.
fn in_class(c: u8) -> Step {
    if c == b']' {
        moves(Mode::Range)
    } else {
        moves(Mode::InClass)
    }
}

/// A byte in a bracket: an item, or the closing `]`.
fn as_item(c: u8, ahead: &[u8]) -> Step {
    if c == b']' {
        writes(Mode::Units(Prefix::INSIDE), Writing::Held)
    } else if c == b'\\' {
        moves(Mode::ItemEscape)
    } else if c == b'[' {
        as_open(ahead)
    } else {
        adds(Mode::Item(c), c, c)
    }
}

/// A byte after an item that may begin a range.
fn after_item(item: u8, c: u8, ahead: &[u8]) -> Step {
    if c == b'-' {
        moves(Mode::Hyphen(item))
    } else {
        as_item(c, ahead)
    }
}

/// A byte after an item and a hyphen: the end of the range. Before `]`, the hyphen is an item itself.
fn after_hyphen(item: u8, c: u8) -> Step {
    if c == b'\\' {
        moves(Mode::HyphenEscape(item))
    } else if c == b']' {
        Step {
            mode: Mode::Units(Prefix::INSIDE),
            change: Change::Add(BracketSpan::Between(b'-', b'-')),
            writing: Writing::Held,
        }
    } else {
        adds(Mode::Range, item, c)
    }
}

/// Whether the next byte is inside a bracket.
fn is_in_bracket(mode: Mode) -> bool {
    match mode {
        Mode::Open
        | Mode::Negation
        | Mode::Range
        | Mode::Item(_)
        | Mode::InClass
        | Mode::Hyphen(_)
        | Mode::ItemEscape
        | Mode::HyphenEscape(_) => true,
        Mode::Units(_) | Mode::Escape | Mode::Star(_) | Mode::Stars(_) | Mode::EscapedStars | Mode::Refused(_) => false,
    }
}

/// The step for a byte that is neither NUL nor, in a bracket, non-ASCII.
fn accepted_step(mode: Mode, c: u8, ahead: &[u8]) -> Step {
    match mode {
        Mode::Units(prefix) => after_units(prefix, c),
        Mode::Escape => after_escape(c),
        Mode::Star(prefix) => after_star(prefix, c),
        Mode::Stars(prefix) => after_stars(prefix, c),
        Mode::EscapedStars => after_escaped_stars(c),
        Mode::Open => after_open(c, ahead),
        Mode::Negation => as_first_item(c, ahead),
        Mode::Range => as_item(c, ahead),
        Mode::Item(item) => after_item(item, c, ahead),
        Mode::InClass => in_class(c),
        Mode::Hyphen(item) => after_hyphen(item, c),
        Mode::ItemEscape => adds(Mode::Item(c), c, c),
        Mode::HyphenEscape(item) => adds(Mode::Range, item, c),
        Mode::Refused(reason) => refuses(reason),
    }
}

/// The step for any byte. `ahead` is the text after it, up to the next `]` or the end.
pub fn step_from(mode: Mode, c: u8, ahead: &[u8]) -> Step {
    if c == 0 {
        refuses(Reason::Nul)
    } else if c >= 128 && is_in_bracket(mode) {
        refuses(Reason::BeyondAscii)
    } else {
        accepted_step(mode, c, ahead)
    }
}
