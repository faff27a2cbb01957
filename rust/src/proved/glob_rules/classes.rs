//! Made by `bin/rust_crate` from `crates/glob_rules/src/classes.rt`, where its contracts are: sha256 1b44f261813a978c.
//!
//! The character classes of a bracket, as in `[[:digit:]_]`.

/// A character class as git defines it: all its characters are ASCII.
#[derive(Clone, Copy)]
pub enum Class {
    /// Letters and digits.
    Alnum,
    /// Letters.
    Alpha,
    /// Space and tab.
    Blank,
    /// Control characters.
    Cntrl,
    /// Digits.
    Digit,
    /// Printable characters except the space.
    Graph,
    /// Lower case letters.
    Lower,
    /// Printable characters.
    Print,
    /// Printable characters except the space, letters and digits.
    Punct,
    /// Space, tab, LF and CR. In C this class also has VT and FF.
    Space,
    /// Upper case letters.
    Upper,
    /// Hexadecimal digits, in either case.
    Xdigit,
}

/// The classes by name.
const CLASSES: [(&[u8], Class); 12] = [
    (b"alnum", Class::Alnum),
    (b"alpha", Class::Alpha),
    (b"blank", Class::Blank),
    (b"cntrl", Class::Cntrl),
    (b"digit", Class::Digit),
    (b"graph", Class::Graph),
    (b"lower", Class::Lower),
    (b"print", Class::Print),
    (b"punct", Class::Punct),
    (b"space", Class::Space),
    (b"upper", Class::Upper),
    (b"xdigit", Class::Xdigit),
];

impl Class {
    /// The class with this name, if there is one.
    pub fn named(name: &[u8]) -> Option<Class> {
        class_in(&CLASSES, name)
    }

    /// Whether `c` is in the class.
    pub fn has(self, c: u8) -> bool {
        match self {
            Class::Alnum => c.is_ascii_alphanumeric(),
            Class::Alpha => c.is_ascii_alphabetic(),
            Class::Blank => c == b'\t' || c == b' ',
            Class::Cntrl => c.is_ascii_control(),
            Class::Digit => c.is_ascii_digit(),
            Class::Graph => c.is_ascii_graphic(),
            Class::Lower => c.is_ascii_lowercase(),
            Class::Print => c == b' ' || c.is_ascii_graphic(),
            Class::Punct => c.is_ascii_punctuation(),
            Class::Space => c == b'\t' || c == b'\n' || c == b'\r' || c == b' ',
            Class::Upper => c.is_ascii_uppercase(),
            Class::Xdigit => c.is_ascii_hexdigit(),
        }
    }
}

/// The class with this name in the table.
fn class_in(mut classes: &[(&[u8], Class)], name: &[u8]) -> Option<Class> {
    while let [class, rest @ ..] = classes {
        if name == class.0 {
            return Some(class.1);
        }
        classes = rest;
    }
    None
}

/// The text before its first `]`, or all of it if it has none.
pub fn before_close(text: &[u8]) -> &[u8] {
    match text.iter().position(|c| *c == b']') {
        Some(end) => &text[..end],
        None => text,
    }
}
