//! Made by `bin/rust_crate` from `crates/glob_pattern/src/pattern/compiled.rt`, where its contracts are: sha256 f16ecd9859f6404a.
//!
//! What a match reads of a pattern, and how it goes: it compares the ends of the text, searches for a needle, and runs
//! the automaton over what is between.

use crate::proved::glob_pattern::options::MatchOptions;
use crate::proved::glob_pattern::pattern::automaton::Automaton;
use crate::proved::glob_pattern::pattern::ends::Ends;
use crate::proved::glob_pattern::pattern::needle::Needle;
use crate::proved::glob_pattern::token::bracket::Bracket;
use crate::proved::glob_pattern::token::Token;

/// How many tokens between the ends are searched for a needle. Later literals would seldom reject more texts.
const SEARCHED: usize = 128;

/// What a match reads of a pattern's tokens, made once at parsing.
pub struct Compiled {
    tokens: Vec<Token<Bracket>>,
    ends: Ends,
    needle: Needle,
    // the automaton of the tokens between the ends
    automaton: Automaton,
}

impl Compiled {
    /// The tokens, in the order of the pattern.
    #[inline(always)]
    pub fn tokens(&self) -> &[Token<Bracket>] {
        self.tokens.as_slice()
    }

    /// The character of token `number`, if there is such a token and it is a literal.
    pub fn literal_at(&self, number: usize) -> Option<char> {
        match self.tokens.get(number) {
            Some(Token::Literal(c)) => Some(*c),
            _ => None,
        }
    }

    /// Compiles the tokens.
    pub fn new(tokens: Vec<Token<Bracket>>) -> Self {
        let list = tokens.as_slice();
        let ends = Ends::of(list);
        let rest = &list[ends.lead..];
        let between = list.len() - ends.trail - ends.lead;
        // The first and the last token between the ends are wildcards, so that a literal needs three.
        let needle = if between < 3 { Needle::NONE } else { Needle::of(&rest[..between.min(SEARCHED)]) };
        Compiled { automaton: Automaton::new(rest, between), tokens, ends, needle }
    }

    /// No tokens.
    pub fn empty() -> Self {
        Compiled { tokens: Vec::new(), ends: Ends::NONE, needle: Needle::NONE, automaton: Automaton::empty() }
    }

    /// Whether the pattern's tokens match the text.
    #[inline(always)]
    pub fn matches(&self, pattern: &str, text: &str, options: MatchOptions) -> bool {
        let tokens = self.tokens.as_slice();
        if self.ends.reject(tokens, pattern, text, options) {
            return false;
        }
        self.matches_in_full(pattern, text, options)
    }

    /// [`matches`](Self::matches) out of line, for texts that [`Ends::reject`] lets through.
    #[inline(never)]
    fn matches_in_full(&self, pattern: &str, text: &str, options: MatchOptions) -> bool {
        // The count is dropped here, and the compiler leaves it out.
        let (answer, _) = self.matches_asking(pattern, text, options);
        answer
    }

    /// The answer of [`matches`](Self::matches), and how many times a token was asked whether it takes a character.
    /// Each token at an end counts, even if the text is rejected before the token is asked. If the text is not empty, one
    /// more counts for each end that has a token, since [`Ends::reject`] may compare the first and the last byte.
    #[inline(always)]
    fn matches_asking(&self, pattern: &str, text: &str, options: MatchOptions) -> (bool, u128) {
        let tokens = self.tokens.as_slice();
        let ends = self.ends;
        let first = ends.lead.min(text.len()).min(1);
        let last = ends.trail.min(text.len()).min(1);
        let asked = (ends.lead + ends.trail + (first + last)) as u128;
        let Some(part) = ends.strip(tokens, pattern, text, options) else {
            return (false, asked);
        };
        let between = tokens.len() - ends.trail - ends.lead;
        if between == 0 {
            return (part.text.is_empty(), asked);
        }
        if !self.needle.may_be_in(part.text.as_bytes()) {
            return (false, asked);
        }
        let rest = &tokens[ends.lead..];
        let (answer, count) = self.automaton.matches(rest, between, part.text, part.opening, options);
        (answer, asked + count)
    }
}

impl Clone for Compiled {
    fn clone(&self) -> Self {
        Compiled {
            tokens: self.tokens.clone(),
            ends: self.ends,
            needle: self.needle,
            automaton: self.automaton.clone(),
        }
    }
}
