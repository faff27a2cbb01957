//! Made by `bin/rust_crate` from `crates/glob_pattern/src/matcher/positions.rt`, where its contracts are: sha256 a85235734ce3e2e5.
//! `Vec::with_capacity` and `resize` are there `vec![x; n]`: memory that is asked for as zeros is never what was freed
//! last, and costs more.
//!
//! A bit-parallel automaton (NFA). Its states are positions: position n is alive if the first n tokens split the
//! characters so far, or if token n has begun a piece that may go on. Each position is a bit, and a character moves all
//! of them at once.

use super::shape_word::ShapeWord;
use super::{Judge, WORD};

/// The shapes that a run goes over.
#[derive(Clone, Copy)]
pub struct Span {
    /// The number of leading shapes that have to split all characters. Whether shapes follow decides where a last
    /// `Deep` ends.
    pub end: usize,
    /// Bits in the word of the last shape before `end`: once one is alive, this shape takes all characters that are
    /// left.
    pub accepting: u64,
}

/// Words `low..high`. Nothing is alive in any other word.
#[derive(Clone, Copy)]
struct Live {
    low: usize,
    high: usize,
}

/// Whether the shapes before the span's end split the characters. Only contracts read `tokens`, here and below.
#[inline(always)]
pub fn decide<J: Judge>(words: &[ShapeWord], span: Span, judge: &mut J) -> bool {
    match words {
        [word] if word.is_flat() => run(*word, true, span, judge),
        [word] => run(*word, false, span, judge),
        _ => {
            let mut alive = Vec::with_capacity(words.len());
            alive.resize(words.len(), 0);
            run_words(words, alive.as_mut_slice(), span, judge)
        }
    }
}

/// [`decide`] for one word. Flat shapes have a faster step, which `flat` chooses.
#[inline(always)]
fn run<J: Judge>(word: ShapeWord, flat: bool, span: Span, judge: &mut J) -> bool {
    let mut alive = word.step(0, judge.opens(), true);
    while alive != 0 {
        if alive & span.accepting != 0 {
            return true;
        }
        if !judge.step() {
            return is_whole(span.end, &[alive]);
        }
        let took = ask(word, 0, alive, judge);
        alive = word.step_by(flat, took, judge.opens());
    }
    false
}

/// [`decide`] for several words. `alive` is room for the position set: a zero for each word.
#[inline(always)]
fn run_words<J: Judge>(words: &[ShapeWord], alive: &mut [u64], span: Span, judge: &mut J) -> bool {
    let Some(mut live) = run_first(words, alive, judge) else {
        return false;
    };
    let last = word_before(span.end);
    while live.high != 0 {
        if alive[last] & span.accepting != 0 {
            return true;
        }
        if !judge.step() {
            return is_whole(span.end, alive);
        }
        live = step_words(words, alive, live, judge);
    }
    false
}

/// Steps the first word, in a loop of its own, until a position in another word is alive: then it returns the live
/// words. Returns `None` if the characters end first or nothing is alive: then the shapes do not split the characters.
#[inline(always)]
fn run_first<J: Judge>(words: &[ShapeWord], alive: &mut [u64], judge: &mut J) -> Option<Live> {
    let word = words[0];
    let mut first = word.step(0, judge.opens(), true);
    if first >> WORD != 0 {
        return Some(set_words(words, judge.opens(), 0, alive));
    }
    while first != 0 {
        if !judge.step() {
            return None;
        }
        let took = ask(word, 0, first, judge);
        first = word.step(took, judge.opens(), false);
        if first >> WORD != 0 {
            alive[0] = first;
            return Some(set_words(words, judge.opens(), 1, alive));
        }
    }
    None
}

/// Asks the tokens of word `n` that are alive about the last character stepped over. Returns those that take it.
#[inline(always)]
fn ask<J: Judge>(word: ShapeWord, n: usize, alive: u64, judge: &mut J) -> u64 {
    judge.takes_each(n, alive & word.tokens)
}

/// Sets the words from number `from` on, which must be 0, where the shapes before them split the characters so far and
/// no token of theirs has taken the last one. Returns the live words.
fn set_words(words: &[ShapeWord], opens: bool, from: usize, alive: &mut [u64]) -> Live {
    let mut whole = true;
    for n in from..alive.len() {
        if !whole {
            return Live { low: 0, high: n };
        }
        let word = words[n].step(0, opens, whole);
        alive[n] = word;
        whole = word >> WORD != 0;
    }
    Live { low: 0, high: alive.len() }
}

/// The number of the word with the last shape before `end`; 0 if there is no such shape.
#[inline(always)]
fn word_before(end: usize) -> usize {
    end.saturating_sub(1) / WORD
}

/// Whether the shapes before `end` split the characters: whether the position after the last one is alive.
#[inline(always)]
fn is_whole(end: usize, alive: &[u64]) -> bool {
    // In a full last word this is the highest bit.
    let word = word_before(end);
    (alive[word] >> (end - WORD * word)) & 1 != 0
}

/// Steps the words to the judge's place. Returns the words that are live there. A word with nothing alive is skipped,
/// unless the shapes before it split the characters so far.
#[inline(always)]
fn step_words<J: Judge>(words: &[ShapeWord], alive: &mut [u64], live: Live, judge: &mut J) -> Live {
    let opens = judge.opens();
    let mut next = Live { low: alive.len(), high: 0 };
    let mut whole = false;
    for n in live.low..alive.len() {
        if !whole && live.high <= n {
            return next;
        }
        let word = step_word(words[n], n, alive[n], opens, whole, judge);
        alive[n] = word;
        next = next.with(n, word);
        whole = word >> WORD != 0;
    }
    next
}

/// What is alive in word `n` after the last character stepped over. `opens` and `whole` are as in [`ShapeWord::step`].
#[inline(always)]
fn step_word<J: Judge>(word: ShapeWord, n: usize, alive: u64, opens: bool, whole: bool, judge: &mut J) -> u64 {
    if alive == 0 && !whole {
        return 0;
    }
    let took = ask(word, n, alive, judge);
    word.step(took, opens, whole)
}

impl Live {
    /// These words and word `n`, unless that is 0.
    #[inline(always)]
    fn with(self, n: usize, word: u64) -> Self {
        if word == 0 {
            self
        } else {
            Live { low: self.low.min(n), high: n + 1 }
        }
    }
}
