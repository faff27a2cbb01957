//! Made by `bin/rust_crate` from `crates/glob_pattern/src/pattern/judge/mask_judge.rt`, where its contracts are: sha256 f1a75e76861be34e.
//!
//! A judge that answers for all tokens of a word at once.

use super::TextJudge;
use crate::proved::glob_pattern::matcher::Judge;
use crate::proved::glob_pattern::pattern::char_masks::{CharMasks, Rows};

/// A judge that looks up in masks which tokens take a character.
pub struct MaskJudge<'a> {
    judge: TextJudge<'a>,
    rows: Rows<'a>,
    // the class of the last character stepped over
    class: usize,
}

impl<'a> MaskJudge<'a> {
    /// The judge, which must not have stepped, with the masks of its tokens in `words` words.
    #[inline(always)]
    pub fn new(judge: TextJudge<'a>, masks: &'a CharMasks) -> Self {
        let rows = masks.rows(judge.options.case_sensitive);
        MaskJudge { judge, rows, class: 0 }
    }
}

impl Judge for MaskJudge<'_> {
    #[inline(always)]
    fn step(&mut self) -> bool {
        if !self.judge.advance() {
            return false;
        }
        let judge = &self.judge;
        self.class = self.rows.class_of(judge.options, judge.before == '/', judge.current);
        true
    }

    #[inline(always)]
    fn opens(&self) -> bool {
        self.judge.opens()
    }

    #[inline(always)]
    fn takes(&mut self, token: usize) -> bool {
        self.judge.count += 1;
        self.judge.is_taken(token)
    }

    #[inline(always)]
    fn takes_each(&mut self, word: usize, asked: u64) -> u64 {
        if asked == 0 {
            return 0;
        }
        self.judge.count += u128::from(asked.count_ones());
        asked & self.rows.taking(word, self.class)
    }

    #[inline(always)]
    fn asked(&self) -> u128 {
        self.judge.asked()
    }
}
