//! Made by `bin/rust_crate` from `crates/glob_walk/src/machine.rt`, where its contracts are: sha256 9b86259b95c6af55.
//!
//! A walk that asks its caller, and reads nothing by itself.

use crate::proved::glob_pattern::{MatchOptions, PatternError};
use crate::proved::glob_tree::{Entry, Look, Tree};
use crate::proved::glob_walk::error::GlobResult;
use crate::proved::glob_walk::meter::Meter;
use crate::proved::glob_walk::plan::Plan;
use crate::proved::glob_walk::query::QueryKind;
use crate::proved::glob_walk::stack::Stack;
use crate::proved::glob_walk::task::{Accepted, Task, TaskState};
use crate::proved::glob_walk::walker::Walker;
use std::io;

/// What a walk does next.
///
/// ```
/// use cadmiumdove::walk::{Disk, Step, WalkMachine};
/// use cadmiumdove::MatchOptions;
///
/// let (mut machine, mut disk, mut found) = (WalkMachine::new("Cargo.tom?", MatchOptions::new(), 1_000)?, Disk::new(), 0);
/// loop {
///     match machine.advance(&mut disk) {
///         Step::Item(_) => found += 1,
///         Step::Done => break,
///         Step::Look | Step::List | Step::ListNames => {} // answered by the next `advance`
///     }
/// }
/// assert_eq!(found, 1);
/// # Ok::<(), cadmiumdove::PatternError>(())
/// ```
pub enum Step {
    /// It asks what [`path`](WalkMachine::path) leads to. [`Answer::Look`] answers.
    Look,
    /// It asks for the entries of the directory at [`path`](WalkMachine::path). [`Answer::List`] answers.
    List,
    /// It asks for the same, but needs only the names: `is_dir` may be `false` for any entry. [`Answer::List`] answers.
    ListNames,
    /// It gives an item: a path, or an error. After an error with the cause `Limit`, only `Done` follows.
    Item(GlobResult),
    /// Nothing is left: each further call returns it again.
    Done,
}

/// An answer to the open question. For a look at the directory `a` it is `Answer::Look(Look::Dir)`.
///
/// ```
/// use cadmiumdove::walk::{Answer, Look, Step, WalkMachine};
/// use cadmiumdove::MatchOptions;
///
/// let mut machine = WalkMachine::new("a", MatchOptions::new(), 100)?;
/// assert!(matches!(machine.resume(Answer::Nothing), Step::Look));
/// assert!(matches!(machine.resume(Answer::Look(Look::Dir)), Step::Look));
/// assert_eq!(machine.path(), "a");
/// assert!(matches!(machine.resume(Answer::Look(Look::Missing)), Step::Done));
/// # Ok::<(), cadmiumdove::PatternError>(())
/// ```
pub enum Answer {
    /// There is no answer, since no question is open.
    Nothing,
    /// What a look found.
    Look(Look),
    /// The entries of a directory, or only their names, in any order; or why it could not be listed.
    List(Result<Vec<Entry>, io::Error>),
}

/// A walk without a tree: it asks one question after another, and its caller answers them from a file system, an
/// archive or a network, at once or later, by [`resume`](WalkMachine::resume).
///
/// ```text
/// let mut machine = WalkMachine::new("*", MatchOptions::new(), 100)?;
/// machine.resume(Answer::Nothing)               // Step::Look; machine.path() is "."
/// machine.resume(Answer::Look(Look::Dir))   // Step::ListNames; machine.path() is "."
/// machine.resume(Answer::List(Ok(entries)))     // of files `y` and `x`: Step::Item(Ok("x"))
/// machine.resume(Answer::Nothing)               // Step::Item(Ok("y"))
/// machine.resume(Answer::Nothing)               // Step::Done; machine.spent() is 4
/// ```
///
/// As long as all answers come from one content, its questions and items are those of the written listing, in order:
/// the items so far are a prefix of the listing's, and at `Done` they are all of them. Whatever the answers are, it
/// charges one unit for each question, before it asks it, and one for each entry in an answer. It gives at most one
/// more item than it charged units. It never charges more than its limit, so it comes to an end.
///
/// ```
/// use cadmiumdove::walk::{Answer, Look, Step, WalkMachine};
/// use cadmiumdove::MatchOptions;
///
/// let mut machine = WalkMachine::new("a/b", MatchOptions::new(), 100)?;
/// assert!(matches!(machine.resume(Answer::Nothing), Step::Look) && machine.path() == ".");
/// assert!(matches!(machine.resume(Answer::Look(Look::Dir)), Step::Look) && machine.path() == "a");
/// assert!(matches!(machine.resume(Answer::Look(Look::Dir)), Step::Look) && machine.path() == "a/b");
/// assert!(matches!(machine.resume(Answer::Look(Look::Other)), Step::Item(Ok(path)) if path.ends_with("b")));
/// assert!(matches!(machine.resume(Answer::Nothing), Step::Done));
/// # Ok::<(), cadmiumdove::PatternError>(())
/// ```
pub struct WalkMachine {
    walker: Walker,
    /// The number of items that were given: up to one more than the limit, so it can be 2^64.
    given: u128,
    over: bool,
}

impl WalkMachine {
    /// A walk of a pattern with at most `limit` units of work: one for each lookup, one for each listing, and one for
    /// each entry of a listing. It has asked nothing yet.
    ///
    /// # Errors
    ///
    /// A pattern with a fault is refused: the fault of the whole text or, if that has none, of the first component that
    /// has one.
    ///
    /// <details><summary>Contract</summary>
    ///
    /// ```text
    /// ensures accepted { IfOk result (λ _. walk_fault pattern.now ≡ None) }
    /// ensures refused { IfErr result (RefusesWith (walk_fault pattern.now)) }
    /// ensures fresh { IfOk result (IsFresh limit) }
    /// ensures aim { IfOk result
    ///     (λ walk. (c : Content) → listing_of c walk.aim ≡ listing c options pattern.now) }
    /// ensures plain { IfOk result
    ///     (λ walk. are_plain false walk.aim.components ≡ is_plain pattern.now) }
    /// ```
    ///
    /// </details>
    pub fn new(pattern: &str, options: MatchOptions, limit: u64) -> Result<Self, PatternError> {
        let plan = Plan::read(pattern, options)?;
        let start = String::from(plan.start());
        Ok(WalkMachine::from_plan(plan, start, limit))
    }

    /// A walk of a plan. It first looks up the start.
    fn from_plan(plan: Plan, start: String, limit: u64) -> Self {
        let frames = Vec::new();
        let next = Some(Task { path: start, component: 0, state: TaskState::Unseen(Accepted::Any) });
        let stack = Stack { plan, next, frames };
        let meter = Meter { limit, spent: 0 };
        WalkMachine { walker: Walker { meter, query: None, stack }, given: 0, over: false }
    }

    /// The next step, with the open question, if there is one, answered by a tree. These calls are enough for a whole
    /// walk: for `*` over a file `x` they return `Look`, `ListNames`, the item `x`, and `Done`.
    ///
    /// The tree is asked at most one question.
    ///
    /// ```
    /// use cadmiumdove::walk::{Disk, Step, WalkMachine};
    /// use cadmiumdove::MatchOptions;
    ///
    /// let (mut machine, mut disk) = (WalkMachine::new("Cargo.toml", MatchOptions::new(), 100)?, Disk::new());
    /// assert!(matches!(machine.advance(&mut disk), Step::Look));
    /// assert!(matches!(machine.advance(&mut disk), Step::Look) && machine.path() == "Cargo.toml");
    /// assert!(matches!(machine.advance(&mut disk), Step::Item(Ok(_))));
    /// assert!(matches!(machine.advance(&mut disk), Step::Done));
    /// # Ok::<(), cadmiumdove::PatternError>(())
    /// ```
    ///
    /// <details><summary>Contract</summary>
    ///
    /// ```text
    /// ensures content { T.tells tree.new ≡ T.tells tree.old }
    /// ensures untouched { self.old.asked ≡ None → tree.new ≡ tree.old }
    /// ensures steps { (n : ℕ)
    ///     × (T.asks tree.new ≡ T.asks tree.old + question_units self.old.asked + n)
    ///     × StepGoes (IsTold (T.tells tree.old)) n self.old (saying result) self.new }
    /// ```
    ///
    /// </details>
    pub fn advance<T: Tree>(&mut self, tree: &mut T) -> Step {
        let answer = self.ask(tree);
        self.resume(answer)
    }

    /// A tree's answer to the open question; `Nothing` if none is open. [`resume`](WalkMachine::resume) takes the
    /// answer; [`advance`](WalkMachine::advance) does both.
    ///
    /// <details><summary>Contract</summary>
    ///
    /// ```text
    /// ensures content { T.tells tree.new ≡ T.tells tree.old }
    /// ensures untouched { self.now.asked ≡ None → tree.new ≡ tree.old }
    /// ensures asks { T.asks tree.new
    ///     ≡ T.asks tree.old + question_units self.now.asked + answer_count result }
    /// ensures answer { IsAnswer self.now.asked result }
    /// ensures answered { (c : Content) → IsTold (T.tells tree.old) c
    ///     → IsAnswered self.now.asked result c }
    /// ```
    ///
    /// </details>
    pub fn ask<T: Tree>(&self, tree: &mut T) -> Answer {
        let Some(query) = &self.walker.query else {
            return Answer::Nothing;
        };
        let path = query.path.as_str();
        match query.kind {
            QueryKind::Look(_) => Answer::Look(tree.look(path)),
            QueryKind::List { kinds: true, .. } => Answer::List(tree.list(path)),
            QueryKind::List { kinds: false, .. } => Answer::List(tree.list_names(path)),
        }
    }

    /// Takes the answer to the open question, and returns the next step. If no question is open, as at first and after
    /// an item, the answer does not matter: give `Answer::Nothing`. An answer to another question leaves the walk as it
    /// is: the question is asked again, at no cost.
    ///
    /// The first step of each walk is `Step::Look`, at the path `.` or `/`; at a limit of 0 it is an error with the
    /// cause `Limit`. If `*` has looked at `.`, `Answer::Look(Look::Dir)` leads to `Step::ListNames`, and
    /// `Answer::Look(Look::Missing)` to `Step::Done`. Each entry of a listing costs one unit of work. After `Err(e)`
    /// the step is an error with the path, the kind of `e` and the cause `Read`, and the walk goes on.
    ///
    /// <details><summary>Contract</summary>
    ///
    /// ```text
    /// ensures failed { IsAnswer self.old.asked answer
    ///     → IfFailed answer (question_path self.old.asked) (λ o. saying result ≡ Says o) }
    /// ensures steps { IsAnswer self.old.asked answer
    ///     → StepGoes (IsAnswered self.old.asked answer) (answer_count answer)
    ///     self.old (saying result) self.new }
    /// ensures free { self.old.asked ≡ None
    ///     → StepGoes IsSomeContent 0 self.old (saying result) self.new }
    /// ensures waits { IsSome self.old.asked → ¬ (IsAnswer self.old.asked answer)
    ///     → IsAskedAfter (saying result) self.old.asked × (self.new ≡ self.old) }
    /// ```
    ///
    /// </details>
    pub fn resume(&mut self, answer: Answer) -> Step {
        if self.over {
            return Step::Done;
        }
        let step = self.walker.proceed(answer);
        self.given += step.item_count();
        self.over = step.is_last();
        step
    }

    /// The path of the open question, such as `a` for the entries of the directory `a`; empty if no question is open.
    ///
    /// <details><summary>Contract</summary>
    ///
    /// ```text
    /// ensures { result.now ≡ question_path self.now.asked }
    /// ```
    ///
    /// </details>
    #[must_use]
    pub fn path(&self) -> &str {
        match &self.walker.query {
            Some(query) => query.path.as_str(),
            None => "",
        }
    }

    /// How many units of work were charged, including the unit of an open question: never more than the limit. It is 1
    /// at the first question, and 4 after `*` has looked at a directory and listed it with two entries.
    ///
    /// <details><summary>Contract</summary>
    ///
    /// ```text
    /// ensures spent { result ≡ self.now.spent }
    /// ensures within { result ≤ self.now.limit }
    /// ```
    ///
    /// </details>
    #[must_use]
    pub fn spent(&self) -> u64 {
        self.walker.meter.spent
    }

    /// How many items were given, including a refusal: at most one more than `spent`. It is 2 after `*` has given two
    /// files, and 1 after a limit of 0 refused the first unit.
    ///
    /// <details><summary>Contract</summary>
    ///
    /// ```text
    /// ensures given { result ≡ self.now.given }
    /// ensures few { result ≤ self.now.spent + 1 }
    /// ```
    ///
    /// </details>
    #[must_use]
    pub fn given(&self) -> u128 {
        self.given
    }

    /// How many directories it keeps with their entries: directories that it listed and has not finished. The last step
    /// in a directory drops it. With a plain pattern each kept directory is below the one before it, so over a content
    /// there are at most as many as the longest key has names. It is 1 after `*` has given the first of two files, and
    /// 0 after the second.
    ///
    /// <details><summary>Contract</summary>
    ///
    /// ```text
    /// ensures kept { result ≡ self.now.kept }
    /// ensures few { (c : Content) → IsTrue (is_content c) → Agrees c self.now
    ///     → IsTrue (are_plain false self.now.aim.components) → result < levels c }
    /// ```
    ///
    /// </details>
    #[must_use]
    pub fn kept(&self) -> usize {
        self.walker.stack.frames.len()
    }
}
