//! Made by `bin/rust_crate` from `crates/glob_search/src/rule_texts.rt`, where its contracts are: sha256 06478ba587419deb.
//!
//! Where the texts of ignore files come from.

use crate::proved::glob_rules::{IgnoreList, RuleRefusal};
use crate::proved::glob_search::fault::SearchFault;
use std::io;

/// The texts of ignore files, and a function that leaves out more.
///
/// ```
/// use cadmiumdove::search::{RuleTexts, Search};
/// use cadmiumdove::walk::Disk;
/// use std::io;
///
/// /// Files of rules that are all the same, whatever is in them.
/// struct Fixed;
///
/// impl RuleTexts for Fixed {
///     fn text(&mut self, path: &str) -> io::Result<Option<String>> {
///         Ok((path == "Cargo.toml").then(|| "*.rs\n".to_owned()))
///     }
/// }
///
/// let search = Search::new(["**/*.rs", "Cargo.tom?"])?.ignore_files(["Cargo.toml"]);
/// assert!(search.over(Disk::new(), Fixed).flatten().all(|found| found.path.ends_with("Cargo.toml")));
/// # Ok::<(), cadmiumdove::search::SearchRefusal>(())
/// ```
pub trait RuleTexts {
    /// The text of the file at a path such as `src/.gitignore`, or `None` if there is no file.
    ///
    /// # Errors
    ///
    /// The error says why it cannot be read. If the texts are known, each can be read.
    ///
    /// <details><summary>Contract</summary>
    ///
    /// ```text
    /// ensures kept { texts self.new ≡ texts self.old }
    /// ensures text { (known : List ℕ → Option (List ℕ)) → texts self.old ≡ Some known
    ///     → IfOk result (λ text. option_map (λ t. string_bytes t) text ≡ known path.now) }
    /// ensures fails { (known : List ℕ → Option (List ℕ)) → texts self.old ≡ Some known
    ///     → IfErr result (λ e. e ≡ Memory) }
    /// ```
    ///
    /// </details>
    fn text(&mut self, path: &str) -> Result<Option<String>, io::Error>;

    /// Whether to leave out a path that no rule ignores, and everything below it. A search asks this about each path
    /// that it would find or enter. `is_dir` is also `false` if the search did not learn the kind, which happens only if
    /// it was not asked for kinds.
    ///
    /// <details><summary>Contract</summary>
    ///
    /// ```text
    /// ensures kept { texts self.new ≡ texts self.old }
    /// ensures none { (known : List ℕ → Option (List ℕ)) → texts self.old ≡ Some known
    ///     → IfOk result (λ out. out ≡ false) }
    /// ```
    ///
    /// </details>
    fn leaves_out(&mut self, _path: &str, _is_dir: bool) -> bool {
        false
    }
}

/// No ignore files.
///
/// ```
/// use cadmiumdove::search::{NoRuleTexts, Search};
/// use cadmiumdove::walk::Disk;
///
/// assert_eq!(Search::new(["Cargo.toml"])?.over(Disk::new(), NoRuleTexts).count(), 1);
/// # Ok::<(), cadmiumdove::search::SearchRefusal>(())
/// ```
#[derive(Debug)]
pub struct NoRuleTexts;

impl RuleTexts for NoRuleTexts {
    fn text(&mut self, _path: &str) -> Result<Option<String>, io::Error> {
        Ok(None)
    }
}

/// The rules of the file at a path, if there is one, and the refusals of its lines.
pub fn read_list<R: RuleTexts>(
    texts: &mut R,
    path: &str,
) -> Result<Option<(IgnoreList, Vec<RuleRefusal>)>, SearchFault> {
    let text = match texts.text(path) {
        Ok(Some(text)) => text,
        Ok(None) => return Ok(None),
        Err(error) => {
            return Err(SearchFault::UnreadRules(String::from(path), error));
        }
    };
    Ok(Some(IgnoreList::lenient(text.as_str())))
}
