//! Trees that are borrowed or boxed.

use std::cell::RefCell;
use std::io;
use std::path::PathBuf;

use cadmiumdove::walk::{glob_in, Disk, Entry, Look, Tree};
use cadmiumdove::MatchOptions;

/// The disk, and what it was asked.
struct Asked<'a>(Disk, &'a RefCell<Vec<String>>);

impl Tree for Asked<'_> {
    fn look(&mut self, path: &str) -> Look {
        self.1.borrow_mut().push(format!("look {path}"));
        self.0.look(path)
    }

    fn list(&mut self, path: &str) -> io::Result<Vec<Entry>> {
        self.1.borrow_mut().push(format!("list {path}"));
        self.0.list(path)
    }

    fn list_names(&mut self, path: &str) -> io::Result<Vec<Entry>> {
        self.1.borrow_mut().push(format!("names {path}"));
        self.0.list_names(path)
    }
}

fn found(tree: impl Tree, pattern: &str) -> Vec<PathBuf> {
    glob_in(tree, pattern, MatchOptions::new(), u64::MAX).unwrap().map(Result::unwrap).collect()
}

#[test]
fn a_borrowed_or_boxed_tree_is_asked_what_the_tree_is() {
    for (pattern, questions) in [
        ("src/lib.rs", &["look .", "look src", "look src/lib.rs"][..]),
        ("src/l*.rs", &["look .", "look src", "names src"]),
        ("sr[c]/lib.rs", &["look .", "list .", "look src/lib.rs"]),
    ] {
        let asked = RefCell::default();
        let mut tree = Asked(Disk::new(), &asked);
        let borrowed = found(&mut tree, pattern);
        assert_eq!(asked.take(), questions);
        let boxed: Box<dyn Tree + '_> = Box::new(tree);
        assert_eq!(found(boxed, pattern), borrowed);
        assert_eq!(asked.take(), questions);
        assert!(borrowed.contains(&"src/lib.rs".into()));
    }
}
