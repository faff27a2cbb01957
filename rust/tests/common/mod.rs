//! What several tests over tables share.

use std::path::{Path, PathBuf};

use cadmiumdove::MatchOptions;

/// A folder of tables: in the package in `tests/tables`, and in the repository where they are.
pub fn tables(name: &str) -> PathBuf {
    let crate_folder = Path::new(env!("CARGO_MANIFEST_DIR"));
    let packed = crate_folder.join("tests/tables").join(name);
    let here = if name == "vectors" { "../crates/glob_vectors/data" } else { "../tests/rows" };
    if packed.exists() {
        packed
    } else {
        crate_folder.join(here)
    }
}

/// Options by letters after a dash: `i` for either case, `s` for the separator rule, `d` for the dot rule.
pub fn options(setting: &str) -> MatchOptions {
    let letters = setting.strip_prefix('-').unwrap();
    assert!(letters.chars().all(|letter| "isd".contains(letter)), "{setting}");
    MatchOptions {
        case_sensitive: !letters.contains('i'),
        require_literal_separator: letters.contains('s'),
        require_literal_leading_dot: letters.contains('d'),
    }
}
