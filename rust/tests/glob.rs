//! What a program that uses patterns of `glob` asks. `tests/rust.sh` runs it over `glob`, too: but for the `use` line
//! it is the same program.

use std::collections::hash_map::DefaultHasher;
use std::collections::{BTreeSet, HashSet};
use std::hash::{Hash, Hasher};
use std::path::Path;
use std::str::FromStr;

use cadmiumdove::{MatchOptions, Pattern, PatternError};

#[test]
fn patterns_match() {
    let pattern = Pattern::new("src/**/[!_]*.rs").unwrap();
    assert!(pattern.matches("src/main.rs"));
    assert!(!pattern.matches("src/main.c"));
    assert!(pattern.matches("src/walk/_x.rs")); // `*` takes `/` too, unless an option says otherwise
    assert!(pattern.matches_path(Path::new("src/a/b.rs")));
    let literal = MatchOptions { require_literal_separator: true, ..MatchOptions::new() };
    assert!(!pattern.matches_with("src/walk/_lines.rs", literal));
    assert!(!pattern.matches_path_with(Path::new("src/walk/_lines.rs"), literal));
}

#[test]
fn each_option_counts() {
    let options = MatchOptions::new();
    let any = Pattern::new("A*").unwrap();
    assert!(!any.matches("a/b"));
    assert!(!any.matches_path(Path::new("a/b")));
    assert!(any.matches_with("a/b", MatchOptions { case_sensitive: false, ..options }));
    assert!(any.matches_with("A/b", options));
    assert!(!any.matches_with("A/b", MatchOptions { require_literal_separator: true, ..options }));
    let dots = Pattern::new("*").unwrap();
    assert!(dots.matches_with(".x", options));
    assert!(!dots.matches_with(".x", MatchOptions { require_literal_leading_dot: true, ..options }));
    assert!(MatchOptions::default() == MatchOptions { case_sensitive: false, ..options });
}

#[test]
fn faults_have_a_place_and_a_message() {
    for (text, pos, msg) in [
        ("a/**b", 4, "recursive wildcards must form a single path component"),
        ("a/bc**", 3, "recursive wildcards must form a single path component"),
        ("a/*****", 4, "wildcards are either regular `*` or recursive `**`"),
        ("é[a", 1, "invalid range pattern"),
    ] {
        let error: PatternError = Pattern::new(text).unwrap_err();
        assert_eq!((error.pos, error.msg), (pos, msg), "{text}");
        assert_eq!(error.to_string(), format!("Pattern syntax error near position {pos}: {msg}"));
    }
}

#[test]
fn escaping() {
    assert_eq!(Pattern::escape("_[_]_?_*_!_"), "_[[]_[]]_[?]_[*]_!_");
    assert_eq!(Pattern::escape(""), "");
    assert_eq!(Pattern::escape("***"), "[*][*][*]");
    assert!(Pattern::new(&Pattern::escape("a[1]?.é")).unwrap().matches("a[1]?.é"));
}

#[test]
fn patterns_are_values() {
    let pattern = Pattern::from_str("a*").unwrap();
    assert_eq!(pattern.to_string(), "a*");
    assert_eq!(pattern.as_str(), "a*");
    assert_eq!(pattern, pattern.clone());
    assert_ne!(pattern, "A*".parse().unwrap());
    assert!(pattern < "b".parse().unwrap());
    assert_eq!(format!("{pattern:>4}{pattern:<3}|"), "  a*a* |");
    assert!(format!("{pattern:?}").contains(r#"original: "a*""#));
    assert_eq!(Pattern::default(), Pattern::new("").unwrap());
    let hash_of = |pattern: &Pattern| {
        let mut hasher = DefaultHasher::new();
        pattern.hash(&mut hasher);
        hasher.finish()
    };
    assert_eq!(hash_of(&pattern), hash_of(&pattern.clone()));
    assert_ne!(hash_of(&pattern), hash_of(&Pattern::default()));
    let several = ["b", "a", "b"].map(|text| Pattern::new(text).unwrap());
    assert_eq!(several.iter().collect::<HashSet<_>>().len(), 2);
    assert_eq!(several.iter().map(Pattern::as_str).collect::<BTreeSet<_>>().len(), 2);
}

#[test]
fn a_path_that_is_no_text_never_matches() {
    use std::ffi::OsStr;
    use std::os::unix::ffi::OsStrExt;
    let pattern = Pattern::new("*").unwrap();
    assert!(!pattern.matches_path(Path::new(OsStr::from_bytes(b"\xff"))));
}

#[test]
fn a_joined_path_is_a_pattern() {
    let path = Path::new("one").join(Path::new("**/*.rs"));
    assert!(Pattern::new(path.to_str().unwrap()).unwrap().matches("one/a/b.rs"));
}

#[test]
fn threads_share_a_pattern() {
    let pattern = Pattern::new("*a").unwrap();
    std::thread::scope(|scope| {
        for _ in 0..4 {
            scope.spawn(|| assert!((0..10_000).all(|_| pattern.matches("bba") && !pattern.matches("ab"))));
        }
    });
    std::thread::spawn(move || drop(pattern)).join().unwrap();
}

#[test]
fn a_text_inside_is_found_wherever_it_is() {
    let pattern = Pattern::new("*needle*").unwrap();
    for fill in ["n", "é", "\u{7f}", "\u{10fffe}"] {
        for (before, after) in (0..40).flat_map(|before| [0, 1, 20].map(|after| (before, after))) {
            let [found, lost] = ["needle", "nedle"].map(|inside| fill.repeat(before) + inside + &fill.repeat(after));
            assert!(pattern.matches(&found) && !pattern.matches(&lost), "{found}");
        }
    }
}

/// Each row: a pattern, texts that it matches, and texts that it does not.
#[test]
fn rows() {
    let rows: &[(&str, &[&str], &[&str])] = &[
        ("a*b*c", &["abc", "a_b_c", "a__b/c", "abcabc"], &["abcd", "ab", "acb", ""]),
        ("a*a*a*a*a*a*a*a*a", &["aaaaaaaaa", "aaaaaaaaaaaaaaaaaaaaaaaa"], &["aaaaaaaa", "aaaaaaaab"]),
        ("abc*abc*abc", &["abcabcabcabcabcabcabc"], &["abcabcabcabcabcabcabca"]),
        ("a*b[xyz]c*d", &["abxcdbxcddd"], &["abxcdbxcdde"]),
        ("*hello.txt", &["hello.txt", "a_hello.txt", "a\\b\\hello.txt", "/a/hello.txt"], &["hello.txt-", "bye.txt"]),
        ("*b/hello.txt", &["b/hello.txt", "a/b/hello.txt"], &["b/hello.txt-", "a/c/hello.txt"]),
        ("some/**/**/needle", &["some/needle", "some/a/needle", "some/a/b/needle"], &["some/notneedle"]),
        ("some/**/needle", &["some/needle", "some/a/needle", "some/a/b/needle"], &["some/notneedle", "other/needle"]),
        ("**", &["", "a", "a/b", ".x", "a/.x"], &[]),
        ("/**/x", &["/x", "/a/x", "/a/b/x"], &["x", "/ax", "a/x"]),
        ("**/.*", &[".abc", "abc/.abc"], &["ab.c", "abc/ab.c"]),
        ("**/test", &["test", "a/test", "a/b/test"], &["atest", "test/a"]),
        ("**/**/a/*", &["a/b", "x/a/b"], &["a", "b"]),
        ("a[0-9]b", &["a0b", "a5b", "a9b"], &["a_b", "ab", "a00b"]),
        ("a[!0-9]b", &["a_b", "aab"], &["a0b", "a9b", "ab"]),
        ("[a-z123]", &["a", "q", "z", "1", "3"], &["4", "A", "-"]),
        ("[1a-z23]", &["a", "q", "z", "1", "3"], &["4", "A", "-"]),
        ("[123a-z]", &["a", "q", "z", "1", "3"], &["4", "A", "-"]),
        ("[2-1]", &[], &["1", "2", "-"]),
        ("[-]", &["-"], &["[", "a"]),
        ("[abc-]", &["a", "c", "-"], &["d", "]"]),
        ("[-abc]", &["a", "c", "-"], &["d"]),
        ("[a-c-]", &["a", "b", "c", "-"], &["d"]),
        ("[!-]", &["a", "]"], &["-"]),
        ("[]-]", &["]", "-"], &["[", "a"]),
        ("[!]a-]", &["b"], &["]", "a", "-"]),
        ("[a-c]/[?]*[[]", &["a/?[", "c/?x["], &["a/x[", "d/?["]),
        ("é?", &["éé", "éa"], &["é", "e", "éab"]),
        ("[à-ü]", &["é"], &["e", "É"]),
        ("", &[""], &["a"]),
        ("a?b", &["a/b", "a.b"], &["ab"]),
    ];
    for (text, matched, others) in rows {
        let pattern = Pattern::new(text).unwrap();
        assert!(matched.iter().all(|text| pattern.matches(text)), "{text} matches all of {matched:?}");
        assert!(!others.iter().any(|text| pattern.matches(text)), "{text} matches none of {others:?}");
    }
}

#[test]
fn rows_under_options() {
    let any_case = MatchOptions { case_sensitive: false, ..MatchOptions::new() };
    let literal = MatchOptions { require_literal_separator: true, ..MatchOptions::new() };
    let dots = MatchOptions { require_literal_leading_dot: true, ..MatchOptions::new() };
    for (options, text, path, expected) in [
        (any_case, "aBcDeFg", "AbCdEfG", true),
        (any_case, "[a-z]x", "QX", true),
        (any_case, "[A-Z]x", "qX", true),
        (any_case, "[!a-z]", "Q", false),
        (any_case, "[a]", "A", true),
        (any_case, "[!a]", "A", false),
        (any_case, "é", "É", false),
        (literal, "abc/def", "abc/def", true),
        (literal, "abc?def", "abc/def", false),
        (literal, "abc*def", "abc/def", false),
        (literal, "abc[/]def", "abc/def", false),
        (literal, "a/**/d", "a/b/c/d", true),
        (dots, ".*.txt", ".hello.txt", true),
        (dots, "*.txt", ".hello.txt", false),
        (dots, ".*.*", ".hello.txt", true),
        (dots, "**/*", ".bbb", false),
        (dots, "?x", ".x", false),
        (dots, "[.]x", ".x", false),
        (dots, "a/*", "a/.x", false),
        (dots, "a/*", "a/c.c.c.", true),
        (dots, "a/.*", "a/.x", true),
        (dots, "a/?b", "a/.b", false),
        (dots, "a/[.]b", "a/.b", false),
        (dots, "**/x", "a/.b/x", false),
        (dots, "a*", "a.x", true),
    ] {
        assert_eq!(Pattern::new(text).unwrap().matches_with(path, options), expected, "{text} {path}");
    }
}

#[test]
fn refused_texts() {
    for (text, pos) in [
        ("a**", 0),
        ("a**b", 0),
        ("**b", 2),
        ("***", 2),
        ("a/**b", 4),
        ("a/b**c**d", 2),
        ("abc[def", 3),
        ("abc[!def", 3),
        ("abc[!", 3),
        ("abc[d", 3),
        ("abc[!d", 3),
        ("abc[", 3),
        ("abc[]", 3),
        ("abc[!]", 3),
        ("[]", 0),
        ("[!]", 0),
    ] {
        assert_eq!(Pattern::new(text).map_err(|error| error.pos).unwrap_err(), pos, "{text}");
    }
}
