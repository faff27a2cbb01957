//! Sets of patterns, and braces.

use std::path::Path;

use cadmiumdove::set::braces::{self, BraceError};
use cadmiumdove::set::{PatternSet, SetRefusal};
use cadmiumdove::{MatchOptions, Pattern};

const NEW: MatchOptions = MatchOptions::new();

#[test]
fn lists_of_texts() {
    let texts: Vec<String> = vec!["*.o".into(), "{a,b}".into()];
    let numbers = |set: PatternSet| ["x.o", "{a,b}", "b"].map(|text| set.first_match(text));
    let plain = [Some(0), Some(1), None];
    assert_eq!(numbers(PatternSet::from_texts(&texts, NEW).unwrap()), plain);
    assert_eq!(numbers(PatternSet::from_texts(&texts[..], NEW).unwrap()), plain);
    assert_eq!(numbers(PatternSet::from_texts("*.o\n{a,b}".lines(), NEW).unwrap()), plain);
    assert_eq!(
        numbers(PatternSet::from_braces(texts.iter().map(String::as_str), NEW).unwrap()),
        [Some(0), None, Some(2)]
    );
    assert_eq!(numbers(PatternSet::from_braces(texts, NEW).unwrap()), [Some(0), None, Some(2)]);
    let braces = |texts: &[&str]| PatternSet::from_braces(texts, NEW).unwrap_err().number();
    assert_eq!((braces(&["{a,b}", "c}"]), braces(&["{a,b}", "{d,[}", "e"]), braces(&["a", "b", "{[}"])), (1, 1, 2));
    assert!(!PatternSet::from_braces(["{a,b}"], NEW).unwrap().is_match("A"));
    let (any_case, set) = (MatchOptions::default(), |options| PatternSet::from_braces(["{a,b}"], options).unwrap());
    assert!(set(any_case).is_match("A") && set(any_case).options() == any_case);
    assert!(PatternSet::from_texts(["a"], any_case).unwrap().is_match("A"));
    assert_eq!(PatternSet::from_texts(["a", "b", "***"], NEW).unwrap_err().number(), 2);
}

#[test]
fn sets() {
    let set = PatternSet::from_texts(["a*", "*b", "**/*.O"], NEW).unwrap();
    let mut numbers = vec![7];
    for (text, expected) in [("ab", &[0, 1][..]), ("a", &[0]), ("b", &[1]), ("c", &[]), ("x/y.O", &[2]), ("", &[])] {
        set.matches_into(text, &mut numbers);
        assert_eq!(numbers, expected, "{text}");
        assert_eq!(
            (set.first_match(text), set.last_match(text)),
            (expected.first().copied(), expected.last().copied())
        );
        assert_eq!(set.is_match(text), !expected.is_empty());
        let path = Path::new(text);
        set.matches_path_into(path, &mut numbers);
        assert_eq!((numbers.as_slice(), set.is_match_path(path)), (expected, !expected.is_empty()));
        assert_eq!((set.matches(text), set.matches_path(path)), (numbers.clone(), numbers.clone()));
        let ends = (set.first_match_path(path), set.last_match_path(path));
        assert_eq!(ends, (expected.first().copied(), expected.last().copied()));
    }
    assert_eq!((set.len(), set.is_empty(), set.options()), (3, false, NEW));
    let SetRefusal::Syntax(number, error) = PatternSet::from_texts(["*.o", "[a"], NEW).unwrap_err();
    assert_eq!((number, error.pos), (1, 0));
    let set = PatternSet::new(vec![Pattern::new("A").unwrap()], MatchOptions::default());
    assert!(set.is_match("a"));
}

#[test]
fn an_empty_set() {
    let none = PatternSet::default();
    assert_eq!((none.options(), none.is_empty(), none.matches("")), (NEW, true, vec![]));
}

#[cfg(unix)]
#[test]
fn a_set_matches_no_path_that_is_no_text() {
    use std::os::unix::ffi::OsStrExt;
    let set = PatternSet::from_texts(["*"], NEW).unwrap();
    let path = Path::new(std::ffi::OsStr::from_bytes(b"\xff"));
    let mut numbers = vec![7];
    set.matches_path_into(path, &mut numbers);
    assert_eq!(
        (set.is_match_path(path), set.first_match_path(path), set.last_match_path(path), numbers),
        (false, None, None, vec![])
    );
    assert!(set.matches_path(path).is_empty());
}

/// No text is a comment or a negation, and none is left out or trimmed.
#[test]
fn texts_are_patterns_as_they_are() {
    let texts = ["", "#a", "!a", " a", "a "];
    for set in [PatternSet::from_texts(texts, NEW).unwrap(), PatternSet::from_braces(texts, NEW).unwrap()] {
        assert_eq!(set.len(), 5);
        for (number, text) in texts.iter().enumerate() {
            assert_eq!(set.matches(text), [number]);
        }
        assert!(!set.is_match("a"));
    }
}

#[test]
fn a_set_answers_as_its_patterns_do() {
    let patterns = ["", "*", "a", "*a", "a*", "?B", "**/a", "*/.B", "[!a]*", "*.B/", "a/**", "*aB", ".?", "**", "B**"];
    let patterns: Vec<Pattern> = patterns.iter().filter_map(|text| Pattern::new(text).ok()).collect();
    let mut texts = vec![String::new()];
    for length in 0..4 {
        let longest: Vec<String> = texts.iter().filter(|text| text.chars().count() == length).cloned().collect();
        texts.extend(longest.iter().flat_map(|text| ["a", "B", "/", ".", "é"].map(|next| format!("{text}{next}"))));
    }
    for bits in 0..8 {
        let options = options(bits);
        let set = PatternSet::new(patterns.clone(), options);
        let mut numbers = Vec::new();
        for text in &texts {
            set.matches_into(text, &mut numbers);
            let expected = (0..patterns.len()).filter(|&number| patterns[number].matches_with(text, options));
            assert!(expected.eq(numbers.iter().copied()), "{text} {options:?} {numbers:?}");
        }
    }
}

/// Patterns that are looked up by a component, the beginning of one, an extension or last bytes, in several scripts, and
/// texts with the keys of one or of many.
#[test]
fn a_large_set_answers_as_its_patterns_do() {
    let word = |number: usize| format!("{}{}", ["name", "Имя", "文書", "É"][number % 4], number / 4);
    let patterns = ["{}/**", "**/{}/**", "src/{}/*.rs", "*.{}", "**/*-{}.js", "{}-*", "*{}/x"];
    let filled = |texts: [&str; 7], number: usize| texts[number % 7].replace("{}", &word(number));
    let patterns: Vec<Pattern> = (0..400).map(|it| Pattern::new(&filled(patterns, it)).unwrap()).collect();
    let texts = ["{}/a", "b/{}/", "src/{}/a.rs", "b/a.{}", "b/a-{}.js", "{}-b", "b{}/x"];
    let mut texts: Vec<String> = (0..450).map(|it| filled(texts, it)).collect();
    texts.extend((0..450).step_by(9).map(|it| texts[it].to_uppercase()).collect::<Vec<_>>());
    texts.extend([16, 17, 40, 450].map(|count| texts[..count].join("/")));
    for bits in 0..8 {
        let options = options(bits);
        let set = PatternSet::new(patterns.clone(), options);
        for text in &texts {
            let expected = (0..patterns.len()).filter(|&number| patterns[number].matches_with(text, options));
            let expected: Vec<usize> = expected.collect();
            assert_eq!(set.matches(text), expected, "{text} {options:?}");
            let ends = (expected.first().copied(), expected.last().copied());
            assert_eq!((set.first_match(text), set.last_match(text)), ends, "{text} {options:?}");
        }
    }
}

#[test]
fn most_alternatives() {
    let text = |commas| format!("{{{}}}", ",".repeat(commas));
    assert_eq!(braces::expand(&text(braces::MOST_ALTERNATIVES - 1)).map(|texts| texts.len()), Ok(1000));
    assert_eq!(braces::expand(&text(braces::MOST_ALTERNATIVES)), Err(BraceError::TooMany));
}

/// Options by bits: either case, the separator rule, the dot rule.
fn options(bits: u32) -> MatchOptions {
    MatchOptions {
        case_sensitive: bits & 1 == 0,
        require_literal_separator: bits & 2 != 0,
        require_literal_leading_dot: bits & 4 != 0,
    }
}
