#!/usr/bin/env python3
"""Pieces of source, and what bin/erase makes of each: Rust, or an error. The last line is 'N passed, M failed'."""

import sys
from pathlib import Path

sys.dont_write_bytecode = True
sys.path.insert(0, str(Path(__file__).resolve().parent.parent / "bin"))
from erase.comments import rewritten, unproved
from erase.erasing import Eraser
from erase.facts import Facts
from erase.finishing import Crate, parsed, with_traits
from erase.tokens import tokens
from lib.count import Count

# A name, a source, and the result. Without a result, it must stop with an error.
ERASED = [
    ("a contract", "fn f(x: u8) -> u8\n    requires some { 0 < x }\n    ensures { result ≡ x }\n{ x }", "fn f(x: u8) -> u8 { x }"),
    ("a contract of a closure", "fn f(v: &[u8]) { v.iter().all(|x: &u8| -> bool ensures { result ≡ true } { *x > 0 }); }",
        "fn f(v: &[u8]) { v.iter().all(|x: &u8| -> bool { *x > 0 }); }"),
    ("ghost lines", "ghost use a.b.{◌≡◌, c};\nstruct S { n: u8, ghost few: { n ≤ 3 }, }\nimpl T for S { ghost m = { λ s. s.n }; type I = u8; }",
        "struct S { n: u8, }\nimpl T for S { type I = u8; }"),
    ("a ghost of another form", "fn f(n: &mut u8) { ghost { x } *n += 1; }", None),
    ("tactics and derives", "#[tactic(auto)]\n#[derive(Clone, Drop)]\n#[derive_where(Debug)]\nstruct S;", "#[derive(Clone)]\n#[derive(Debug)]\nstruct S;"),
    ("tactics of a file", "#![tactic(auto)]\n#![forbid(unsafe_code)]\nfn f() {}", "#![forbid(unsafe_code)] fn f() {}"),
    ("bounds of a trait", "pub trait T: Drop + Copy {} trait U: Drop {}", "pub trait T: Copy {} trait U {}"),
    ("an allocator", "struct S<A: Allocator = Global> { v: Vec<u8, A>, alloc: A }\nimpl<A: Allocator + Copy> S<A> {\n"
        "fn of(alloc: A) -> Self { S { v: Vec::new(alloc), alloc } } }",
        "struct S { v: Vec<u8> } impl S { fn of() -> Self { S { v: Vec::new() } } }"),
    ("an allocator of a tree", "fn f<T: Tree<Alloc = A>, A: Allocator>(t: &T, e: Entry<T::Alloc>) {}", "fn f<T: Tree>(t: &T, e: Entry) {}"),
    ("an allocator by a name", "fn f<A: Allocator + Copy>(v: &Vec<u8, A>) { let heap = *v.allocator(); g(heap, 1); }",
        "fn f(v: &Vec<u8>) { g(1); }"),
    ("a failing call", "fn g<A: Allocator>(v: &mut Vec<u8, A>) -> Result<(), AllocError> { v.push(1)?; Ok(()) }",
        "fn g(v: &mut Vec<u8>) { v.push(1); }"),
    ("another error", "fn g(t: &str) -> Result<u8, ParseError> { let n = t.parse()?; Ok(n) }",
        "fn g(t: &str) -> Result<u8, ParseError> { let n = t.parse()?; Ok(n) }"),
    ("another error, and no value", "fn g(n: u8) -> Result<(), E> { if n > 1 { return Ok(()); } h(n)?; Ok(()) }",
        "fn g(n: u8) -> Result<(), E> { if n > 1 { return Ok(()); } h(n)?; Ok(()) }"),
    ("another error that is passed on", "fn g(n: u8) -> Option<Result<u8, E>> { Some(Ok(n)) }", "fn g(n: u8) -> Option<Result<u8, E>> { Some(Ok(n)) }"),
    ("two answers", "fn g() -> Result<(u8, bool), AllocError> { Ok((1, true)) }", "fn g() -> (u8, bool) { (1, true) }"),
    ("answers in branches", "fn g(n: u8) -> Result<u8, AllocError> { if n > 1 { return Ok(2); } match n { 0 => Ok(0), _ => { h(n)?; Ok(n) } } }\n"
        "fn h(n: u8) -> Result<(), AllocError> { Ok(()) }",
        "fn g(n: u8) -> u8 { if n > 1 { return 2; } match n { 0 => 0, _ => { h(n); n } } } fn h(n: u8) { }"),
    ("an answer that is a pattern", "fn g(r: Result<u8, E>) -> Result<u8, AllocError> { Ok(match r { Ok(n) => n, Err(_) => 0 }) }",
        "fn g(r: Result<u8, E>) -> u8 { match r { Ok(n) => n, Err(_) => 0 } }"),
    ("a return without a value", "fn g(n: u8) -> Result<(), AllocError> { if n > 1 { return Ok(()); } Ok(()) }", "fn g(n: u8) { if n > 1 { return; } }"),
    ("let with else", "fn g() -> Result<u8, AllocError> { Ok(1) } fn f() -> u8 { let Ok(n) = g() else { return 0; }; n }",
        "fn g() -> u8 { 1 } fn f() -> u8 { let n = g(); n }"),
    ("a match of a failing call", "fn g() -> Result<u8, AllocError> { Ok(1) } fn f() -> u8 { match g() { Ok(n) => n + 1, Err(_) => 0 } }",
        "fn g() -> u8 { 1 } fn f() -> u8 { let n = g(); n + 1 }"),
    ("a match that binds before other statements", "fn g() -> Result<u8, AllocError> { Ok(1) }\n"
        "fn f(x: u8) -> u8 { match g() { Ok(x) => { h(x); } Err(_) => return 0 } x }",
        "fn g() -> u8 { 1 } fn f(x: u8) -> u8 { { let x = g(); h(x); } x }"),
    ("a text that is copied", "fn f<A: Allocator>(alloc: A, t: &str) -> Result<String<A>, AllocError> { let s = String::from_str(alloc, t)?; Ok(s) }",
        "fn f(t: &str) -> String { let s = String::from(t); s }"),
    ("an answer after `else`", "fn g(n: u8) -> Result<u8, AllocError> { if n > 1 { Ok(2) } else { Ok(3) } }", "fn g(n: u8) -> u8 { if n > 1 { 2 } else { 3 } }"),
    ("alternatives that stay", "fn f(n: E) -> u8 { match n { E::A | E::B | E::Memory => 0, _ => 1 } }", "fn f(n: E) -> u8 { match n { E::A | E::B => 0, _ => 1 } }"),
    ("an answer of a closure", "fn g(v: &[u8]) -> Result<u8, AllocError> { let of = |x: &u8| -> Result<u8, E> { return Ok(*x); }; Ok(h(of)) }",
        "fn g(v: &[u8]) -> u8 { let of = |x: &u8| -> Result<u8, E> { return Ok(*x); }; h(of) }"),
    ("one arm with a condition", "fn f(r: R) -> u8 { match r { n if n > 1 => 2, R::Memory => 0 } }", "fn f(r: R) -> u8 { match r { n if n > 1 => 2, } }"),
    ("one arm of an error with two fields", "enum R { Syntax(u8, E), Memory } fn f(r: R) -> u8 { match r { R::Syntax(n, e) => n, R::Memory => 0 } }",
        "enum R { Syntax(u8, E), } fn f(r: R) -> u8 { match r { R::Syntax(n, e) => n, } }"),
    ("the only variant", "enum E { A, Memory } fn f(e: E) -> u8 { match e { E::A => 1, E::Memory => 0 } }",
        "enum E { A, } fn f(e: E) -> u8 { match e { E::A => 1, } }"),
    ("adjacent impls", "impl S { fn a() {} } impl S { fn b() {} } impl T for S { fn c() {} } impl S { fn d() {} }",
        "impl S { fn a() {} fn b() {} } impl T for S { fn c() {} } impl S { fn d() {} }"),
    ("an answer that a variant holds", "enum R { Seen(Result<u8, AllocError>) } fn g() -> R { R::Seen(Ok(1)) }",
        "enum R { Seen(u8) } fn g() -> R { R::Seen(1) }"),
    ("a failure heard in another way", "fn g() -> Result<u8, AllocError> { Ok(1) } fn f() -> bool { g().is_ok() }", None),
    ("an error that is another or memory", "enum R { Syntax(E), Memory }\nimpl From<AllocError> for R { fn from(_e: AllocError) -> R { R::Memory } }\n"
        "fn f(r: R) -> u8 { match r { R::Syntax(e) => e.n, R::Memory => 0 } } fn g(e: E) -> Result<u8, R> { Err(R::Syntax(e)) }",
        "fn f(r: E) -> u8 { let e = r; e.n } fn g(e: E) -> Result<u8, E> { Err(e) }"),
    ("an error with two others", "enum R { A(E), B(F), Memory } fn f(r: R) -> u8 { match r { R::A(e) => 1, R::B(_) | R::Memory => 0 } }",
        "enum R { A(E), B(F), } fn f(r: R) -> u8 { match r { R::A(e) => 1, R::B(_) => 0 } }"),
    ("an error that is printed in words of its own", "enum R { Syntax(E), Memory }\nimpl fmt::Display for R { fn fmt<W: fmt::Write>(&self, f: &mut "
        'fmt::Formatter<W>) -> fmt::Result { match self { R::Syntax(e) => write!(f, "no: {e}"), R::Memory => f.write_str("m") } } }', None),
    ("a formatter", "impl fmt::Display for S { fn fmt<W: fmt::Write>(&self, f: &mut fmt::Formatter<W>) -> fmt::Result { write!(f, \"a\") } }",
        "impl fmt::Display for S { fn fmt(&self, f: &mut fmt::Formatter<'_>) -> fmt::Result { write!(f, \"a\") } }"),
    ("a text that is written to", 'fn f<A: Allocator>(t: &mut String<A>) -> Result<(), AllocError> { writeln!(t, "{x}")?; Ok(()) }',
        'fn f(t: &mut String) { t.push_str(&format!("{x}\\n")); }'),
    ("memory that is filled", "fn f<A: Allocator>(alloc: A, n: usize) -> Result<Vec<u8, A>, AllocError> { let v = vec![in alloc; 0; n]?; Ok(v) }",
        "fn f(n: usize) -> Vec<u8> { let v = Vec::with_capacity(n); v.resize(n, 0); v }"),
    ("memory of a length that changes something", "fn f(alloc: A, m: &mut M) { let v = vec![in alloc; 0; m.next()]?; }", None),
    ("a variable for a proof", "fn f(t: &str) { let _ = t; let _text = t; g(t); }", "fn f(t: &str) { g(t); }"),
    ("a value that is dropped", "fn f(t: Text) { let _t = t; g(); }", "fn f(t: Text) { let _t = t; g(); }"),
    ("a function that makes the error of memory", "impl E { fn memory() -> E { E { cause: Cause::Memory } } fn other() -> E { E { cause: Cause::Other } } }",
        "impl E { fn other() -> E { E { cause: Cause::Other } } }"),
    ("a function of a trait that takes a path", "impl T for S { fn at(&self, p: Path<'_>) -> u8 { 1 } }", "impl T for S { fn at(&self, p: &Path) -> u8 { 1 } }"),
]
# The same for finished crates: handwritten code calls the function `main`.
FINISHED = [
    ("a parameter that nothing reads", "pub fn main(n: u8) -> u8 { f(n, 1) } fn f(n: u8, most: u8) -> u8 { n }",
        "pub fn main(n: u8) -> u8 { f(n) } fn f(n: u8) -> u8 { n }"),
    ("an argument that changes something", "pub fn main(m: &mut M) -> u8 { f(1, m.next()) } fn f(n: u8, most: u8) -> u8 { n }", None),
    ("a parameter that a text names", 'pub fn main(n: u8) -> String { f(n) } fn f(n: u8) -> String { format!("{n}") }',
        'pub fn main(n: u8) -> String { f(n) } fn f(n: u8) -> String { format!("{n}") }'),
    ("a parameter of a trait", "pub fn main() -> u8 { S.at(1) } struct S; impl T for S { fn at(&self, n: u8) -> u8 { 1 } }",
        "pub fn main() -> u8 { S.at(1) } struct S; impl T for S { fn at(&self, n: u8) -> u8 { 1 } }"),
    ("a method called by its path", "pub fn main(s: &S) -> u8 { S::f(s, 1, 2) } pub struct S; impl S { fn f(&self, n: u8, m: u8) -> u8 { m } }",
        "pub fn main(s: &S) -> u8 { S::f(s, 2) } pub struct S; impl S { fn f(&self, m: u8) -> u8 { m } }"),
    ("two functions of a name", "pub fn main(s: &S) -> u8 { S::f(1, 2) } pub struct S; impl S { fn f(n: u8, m: u8) -> u8 { n } } "
        "impl T for S { fn f(n: u8, m: u8) -> u8 { n + m } }", "pub fn main(s: &S) -> u8 { S::f(1, 2) } pub struct S; "
        "impl S { fn f(n: u8, m: u8) -> u8 { n } } impl T for S { fn f(n: u8, m: u8) -> u8 { n + m } }"),
    ("a parameter of a closure", "pub fn main(v: &[u8]) -> usize { v.iter().map(|x| 1).sum() }", "pub fn main(v: &[u8]) -> usize { v.iter().map(|_| 1).sum() }"),
    ("a variable that is read once", "pub fn main(s: &str) -> usize { let n = s.len(); n }", "pub fn main(s: &str) -> usize { let n = s.len(); n }"),
    ("a text that is parsed", "pub fn main(t: &str) -> Result<S, E> { t.parse() } struct S; impl S { pub fn from_str(t: &str) -> Result<S, E> { Ok(S) } }",
        "pub fn main(t: &str) -> Result<S, E> { t.parse() } struct S; "
        "impl std::str::FromStr for S { type Err = E; fn from_str(t: &str) -> Result<S, E> { Ok(S) } }"),
    ("a function that nothing calls", "pub fn main() -> u8 { 1 } fn f() -> u8 { g() } fn g() -> u8 { 2 }", "pub fn main() -> u8 { 1 }"),
    ("a variable that nothing reads", "pub fn main(s: &str) -> u8 { let bytes = s.as_bytes(); 1 }", "pub fn main(s: &str) -> u8 { 1 }"),
    ("a variable made by a function that changes nothing", "pub fn main(n: u8) -> u8 { let all = f(n); n } fn f(n: u8) -> u8 { n }",
        "pub fn main(n: u8) -> u8 { n }"),
    ("a variable made by a function that changes something", "pub fn main(n: &mut u8) -> u8 { let all = f(n); 1 } fn f(n: &mut u8) -> u8 { *n }",
        "pub fn main(n: &mut u8) -> u8 { let all = f(n); 1 } fn f(n: &mut u8) -> u8 { *n }"),
    ("variables that are read", "pub fn main(n: u8) -> u8 { let (a, b) = f(n); a + b } fn f(n: u8) -> (u8, u8) { (n, 1) }",
        "pub fn main(n: u8) -> u8 { let (a, b) = f(n); a + b } fn f(n: u8) -> (u8, u8) { (n, 1) }"),
    ("variables of which one is read", "pub fn main(n: u8) -> u8 { let (a, b) = f(n); a } fn f(n: u8) -> (u8, u8) { (n, 1) }",
        "pub fn main(n: u8) -> u8 { let (a, _) = f(n); a } fn f(n: u8) -> (u8, u8) { (n, 1) }"),
    ("fields of an arm, of which one is read", "pub fn main(n: u8) -> u8 { match f(n) { E::A { n, m } => n, E::B => 0 } }\n"
        "enum E { A { n: u8, m: u8 }, B } fn f(n: u8) -> E { if n > 1 { E::A { n, m: 1 } } else { E::B } }",
        "pub fn main(n: u8) -> u8 { match f(n) { E::A { n, m: _ } => n, E::B => 0 } } enum E { A { n: u8, m: u8 }, B } "
        "fn f(n: u8) -> E { if n > 1 { E::A { n, m: 1 } } else { E::B } }"),
    ("a call for its effect", "pub fn main(v: &mut Vec<u8>) -> u8 { let top = v.pop(); 1 }", "pub fn main(v: &mut Vec<u8>) -> u8 { let top = v.pop(); 1 }"),
    ("a field that is compared", "pub fn main(a: S, b: S) -> bool { a == b } #[derive(PartialEq)] struct S { n: u8 }",
        "pub fn main(a: S, b: S) -> bool { a == b } #[derive(PartialEq)] struct S { n: u8 }"),
    ("a field that nothing reads", "pub fn main(n: u8) -> S { S { n, m: 1 } } struct S { n: u8, m: u8 } impl S { fn n(&self) -> u8 { self.n } } "
        "impl T for S { fn t(&self) -> u8 { self.n } }", "pub fn main(n: u8) -> S { S { n } } struct S { n: u8, } impl T for S { fn t(&self) -> u8 { self.n } }"),
    ("a flag that nothing sets", "pub fn main(s: S) -> u8 { if s.is_full() { return 0; } s.n } struct S { n: u8, full: bool }\n"
        "impl S { fn new(n: u8) -> S { S { n, full: false } } fn is_full(&self) -> bool { self.full } } impl T for S { fn t() -> S { S::new(1) } }",
        "pub fn main(s: S) -> u8 { s.n } struct S { n: u8, } impl S { fn new(n: u8) -> S { S { n } } } impl T for S { fn t() -> S { S::new(1) } }"),
    ("a flag that is set", "pub fn main(s: S) -> u8 { if s.is_full() { return 0; } s.n } struct S { n: u8, full: bool }\n"
        "impl S { fn is_full(&self) -> bool { self.full } } impl T for S { fn t(&mut self) -> S { self.full = true; S { n: 1, full: false } } }",
        "pub fn main(s: S) -> u8 { if s.is_full() { return 0; } s.n } struct S { n: u8, full: bool }\n"
        "impl S { fn is_full(&self) -> bool { self.full } } impl T for S { fn t(&mut self) -> S { self.full = true; S { n: 1, full: false } } }"),
    ("a flag that is made true", "pub fn main(s: S) -> u8 { if s.is_full() { return 0; } s.n } struct S { n: u8, full: bool }\n"
        "impl S { fn is_full(&self) -> bool { self.full } } impl T for S { fn t() -> S { S { n: 1, full: true } } }",
        "pub fn main(s: S) -> u8 { if s.is_full() { return 0; } s.n } struct S { n: u8, full: bool }\n"
        "impl S { fn is_full(&self) -> bool { self.full } } impl T for S { fn t() -> S { S { n: 1, full: true } } }"),
    ("a flag that an `else` reads", "pub fn main(s: S) -> u8 { if s.is_full() { 0 } else { s.n } } struct S { n: u8, full: bool }\n"
        "impl S { fn is_full(&self) -> bool { self.full } } impl T for S { fn t() -> S { S { n: 1, full: false } } }",
        "pub fn main(s: S) -> u8 { if s.is_full() { 0 } else { s.n } } struct S { n: u8, full: bool }\n"
        "impl S { fn is_full(&self) -> bool { self.full } } impl T for S { fn t() -> S { S { n: 1, full: false } } }"),
    ("a function of a trait of Rust", "pub fn main(s: &S) -> S { s.clone() } struct S; impl S { pub fn clone(&self) -> Self { S } }",
        "pub fn main(s: &S) -> S { s.clone() } struct S; impl Clone for S { fn clone(&self) -> Self { S } }"),
]


# The same for the comments of erased sources, whose function `f` users reach. Its contract is one clause, and the type `S`
# has an example left over.
DOCUMENTED = [
    ("an error of a function", "/// Reads. The error is `E` for `[`.\n///\n/// More.\npub fn f() -> Result<u8, E> ensures { a } { g() }",
        "/// Reads.\n///\n/// More.\n///\n/// # Errors\n///\n/// The error is `E` for `[`.\n///\n"),
    ("errors that are listed", "/// Reads. The errors are:\n///\n/// - `E`: a fault.\n///   It is the first.\n///\n/// More.\npub fn f() -> Result<u8, E> ensures { a } { g() }",
        "/// Reads.\n///\n/// More.\n///\n/// # Errors\n///\n/// - `E`: a fault.\n///   It is the first.\n///\n"),
    ("an error of which nothing is said", "/// Reads.\npub fn f() -> Result<u8, E> ensures { a } { g() }", None),
    ("a failed allocation", "/// Reads. The error is a failed allocation.\npub fn f() -> Result<u8, AllocError> ensures { a } ensures { IsOk result } { g() }",
        "/// Reads.\n///\n"),
    ("a parameter that tells of a failed allocation", "/// Reads.\npub fn f(seen: Result<u8, AllocError>) ensures { a } ensures { NoMemory } { g() }",
        "/// Reads.\n///\n"),
    ("what contracts see", "/// Texts. Contracts see them as `texts`, where they are known.\npub fn f() ensures { a } { g() }", "/// Texts.\n///\n"),
    ("a function that users do not reach", "/// Reads. The error is `E`.\nfn f() -> Result<u8, E> ensures { a } { g() }", "/// Reads. The error is `E`."),
    ("a clause about memory", "/// A text; an allocation may fail; more.\npub struct T;", "/// A text; more."),
    ("an error beside a failed allocation", "/// It goes on, but for `Limit` and `Memory`.\npub struct T;", "/// It goes on, but for `Limit`."),
    ("an example of the sources", "/// A.\n///\n/// ```text\n/// assert!(g(alloc, 1)?);\n/// ```\npub struct T;",
        "/// A.\n///\n/// ```\n/// assert!(g(1)?);\n/// # Ok::<(), Box<dyn std::error::Error>>(())\n/// ```"),
    ("a drawing", "/// A.\n///\n/// ```text\n/// a -> b\n/// ```\npub struct T;", "/// A.\n///\n/// ```text\n/// a -> b\n/// ```"),
    ("an example", "/// A type.\npub struct S;", "/// A type.\n///\n/// ```\n/// let s = S;\n/// ```"),
]
# Functions, and whether their value must be used.
USED = [
    ("a value", "pub fn f(n: &u8) -> u8 { *n }", True),
    ("a value that was a result", "pub fn f() -> Result<u8, AllocError> { Ok(1) }", True),
    ("an option", "pub fn f() -> Option<u8> { None }", True),
    ("no value", "pub fn f(n: u8) {}", False),
    ("a value beside an effect", "pub fn f(n: &mut u8) -> u8 { *n }", False),
    ("a value of a step", "pub struct S; impl S { pub fn f(&mut self) -> u8 { 1 } }", False),
    ("a value of a method", "pub struct S; impl S { pub fn f(&self) -> u8 { 1 } }", True),
    ("a value of a function that users do not reach", "pub fn g(n: u8) -> u8 { n }", False),
    ("a value of a function that is not public", "pub(crate) fn f(n: u8) -> u8 { n }", False),
]
CONTRACT = "/// <details><summary>Contract</summary>\n///\n/// ```text\n/// ensures { a }\n/// ```\n///\n/// </details>"
# Documentation by hand, and whether `bin/rust_crate` accepts it.
BY_HAND = [
    ("a call without either", "/// Reads.\npub fn f() {}", False),
    ("a contract of the sources", f"/// Reads.\n///\n{CONTRACT}\npub fn f() {{}}", True),
    ("another contract", f"/// Reads.\n///\n{CONTRACT.replace('{ a }', '{ b }')}\npub fn f() {{}}", False),
    ("a test", "/// Reads.\n///\n/// <details><summary>Tested</summary>\n///\n/// `reads` in `tests/a.rs`.\n///\n/// </details>\npub fn f() {}", True),
    ("a test that is not there", "/// Reads.\n///\n/// <details><summary>Tested</summary>\n///\n/// `writes` in `tests/a.rs`.\n///\n/// </details>\npub fn f() {}", False),
    ("a method without either", "pub struct S;\nimpl S {\n    /// Reads.\n    pub fn f(&self) {}\n}", False),
    ("a function that users do not reach", "/// Reads.\npub(crate) fn f() {}", True),
]


def reached(source):
    """An erased source, of which users reach `f` and `S`."""
    parser = parsed(source)
    facts = Facts([parser.tree])
    facts.public = {}
    eraser = Eraser(parser, facts, {"f", "S"})
    eraser.visit(parser.tree)
    return rewritten(parsed(eraser.edits.result()), facts, lambda line: line, {"f", "S"}, {"S": ["```", "let s = S;", "```"]})


def documented(source):
    """The comments of an erased source, without the contract."""
    text = reached(source)
    return "\n".join(line for line in text.split("\n") if line.startswith("///")).replace(CONTRACT, "")


def is_accepted(source):
    return not list(unproved(parsed(source), {"ensures { a }"}, {"tests/a.rs": "fn reads() {}"}))


def erased(source):
    parser = parsed(source)
    facts = Facts([parser.tree])
    eraser = Eraser(parser, facts)
    eraser.visit(parser.tree)
    return with_traits(eraser.edits.result()), facts


def finished(source):
    text, facts = erased(source)
    crate = Crate({("glob", "lib.rt"): text}, {"glob"}, [parsed("use crate::proved::glob::main;")], facts)
    crate.without_dead()
    crate.collect()
    return crate.finished(("glob", "lib.rt"))


def words(text):
    """The tokens of a text, without commas before brackets."""
    found = [token.text for token in tokens(text) if token.kind != "comment"]
    return [word for word, after in zip(found, found[1:] + [""]) if not (word == "," and after in "})]>")]


def main():
    count = Count()
    rows = [(row, lambda source: erased(source)[0]) for row in ERASED] + [(row, finished) for row in FINISHED]
    for (name, source, wanted), made in rows:
        try:
            found = words(made(source))
        except (SyntaxError, SystemExit):
            found = None
        count.same(name, found, words(wanted) if wanted is not None else None)
    for name, source, wanted in DOCUMENTED:
        try:
            found = documented(source)
        except SystemExit:
            found = None
        count.same(name, found, wanted)
    for name, source, wanted in USED:
        count.same(name, "#[must_use]" in reached(source), wanted)
    for name, source, wanted in BY_HAND:
        count.same(name, is_accepted(source), wanted)
    count.end()


if __name__ == "__main__":
    main()
