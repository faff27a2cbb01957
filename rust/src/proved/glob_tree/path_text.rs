//! Made by `bin/rust_crate` from `crates/glob_tree/src/path_text.rt`, where its contracts are: sha256 8ed51ac3474edb0d.
//!
//! The texts of paths.

/// The path of a name in a directory: only the name if the directory is `.` (or `./`, `./.`), and otherwise the two
/// joined, such as `a/b` for `a` and `b`.
pub fn child(dir: &str, name: &str) -> String {
    if is_here(dir) {
        String::from(name)
    } else {
        join(dir, name)
    }
}

/// The path, a separator unless the path is empty or ends in one, and the name: `a/b` for `a` and `b`, and for `a/` and
/// `b`.
pub fn join(dir: &str, name: &str) -> String {
    let room = dir.len().saturating_add(1).saturating_add(name.len());
    let mut path = String::with_capacity(room);
    path.push_str(dir);
    if needs_separator(dir) {
        path.push('/');
    }
    path.push_str(name);
    path
}

/// Whether a separator has to come between the path and a name.
fn needs_separator(dir: &str) -> bool {
    !dir.is_empty() && !dir.ends_with('/')
}

/// Whether the path is `.`, or `.` and more pieces that stay there, such as `./.`.
fn is_here(path: &str) -> bool {
    path.starts_with('.') && all_stay(path)
}

/// Whether each piece of the path is empty or `.`.
fn all_stay(path: &str) -> bool {
    path.split('/').all(stays)
}

/// Whether a piece of a path stays where it is: true for an empty piece and `.`, false for `a` and `..`.
pub fn stays(piece: &str) -> bool {
    piece.is_empty() || piece == "."
}

/// Whether the name begins with a dot, as `.a` does.
pub fn begins_with_dot(name: &str) -> bool {
    name.starts_with('.')
}
