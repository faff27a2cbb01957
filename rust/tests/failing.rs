//! A listing that fails between two entries, and one whose entries have no kind. No directory does so when it is wanted,
//! so this program has a `readdir64` of its own.

#![cfg(target_os = "linux")]

use std::cell::Cell;
use std::ffi::{c_char, c_int, c_void};
use std::fs::{self, File};
use std::path::PathBuf;
use std::{env, process};

use cadmiumdove::walk::{glob_in, Disk};
use cadmiumdove::{glob, GlobResult, MatchOptions};

const RTLD_NEXT: *mut c_void = -1isize as *mut c_void;
const EIO: c_int = 5;

extern "C" {
    fn dlsym(handle: *mut c_void, name: *const c_char) -> *mut c_void;
    fn __errno_location() -> *mut c_int;
}

thread_local! {
    /// How many entries are read before the next one fails.
    static LEFT: Cell<usize> = const { Cell::new(usize::MAX) };
    /// Whether entries come without kinds, and names begin with `?`, so that no kind can be learned.
    static UNKNOWN: Cell<bool> = const { Cell::new(false) };
}

#[no_mangle]
unsafe extern "C" fn readdir64(directory: *mut c_void) -> *mut c_void {
    if LEFT.replace(LEFT.get().wrapping_sub(1)) == 0 {
        *__errno_location() = EIO;
        return std::ptr::null_mut();
    }
    let next = dlsym(RTLD_NEXT, c"readdir64".as_ptr());
    let entry = std::mem::transmute::<*mut c_void, extern "C" fn(*mut c_void) -> *mut c_void>(next)(directory);
    if UNKNOWN.get() && !entry.is_null() {
        let (kind, name) = (entry.cast::<u8>().add(18), entry.cast::<u8>().add(19));
        if *name != b'.' {
            *kind = 0;
            *name = b'?';
        }
    }
    entry
}

/// A directory of its own.
fn folder(name: &str) -> PathBuf {
    let root = env::temp_dir().join(format!("cadmiumdove-{}-{name}", process::id()));
    let _ = fs::remove_dir_all(&root);
    fs::create_dir(&root).unwrap();
    root
}

#[test]
fn a_listing_that_fails_is_an_error_at_whichever_entry() {
    let root = folder("failing");
    for name in ["a", "b"] {
        File::create(root.join(name)).unwrap();
    }
    let walk = |left| -> Vec<GlobResult> {
        LEFT.set(left);
        glob(&format!("{}/*", root.display())).unwrap().collect()
    };
    // `.` and `..` are entries, too
    let failed: Vec<Vec<GlobResult>> = (0..5).map(walk).collect();
    let whole = walk(usize::MAX);
    fs::remove_dir_all(&root).unwrap();
    for items in failed {
        let [Err(error)] = &items[..] else { panic!("{items:?}") };
        assert_eq!((error.path(), error.error().raw_os_error()), (&*root, Some(EIO)));
    }
    assert_eq!(whole.len(), 2);
}

#[test]
fn an_entry_whose_kind_cannot_be_learned_is_no_directory() {
    let root = folder("unknown");
    fs::create_dir(root.join("ad")).unwrap();
    let walk = |pattern: &str, follow_links| -> Vec<PathBuf> {
        let tree = Disk::new().follow_links(follow_links);
        let pattern = format!("{}/{pattern}", root.display());
        UNKNOWN.set(true);
        let paths = glob_in(tree, &pattern, MatchOptions::new(), 1000).unwrap().map(Result::unwrap).collect();
        UNKNOWN.set(false);
        paths
    };
    let found = [true, false].map(|follow| ["*", "*/", "*/*", "**"].map(|pattern| walk(pattern, follow)));
    fs::remove_dir_all(&root).unwrap();
    assert_eq!(found, [(); 2].map(|_| [vec![root.join("?d")], vec![], vec![], vec![]]));
}
