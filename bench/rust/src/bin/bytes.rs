//! `bytes TEXT PATTERN ..` prints for each pattern how many bytes it is and has on the heap once it has matched a text:
//! ours, and the crate's.

use std::alloc::{GlobalAlloc, Layout, System};
use std::env;
use std::mem::size_of;
use std::sync::atomic::{AtomicUsize, Ordering::Relaxed};

/// The system's allocator, with the bytes that are in use.
struct Counting(AtomicUsize);

unsafe impl GlobalAlloc for Counting {
    unsafe fn alloc(&self, layout: Layout) -> *mut u8 {
        self.0.fetch_add(layout.size(), Relaxed);
        System.alloc(layout)
    }

    unsafe fn dealloc(&self, at: *mut u8, layout: Layout) {
        self.0.fetch_sub(layout.size(), Relaxed);
        System.dealloc(at, layout)
    }
}

#[global_allocator]
static USED: Counting = Counting(AtomicUsize::new(0));

/// The bytes of what is made.
fn bytes_of<T>(make: impl FnOnce() -> T) -> usize {
    let before = USED.0.load(Relaxed);
    let _made = make();
    size_of::<T>() + USED.0.load(Relaxed) - before
}

macro_rules! bytes_after_a_match {
    ($crate_name:ident, $pattern:expr, $text:expr) => {
        bytes_of(|| {
            let pattern = $crate_name::Pattern::new($pattern).unwrap();
            pattern.matches($text);
            pattern
        })
    };
}

fn main() {
    let words = env::args().skip(1).collect::<Vec<String>>();
    let [text, patterns @ ..] = &words[..] else {
        panic!("see the comment at the top");
    };
    for pattern in patterns {
        let ours = bytes_after_a_match!(cadmiumdove, pattern, text);
        println!("{ours} {}", bytes_after_a_match!(glob, pattern, text));
    }
}
