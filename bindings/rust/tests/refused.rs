//! Each growth of memory is refused in turn: an example that tries again writes what it has to, and nothing leaks.
//!
//! The blocks of the library are the only ones of the test's thread that are aligned to 16 bytes.

mod written;

use std::alloc::{GlobalAlloc, Layout, System};
use std::cell::Cell;
use std::ptr::null_mut;

use written::{Example, EXAMPLES};

const LIBRARY_ALIGN: usize = 16;
/// Which makes no second try, as it has no memory to be refused or tries each call once.
const WITHOUT: [&str; 4] = ["codecs", "records", "fields", "firmware"];

thread_local! {
    static IS_COUNTED: Cell<bool> = const { Cell::new(false) };
    static GROWTHS: Cell<usize> = const { Cell::new(0) };
    static REFUSED: Cell<usize> = const { Cell::new(0) };
    static BLOCKS: Cell<isize> = const { Cell::new(0) };
}

struct Refusing;

impl Refusing {
    fn is_of_library(layout: Layout) -> bool {
        layout.align() == LIBRARY_ALIGN && IS_COUNTED.try_with(Cell::get).unwrap_or(false)
    }

    /// Counts a growth of the library, and says whether it is the one to be refused.
    fn refuses(layout: Layout) -> bool {
        if !Self::is_of_library(layout) {
            return false;
        }
        GROWTHS.set(GROWTHS.get() + 1);
        GROWTHS.get() == REFUSED.get()
    }

    fn count(layout: Layout, change: isize) {
        if Self::is_of_library(layout) {
            BLOCKS.set(BLOCKS.get() + change);
        }
    }
}

// SAFETY: each call is that of the system's allocator, or gives no block.
unsafe impl GlobalAlloc for Refusing {
    unsafe fn alloc(&self, layout: Layout) -> *mut u8 {
        if Self::refuses(layout) {
            return null_mut();
        }
        Self::count(layout, 1);
        // SAFETY: as of the caller.
        unsafe { System.alloc(layout) }
    }

    unsafe fn dealloc(&self, block: *mut u8, layout: Layout) {
        Self::count(layout, -1);
        // SAFETY: as of the caller.
        unsafe { System.dealloc(block, layout) }
    }

    unsafe fn realloc(&self, block: *mut u8, layout: Layout, size: usize) -> *mut u8 {
        if Self::refuses(layout) {
            return null_mut();
        }
        // SAFETY: as of the caller.
        unsafe { System.realloc(block, layout, size) }
    }
}

#[global_allocator]
static ALLOCATOR: Refusing = Refusing;

/// Runs an example with one of its growths refused, or none for 0. Returns how many growths there were.
fn run(example: &Example, refused: usize) -> usize {
    GROWTHS.set(0);
    REFUSED.set(refused);
    BLOCKS.set(0);
    let mut out = String::new();
    IS_COUNTED.set(true);
    let ran = (example.run)(example.input, &mut out);
    IS_COUNTED.set(false);
    assert!(ran.is_ok(), "{}", example.name);
    assert_eq!(out, example.expected, "{} with growth {refused} refused", example.name);
    assert_eq!(BLOCKS.get(), 0, "{} leaks with growth {refused} refused", example.name);
    GROWTHS.get()
}

#[test]
fn each_growth_is_refused_in_turn() {
    for example in EXAMPLES.iter().filter(|example| !WITHOUT.contains(&example.name)) {
        let growths = run(example, 0);
        assert!(growths > 0, "{} takes no memory", example.name);
        (1..=growths).for_each(|growth| {
            run(example, growth);
        });
    }
}
