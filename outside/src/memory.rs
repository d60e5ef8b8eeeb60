//! Watches the memory that the library asks for, and refuses it where a case wants that.
//!
//! The linker puts these three in the place of malloc, realloc and free of the program (--wrap). They count only between
//! `watch` and its end, and no Rust code asks for memory in between.

use std::ffi::c_void;
use std::ops::Range;
use std::ptr::null_mut;
use std::sync::atomic::{AtomicBool, AtomicUsize, Ordering::Relaxed};

static WATCHING: AtomicBool = AtomicBool::new(false);
static ASKED: AtomicUsize = AtomicUsize::new(0);
static GIVEN: AtomicUsize = AtomicUsize::new(0);
static FREED: AtomicUsize = AtomicUsize::new(0);
static REFUSED_FROM: AtomicUsize = AtomicUsize::new(0);
static REFUSED_TO: AtomicUsize = AtomicUsize::new(0);

extern "C" {
    fn __real_malloc(size: usize) -> *mut c_void;
    fn __real_realloc(block: *mut c_void, size: usize) -> *mut c_void;
    fn __real_free(block: *mut c_void);
}

/// How often memory was asked for, and how many blocks were left when the call was over.
#[derive(Clone, Copy, Debug, PartialEq, Eq)]
pub struct Use {
    pub asked: usize,
    pub left: isize,
}

pub const NO_MEMORY: Use = Use { asked: 0, left: 0 };
/// At so many of the times that a call asks for memory a refusal is tried.
pub const MOST_REFUSED: usize = 4;

/// No memory is refused.
pub const NEVER: Range<usize> = 0..0;

/// Makes a call of the library, and refuses it memory where it asks for it for the times of these numbers, counted from 0.
pub fn watch(refused: Range<usize>, call: impl FnOnce() -> u8) -> (u8, Use) {
    ASKED.store(0, Relaxed);
    FREED.store(0, Relaxed);
    GIVEN.store(0, Relaxed);
    REFUSED_FROM.store(refused.start, Relaxed);
    REFUSED_TO.store(refused.end, Relaxed);
    WATCHING.store(true, Relaxed);
    let answer = call();
    WATCHING.store(false, Relaxed);
    let left = GIVEN.load(Relaxed) as isize - FREED.load(Relaxed) as isize;
    (answer, Use { asked: ASKED.load(Relaxed), left })
}

fn is_refused() -> bool {
    if !WATCHING.load(Relaxed) {
        return false;
    }
    let number = ASKED.fetch_add(1, Relaxed);
    let refused = (REFUSED_FROM.load(Relaxed)..REFUSED_TO.load(Relaxed)).contains(&number);
    GIVEN.fetch_add(usize::from(!refused), Relaxed);
    refused
}

#[no_mangle]
unsafe extern "C" fn __wrap_malloc(size: usize) -> *mut c_void {
    if is_refused() {
        return null_mut();
    }
    __real_malloc(size)
}

/// A block that grows is one given and one freed.
#[no_mangle]
unsafe extern "C" fn __wrap_realloc(block: *mut c_void, size: usize) -> *mut c_void {
    if is_refused() {
        return null_mut();
    }
    if WATCHING.load(Relaxed) && !block.is_null() {
        FREED.fetch_add(1, Relaxed);
    }
    __real_realloc(block, size)
}

#[no_mangle]
unsafe extern "C" fn __wrap_free(block: *mut c_void) {
    if WATCHING.load(Relaxed) && !block.is_null() {
        FREED.fetch_add(1, Relaxed);
    }
    __real_free(block)
}
