//! Tests of the memory that calls allocate, which an allocator counts. The calls release memory
//! that they do not need, and each allocation may fail.
#![deny(unsafe_op_in_unsafe_fn)]
// Clippy of 1.63 finds it in what `thread_local` makes.
#![allow(clippy::declare_interior_mutable_const)]
use std::alloc::{GlobalAlloc, Layout, System};
use std::cell::Cell;
use std::ptr;

use syn_tokens::{line_columns, respond, Buffer, Edition, Error};

// Each thread has counts of its own, since tests run side by side.
thread_local! {
    /// The number of requests that are granted before one fails. If this number is `usize::MAX`, no
    /// request fails.
    static GRANTED: Cell<usize> = const { Cell::new(usize::MAX) };
    /// The number of bytes that are allocated and not yet freed.
    static HELD: Cell<usize> = const { Cell::new(0) };
    /// Whether the allocator refuses to make a block smaller.
    static IS_STUBBORN: Cell<bool> = const { Cell::new(false) };
}

struct Counting;

impl Counting {
    /// Counts the change of a block from one size to another.
    fn count(from: usize, to: usize) {
        // At a thread's end there is nothing to count.
        let _ = HELD.try_with(|it| it.set(it.get().wrapping_add(to).wrapping_sub(from)));
    }

    /// Returns `true` if this request is the one that fails.
    fn fails() -> bool {
        GRANTED
            .try_with(|it| {
                let left = it.get();
                it.set(if left == usize::MAX { left } else { left.wrapping_sub(1) });
                left == 0
            })
            .unwrap_or_default()
    }
}

// SAFETY: The calls are those of the system's allocator.
unsafe impl GlobalAlloc for Counting {
    unsafe fn alloc(&self, layout: Layout) -> *mut u8 {
        if Counting::fails() {
            return ptr::null_mut();
        }
        Counting::count(0, layout.size());
        // SAFETY: The caller keeps to what is asked.
        unsafe { System.alloc(layout) }
    }

    unsafe fn dealloc(&self, block: *mut u8, layout: Layout) {
        Counting::count(layout.size(), 0);
        // SAFETY: The caller keeps to what is asked.
        unsafe { System.dealloc(block, layout) }
    }

    unsafe fn realloc(&self, block: *mut u8, layout: Layout, size: usize) -> *mut u8 {
        if size < layout.size() && IS_STUBBORN.try_with(Cell::get).unwrap_or_default() {
            return ptr::null_mut();
        }
        if size > layout.size() && Counting::fails() {
            return ptr::null_mut();
        }
        Counting::count(layout.size(), size);
        // SAFETY: The caller keeps to what is asked.
        unsafe { System.realloc(block, layout, size) }
    }
}

#[global_allocator]
static COUNTING: Counting = Counting;

/// The number of unused bytes of the entries, or of the texts, above which a call releases them.
const WASTE: usize = 4096;

#[test]
fn room_is_given_back() -> Result<(), Error> {
    let text = "a_long_name ".repeat(10_000);
    let before = HELD.with(Cell::get);
    let buffer = Buffer::lex(&text)?;
    // An entry takes 48 bytes, and its text 11.
    let held = HELD.with(Cell::get) - before;
    let needed = 10_000 * (48 + 11);
    assert!((needed..needed + 2 * WASTE).contains(&held), "{held} bytes");
    drop(buffer);
    assert_eq!(HELD.with(Cell::get), before);
    let empty = Buffer::lex(&" ".repeat(100_000))?;
    assert!(HELD.with(Cell::get) - before < 2 * WASTE);
    assert!(empty.is_empty());
    Ok(())
}

#[test]
fn room_that_cannot_be_given_back_is_kept() -> Result<(), Error> {
    let text = "a_long_name ".repeat(10_000);
    let before = HELD.with(Cell::get);
    IS_STUBBORN.with(|it| it.set(true));
    let read = Buffer::lex(&text);
    IS_STUBBORN.with(|it| it.set(false));
    assert_eq!(read?.len(), 10_000);
    assert_eq!(HELD.with(Cell::get), before);
    Ok(())
}

/// Makes each allocation of a call fail in turn, and returns the number of allocations.
fn fail_each<T>(call: impl Fn() -> Result<T, Error>) -> usize {
    for number in 0.. {
        GRANTED.with(|it| it.set(number));
        let ended = call();
        let left = GRANTED.with(|it| it.replace(usize::MAX));
        // The one that fails leaves `usize::MAX`, as if none were to fail.
        let has_failed = left > number;
        match ended {
            Ok(_) if !has_failed => return number,
            Ok(_) => {}
            Err(error) => assert!(has_failed && matches!(error, Error::Memory), "{number}"),
        }
    }
    unreachable!()
}

#[test]
fn each_allocation_may_fail() {
    let text = "/// Words.\nfn a_name_of_more_than_fourteen() -> u8 { 'b'; \"c\" }\n";
    // The layouts are looked at before the first call.
    assert!(Buffer::lex("").is_ok());
    let before = HELD.with(Cell::get);
    assert!(fail_each(|| Buffer::lex_source(Edition::Edition2021, text)) > 2);
    assert!(fail_each(|| Buffer::lex("( ").map(|_| ()).or_else(ended)) > 0);
    assert!(fail_each(|| line_columns(text, &[0, 11, 14])) > 0);
    assert!(fail_each(|| respond(b"a b\n---\nparse 0 Ident\n")) > 2);
    assert_eq!(HELD.with(Cell::get), before);
}

/// Converts the error of a rejected text to `Ok`, since it is not an allocation failure.
fn ended(error: Error) -> Result<(), Error> {
    match error {
        Error::Rejected { .. } => Ok(()),
        error => Err(error),
    }
}
