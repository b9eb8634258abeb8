//! Whose memory the handles take: tests over an allocator that counts its blocks and refuses one request.

use crate::error::Told;
use crate::types::Kept;
use crate::{Types, Validator};
use ruthvelka_sys as sys;
use std::cell::RefCell;
use std::collections::HashSet;
use std::ffi::c_void;
use std::ptr::null_mut;

extern "C" {
    fn malloc(size: usize) -> *mut c_void;
    fn realloc(block: *mut c_void, size: usize) -> *mut c_void;
    fn free(block: *mut c_void);
}

/// The blocks that are out, how many that weren't came back, how many requests there were, and which one is refused.
#[derive(Default)]
struct Arena {
    blocks: HashSet<usize>,
    wrong: u32,
    requests: u32,
    refuse_at: Option<u32>,
}

thread_local! {
    static ARENA: RefCell<Arena> = RefCell::default();
}

fn is_refused() -> bool {
    ARENA.with(|it| {
        let mut it = it.borrow_mut();
        it.requests += 1;
        it.refuse_at == Some(it.requests - 1)
    })
}

fn given(block: *mut c_void) -> *mut c_void {
    ARENA.with(|it| it.borrow_mut().blocks.insert(block as usize));
    block
}

/// Whether the block was out, and is no longer.
fn is_taken_back(block: *mut c_void) -> bool {
    ARENA.with(|it| {
        let mut it = it.borrow_mut();
        let was_out = it.blocks.remove(&(block as usize));
        it.wrong += u32::from(!was_out && !block.is_null());
        was_out
    })
}

unsafe extern "C" fn allocate(_: *mut c_void, size: usize) -> *mut c_void {
    if is_refused() {
        null_mut()
    } else {
        given(malloc(size))
    }
}

unsafe extern "C" fn resize(_: *mut c_void, block: *mut c_void, size: usize) -> *mut c_void {
    if is_refused() || !is_taken_back(block) {
        null_mut()
    } else {
        given(realloc(block, size))
    }
}

// What isn't out isn't given to `free`, so that the test can say so.
unsafe extern "C" fn release(_: *mut c_void, block: *mut c_void) {
    if is_taken_back(block) {
        free(block);
    }
}

struct Shared(sys::Allocator);

// SAFETY: nothing in it changes, and its functions use nothing but what their own thread has.
unsafe impl Sync for Shared {}

static OVER: Shared = Shared(sys::Allocator {
    size: std::mem::size_of::<sys::Allocator>(),
    context: null_mut(),
    allocate: Some(allocate),
    resize: Some(resize),
    release: Some(release),
});

const FUNCTIONS: &[u8] = b"\0asm\x01\0\0\0\x01\x09\x02\x60\0\0\x60\x01\x7f\x01\x7f";
const LINKED: &[u8] = b"\0asm\x01\0\0\0\x01\x04\x01\x60\0\0\x02\x07\x01\x01m\x01f\0\0\x07\x05\x01\x01f\0\0"; // m.f, imported and exported
const WRONG_BODY: &[u8] = b"\0asm\x01\0\0\0\x01\x05\x01\x60\0\x01\x7f\x03\x02\x01\0\x0a\x05\x01\x03\0\x01\x0b"; // the result is missing

/// A life of a validator, with each way in which a handle ends. Whether memory was refused.
fn is_refused_in_life() -> bool {
    let mut validator = Validator::new_in(&OVER.0);
    let first = validator.validate_all(FUNCTIONS);
    let linked = validator.validate_all(LINKED);
    let why = validator.validate_all(WRONG_BODY).unwrap_err();
    drop(validator);
    let (Ok(first), Ok(linked)) = (first, linked) else { return true };
    let clone = first.clone();
    drop(first);
    let is_told = linked.may_be_given(0, &linked, 0) && clone.core_type_count_in_module() == 2;
    !is_told || why.message().is_empty() || !why.is_refused()
}

#[test]
fn all_is_given_back_once_and_each_refusal_is_told() {
    assert!(!is_refused_in_life());
    let all = ARENA.with(|it| it.take());
    assert!(all.requests > 20 && all.blocks.is_empty() && all.wrong == 0);
    for at in 0..all.requests {
        ARENA.with(|it| it.borrow_mut().refuse_at = Some(at));
        let is_told = is_refused_in_life();
        let after = ARENA.with(|it| it.take());
        assert!(is_told && after.blocks.is_empty() && after.wrong == 0, "request {at}");
    }
}

#[test]
fn a_validator_that_has_no_memory_says_so_and_begins_later() {
    let mut validator = Validator::new_in(&OVER.0);
    ARENA.with(|it| it.borrow_mut().refuse_at = Some(0));
    assert!(validator.validate_all(FUNCTIONS).unwrap_err().is_out_of_memory());
    assert!(validator.validate_all(FUNCTIONS).is_ok());
}

#[test]
fn a_report_that_tells_nothing_is_no_module() {
    // types that hold nothing have no ids
    let outcome = sys::Outcome { status: sys::STATUS_VALID, ..sys::Outcome::default() };
    assert!(Types::read(Kept::nothing(Told::new()), &outcome).is_err());
}
