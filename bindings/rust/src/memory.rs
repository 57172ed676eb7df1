//! The memory of both ends, from the global allocator.
//!
//! A block stands behind its length in bytes, which the library does not hand back.

use alloc::alloc::{alloc, dealloc, realloc};
use core::alloc::Layout;
use core::ptr;

use crate::raw::Block;

/// The room before a block, and what each block is aligned to: the library asks for at most so much.
const FRONT: usize = 16;

/// What a block that is not there points to.
static NOTHING: u8 = 0;

const fn none() -> Block {
    Block { is_there: false, between: [0; 7], at: ptr::addr_of!(NOTHING).cast_mut() }
}

/// How a block of so many bytes is laid out, with its front; `None` where the processor has no block as long.
fn layout(size: u64, align: u64) -> Option<Layout> {
    if align > FRONT as u64 {
        return None;
    }
    let whole = usize::try_from(size).ok()?.checked_add(FRONT)?;
    Layout::from_size_align(whole, FRONT).ok()
}

/// The block behind a front that was just given; none where it is null.
///
/// # Safety
/// `front` is null, or the start of a block of this layout that nothing else holds.
unsafe fn behind(front: *mut u8, layout: Layout) -> Block {
    if front.is_null() {
        return none();
    }
    // SAFETY: the block has `FRONT` bytes and more, and is aligned to `FRONT`, so a usize fits in front.
    unsafe {
        front.cast::<usize>().write(layout.size());
        Block { is_there: true, between: [0; 7], at: front.add(FRONT) }
    }
}

/// The front of a block that the library holds, and its layout.
///
/// # Safety
/// `block` was given by `rattle_alloc` or `rattle_realloc`, and not back since.
unsafe fn front_of(block: *mut u8) -> (*mut u8, Layout) {
    // SAFETY: the block stands `FRONT` bytes behind its front, which has its length. The layout was good then.
    unsafe {
        let front = block.sub(FRONT);
        (front, Layout::from_size_align_unchecked(front.cast::<usize>().read(), FRONT))
    }
}

/// Gives a block.
#[no_mangle]
extern "C" fn rattle_alloc(size: u64, align: u64) -> Block {
    let Some(layout) = layout(size, align) else {
        return none();
    };
    // SAFETY: the layout has more than no bytes.
    unsafe { behind(alloc(layout), layout) }
}

/// Gives a block of another length in place of one, with the bytes that both have.
///
/// # Safety
/// `block` was given by `rattle_alloc` or `rattle_realloc`, and not back since.
#[no_mangle]
unsafe extern "C" fn rattle_realloc(block: *mut u8, _kept: u64, size: u64, align: u64) -> Block {
    let Some(layout) = layout(size, align) else {
        return none();
    };
    // SAFETY: the old block is that of its front, and the new length is that of a good layout of the same alignment.
    unsafe {
        let (front, old) = front_of(block);
        behind(realloc(front, old, layout.size()), layout)
    }
}

/// Takes a block back.
///
/// # Safety
/// `block` was given by `rattle_alloc` or `rattle_realloc`, and not back since.
#[no_mangle]
unsafe extern "C" fn rattle_dealloc(block: *mut u8) {
    // SAFETY: the block is that of its front.
    unsafe {
        let (front, layout) = front_of(block);
        dealloc(front, layout);
    }
}
