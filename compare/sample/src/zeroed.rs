//! Memory that is zero when it is handed out, so that what the crate leaves unset in a page is zero in its file.

use std::alloc::{GlobalAlloc, Layout, System};

pub struct Zeroed;

unsafe impl GlobalAlloc for Zeroed {
    unsafe fn alloc(&self, layout: Layout) -> *mut u8 {
        System.alloc_zeroed(layout)
    }

    unsafe fn dealloc(&self, start: *mut u8, layout: Layout) {
        System.dealloc(start, layout)
    }
}
