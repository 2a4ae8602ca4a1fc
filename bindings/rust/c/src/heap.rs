//! The memory of the library, by the three functions of `heap.c`, which a program may define itself.
use core::alloc::{GlobalAlloc, Layout};
use core::ptr::null_mut;

// Whether there was memory, and where it is. The pointer is never null.
#[repr(C)]
struct Block {
    is_there: bool,
    at: *mut u8,
}

unsafe extern "C" {
    fn rattle_alloc(size: usize, align: usize) -> Block;
    fn rattle_realloc(at: *mut u8, kept: usize, size: usize, align: usize) -> Block;
    fn rattle_dealloc(at: *mut u8);
}

// What each block of that heap is aligned to.
const ALIGNED_TO: usize = 16;

struct Heap;

#[global_allocator]
static HEAP: Heap = Heap;

fn place(block: Block) -> *mut u8 {
    if block.is_there { block.at } else { null_mut() }
}

// SAFETY: the heap's blocks have the size and the alignment that a layout asks for, and are its own until it frees them.
unsafe impl GlobalAlloc for Heap {
    unsafe fn alloc(&self, layout: Layout) -> *mut u8 {
        if layout.align() > ALIGNED_TO {
            return null_mut();
        }
        // SAFETY: any size and alignment may be asked for.
        place(unsafe { rattle_alloc(layout.size(), layout.align()) })
    }

    unsafe fn dealloc(&self, at: *mut u8, _: Layout) {
        // SAFETY: the block is one of this heap.
        unsafe { rattle_dealloc(at) }
    }

    unsafe fn realloc(&self, at: *mut u8, layout: Layout, size: usize) -> *mut u8 {
        // SAFETY: the block is one of this heap, and has so many bytes to keep.
        place(unsafe { rattle_realloc(at, layout.size().min(size), size, layout.align()) })
    }
}
