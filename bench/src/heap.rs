// The system's allocator with a count of the bytes that are out, and of the most that were out at once.
use std::alloc::{GlobalAlloc, Layout, System};
use std::sync::atomic::{AtomicUsize, Ordering::Relaxed};

struct Counting;

#[global_allocator]
static HEAP: Counting = Counting;

static OUT: AtomicUsize = AtomicUsize::new(0);
static MOST: AtomicUsize = AtomicUsize::new(0);

fn took(bytes: usize) {
    let out = OUT.fetch_add(bytes, Relaxed) + bytes;
    // one thread searches: no other store comes between (the thread that tells the progress allocates only as it starts)
    if out > MOST.load(Relaxed) {
        MOST.store(out, Relaxed);
    }
}

unsafe impl GlobalAlloc for Counting {
    unsafe fn alloc(&self, layout: Layout) -> *mut u8 {
        took(layout.size());
        System.alloc(layout)
    }

    unsafe fn dealloc(&self, at: *mut u8, layout: Layout) {
        OUT.fetch_sub(layout.size(), Relaxed);
        System.dealloc(at, layout)
    }
}

// What a work comes to, and the most bytes that it had out at once.
pub fn most_in<T>(work: impl FnOnce() -> T) -> (T, usize) {
    let before = OUT.load(Relaxed);
    MOST.store(before, Relaxed);
    let came = work();
    (came, MOST.load(Relaxed) - before)
}
