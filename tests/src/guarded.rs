//! Lists lent to the library so that no byte beside them is touched unseen, each with a copy for the other
//! implementation.
//!
//! A list ends where memory ends: reading or writing past its end stops the test at once. Before it stand guard bytes.

use std::ffi::{c_int, c_void};
use std::sync::{Mutex, MutexGuard, PoisonError};

/// The bytes of a region's memory; no list is longer.
const ROOM: usize = 2 << 20;
/// The bytes after it that may not be touched: whole pages, on every machine.
const FENCE: usize = 1 << 16;
/// How many guard bytes stand before a list, and what they hold.
const GUARDS: usize = 64;
const GUARD: u8 = 0xa5;

const MAP_PRIVATE_ANONYMOUS: c_int = 0x22;
const PROT_NONE: c_int = 0;
const PROT_READ_WRITE: c_int = 3;

extern "C" {
    fn mmap(
        address: *mut c_void,
        length: usize,
        protection: c_int,
        flags: c_int,
        file: c_int,
        offset: i64,
    ) -> *mut c_void;
    fn mprotect(address: *mut c_void, length: usize, protection: c_int) -> c_int;
}

/// Memory that ends at a fence.
#[derive(Clone, Copy)]
struct Region(*mut u8);

/// A region belongs to the one list that stands in it, or to none.
unsafe impl Send for Region {}

/// Regions that no list stands in; they are never given back, as making one takes longer than most calls. All threads
/// share them: a system lets a process have only so many, and each round of cases has threads of its own.
static FREE: Mutex<Vec<Region>> = Mutex::new(Vec::new());

/// The free regions, also after a thread that had them has panicked.
fn free_regions() -> MutexGuard<'static, Vec<Region>> {
    FREE.lock().unwrap_or_else(PoisonError::into_inner)
}

impl Region {
    /// A region of new memory.
    fn new() -> Region {
        let nowhere = std::ptr::null_mut();
        let start = unsafe {
            mmap(
                nowhere,
                ROOM + FENCE,
                PROT_NONE,
                MAP_PRIVATE_ANONYMOUS,
                -1,
                0,
            )
        };
        let opened = unsafe { mprotect(start, ROOM, PROT_READ_WRITE) };
        assert_eq!(opened, 0, "no memory for a list");
        Region(start.cast())
    }

    /// A region that no list stands in.
    fn free() -> Region {
        let kept = free_regions().pop();
        kept.unwrap_or_else(Region::new)
    }

    /// The last bytes before the fence.
    fn last(&self, length: usize) -> &[u8] {
        assert!(length <= ROOM, "no list is so long");
        unsafe { std::slice::from_raw_parts(self.0.add(ROOM - length), length) }
    }

    /// The same for writing.
    fn last_mut(&mut self, length: usize) -> &mut [u8] {
        assert!(length <= ROOM, "no list is so long");
        unsafe { std::slice::from_raw_parts_mut(self.0.add(ROOM - length), length) }
    }
}

/// A list lent to the library, and the same list lent to the other implementation.
pub struct Twin {
    region: Region,
    pub theirs: Vec<u8>,
}

impl Twin {
    /// A list, twice.
    pub fn new(list: Vec<u8>) -> Twin {
        let mut region = Region::free();
        let (guards, ours) = region.last_mut(GUARDS + list.len()).split_at_mut(GUARDS);
        guards.fill(GUARD);
        ours.copy_from_slice(&list);
        Twin {
            region,
            theirs: list,
        }
    }

    /// A list of so many bytes to be filled by a call, twice.
    pub fn blank(length: usize) -> Twin {
        Twin::new(vec![0xcc; length])
    }

    /// The library's copy.
    pub fn ours(&self) -> &[u8] {
        self.region.last(self.theirs.len())
    }

    /// The library's copy, lent for writing.
    pub fn ours_mut(&mut self) -> &mut [u8] {
        self.region.last_mut(self.theirs.len())
    }

    /// Panics unless the two copies are alike and no guard was written.
    pub fn check(&self, what: &str) {
        let all = self.region.last(GUARDS + self.theirs.len());
        let (guards, ours) = all.split_at(GUARDS);
        assert!(
            guards.iter().all(|&byte| byte == GUARD),
            "{what}: a guard was written"
        );
        assert!(ours == self.theirs, "{what}: the lists differ");
    }
}

impl Drop for Twin {
    /// Leaves the region to a later list.
    fn drop(&mut self) {
        free_regions().push(self.region);
    }
}

/// The stack of a thread that calls the library, whose local arrays are large.
pub const STACK: usize = 8 << 20;
