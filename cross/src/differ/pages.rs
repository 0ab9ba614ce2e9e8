//! Memory between two pages that nobody may touch: whoever reads or writes beside it is ended by a signal.

use std::{ffi::c_void, ptr::NonNull, slice};

/// The constants of Linux on x86-64.
mod system {
    use std::ffi::c_void;

    pub const NO_ACCESS: i32 = 0;
    pub const READ: i32 = 1;
    pub const READ_AND_WRITE: i32 = 3;
    /// Private and anonymous.
    pub const OWN_MEMORY: i32 = 0x22;

    extern "C" {
        pub fn mmap(wish: *mut c_void, length: usize, access: i32, flags: i32, file: i32, offset: i64) -> *mut c_void;
        pub fn mprotect(start: *mut c_void, length: usize, access: i32) -> i32;
        pub fn munmap(start: *mut c_void, length: usize) -> i32;
    }
}

const PAGE: usize = 4_096;
/// Between the guard pages: more than any slice here needs.
const LENGTH: usize = 128 * PAGE;

/// Which guard page a slice stands against.
#[derive(Clone, Copy)]
pub enum Edge {
    Lower,
    Upper,
}

/// One slice at a time is lent from these pages.
pub struct Pages {
    /// The lower guard page; the upper one follows the memory between them.
    guard: NonNull<c_void>,
    /// What is allowed between the guard pages at present.
    access: i32,
}

impl Pages {
    pub fn new() -> Pages {
        let all = unsafe { system::mmap(std::ptr::null_mut(), LENGTH + 2 * PAGE, system::NO_ACCESS, system::OWN_MEMORY, -1, 0) };
        assert_ne!(all as isize, -1, "no memory for guard pages");
        Pages { guard: NonNull::new(all).expect("memory does not begin at 0"), access: system::NO_ACCESS }
    }

    fn between(&self) -> *mut c_void {
        self.guard.as_ptr().wrapping_byte_add(PAGE)
    }

    fn allow(&mut self, access: i32) {
        if access != self.access {
            assert_eq!(unsafe { system::mprotect(self.between(), LENGTH, access) }, 0, "guard pages cannot be set up");
            self.access = access;
        }
    }

    /// Where content begins that stands against an edge. Pages are aligned for every type here, and so is each place a whole number of
    /// entries below the upper edge.
    fn start<T>(&self, content: &[T], edge: Edge) -> *mut T {
        let bytes = size_of_val(content);
        assert!(bytes <= LENGTH, "a slice of {bytes} bytes");
        let start = match edge {
            Edge::Lower => self.between(),
            Edge::Upper => self.between().wrapping_byte_add(LENGTH - bytes),
        };
        start.cast()
    }

    /// Puts the content against an edge and answers where it begins. With an empty slice there is nothing that may be touched.
    fn place<T: Copy>(&mut self, content: &[T], edge: Edge) -> *mut T {
        let start = self.start(content, edge);
        self.allow(if content.is_empty() { system::NO_ACCESS } else { system::READ_AND_WRITE });
        unsafe { start.copy_from_nonoverlapping(content.as_ptr(), content.len()) };
        start
    }

    /// A slice that whoever writes to it is ended for. Often the same tables are lent again and stand there still; to let them be put
    /// there anew is what takes most of a run's time.
    pub fn lend_to_read<T: Copy + PartialEq>(&mut self, content: &[T], edge: Edge) -> &[T] {
        let start = self.start(content, edge);
        let may_stand = self.access == system::READ && !content.is_empty();
        if !may_stand || unsafe { slice::from_raw_parts(start, content.len()) } != content {
            self.place(content, edge);
            self.allow(if content.is_empty() { system::NO_ACCESS } else { system::READ });
        }
        unsafe { slice::from_raw_parts(start, content.len()) }
    }

    pub fn lend_to_write<T: Copy>(&mut self, content: &[T], edge: Edge) -> &mut [T] {
        let start = self.place(content, edge);
        unsafe { slice::from_raw_parts_mut(start, content.len()) }
    }
}

impl Default for Pages {
    fn default() -> Pages {
        Pages::new()
    }
}

impl Drop for Pages {
    fn drop(&mut self) {
        unsafe { system::munmap(self.guard.as_ptr(), LENGTH + 2 * PAGE) };
    }
}
