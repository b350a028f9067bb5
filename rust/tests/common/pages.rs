//! Memory that ends where a page ends that cannot be touched.

const PAGE: usize = 4096;

// by the calls of Linux, for which the archive is made
mod linux {
    use std::os::raw::{c_int, c_long, c_void};

    extern "C" {
        fn mmap(addr: *mut c_void, len: usize, prot: c_int, flags: c_int, fd: c_int, offset: c_long) -> *mut c_void;
        fn mprotect(addr: *mut c_void, len: usize, prot: c_int) -> c_int;
        fn munmap(addr: *mut c_void, len: usize) -> c_int;
    }

    // two pages between two that cannot be touched
    pub fn map() -> *mut u8 {
        // SAFETY: a new private mapping of memory that no file stands behind, and parts of it made untouchable.
        unsafe {
            let base = mmap(std::ptr::null_mut(), 4 * super::PAGE, 3, 0x22, -1, 0);
            assert!(base as isize != -1, "mmap");
            let base = base.cast::<u8>();
            assert_eq!(mprotect(base.cast(), super::PAGE, 0), 0);
            assert_eq!(mprotect(base.add(3 * super::PAGE).cast(), super::PAGE, 0), 0);
            base
        }
    }

    pub fn unmap(base: *mut u8) {
        // SAFETY: the mapping that `map` made, which nobody uses any more.
        unsafe {
            munmap(base.cast(), 4 * super::PAGE);
        }
    }
}

/// Lends bytes at the end of a page behind which nothing can be read or written, or at the front of one with nothing before it.
pub struct Guarded {
    base: *mut u8,
    front: bool,
}

impl Guarded {
    pub fn new() -> Self {
        Guarded {
            base: linux::map(),
            front: false,
        }
    }

    pub fn at_front() -> Self {
        Guarded {
            base: linux::map(),
            front: true,
        }
    }

    pub fn lend<R>(&mut self, bytes: &mut [u8], f: impl FnOnce(&mut [u8]) -> R) -> R {
        assert!(bytes.len() <= 2 * PAGE);
        let at = if self.front { PAGE } else { 3 * PAGE - bytes.len() };
        // SAFETY: the two middle pages of the mapping, which this value alone uses.
        let slice = unsafe { std::slice::from_raw_parts_mut(self.base.add(at), bytes.len()) };
        slice.copy_from_slice(bytes);
        let r = f(slice);
        bytes.copy_from_slice(slice);
        r
    }
}

impl Drop for Guarded {
    fn drop(&mut self) {
        linux::unmap(self.base);
    }
}
