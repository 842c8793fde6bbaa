//! More memory than a machine has, for lists that are longer than they may be.

extern "C" {
    fn mmap(at: *mut u8, length: usize, protection: i32, flags: i32, file: i32, offset: i64) -> *mut u8;
    fn munmap(at: *mut u8, length: usize) -> i32;
}

/// Memory of zeros that nobody has touched: one page of it is there once it is read.
pub struct Zeros {
    at: *mut u8,
    length: usize,
}

impl Zeros {
    /// So many numbers of 8 bytes.
    pub fn of(numbers: usize) -> Zeros {
        const READ: i32 = 1;
        const PRIVATE_ANONYMOUS_NO_RESERVE: i32 = 0x4022;
        let length = 8 * numbers;
        // SAFETY: a new mapping, which overlaps nothing.
        let at = unsafe { mmap(std::ptr::null_mut(), length, READ, PRIVATE_ANONYMOUS_NO_RESERVE, -1, 0) };
        assert_ne!(at as isize, -1, "no address space of {length} bytes");
        Zeros { at, length }
    }

    pub fn numbers(&self) -> &[f64] {
        // SAFETY: so many bytes are mapped for reading while this lives, and a page begins aligned.
        unsafe { std::slice::from_raw_parts(self.at.cast(), self.length / 8) }
    }

    pub fn bytes(&self) -> &[u8] {
        // SAFETY: as above.
        unsafe { std::slice::from_raw_parts(self.at, self.length) }
    }
}

impl Drop for Zeros {
    fn drop(&mut self) {
        // SAFETY: mapped by `of`, and no borrow is left.
        unsafe { munmap(self.at, self.length) };
    }
}
