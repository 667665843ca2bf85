//! Debian's libbloom, a Bloom filter in C, on hashes of eight bytes.

use std::ffi::{c_int, c_uchar, c_void};

/// `struct bloom` of bloom.h.
#[repr(C)]
struct Parts {
    entries: c_int,
    error: f64,
    bits: c_int,
    bytes: c_int,
    hashes: c_int,
    bits_per_entry: f64,
    field: *mut c_uchar,
    ready: c_int,
}

extern "C" {
    fn bloom_init(bloom: *mut Parts, entries: c_int, error: f64) -> c_int;
    fn bloom_check(bloom: *mut Parts, buffer: *const c_void, length: c_int) -> c_int;
    fn bloom_add(bloom: *mut Parts, buffer: *const c_void, length: c_int) -> c_int;
    fn bloom_reset(bloom: *mut Parts) -> c_int;
    fn bloom_free(bloom: *mut Parts);
}

pub struct Bloom {
    parts: Box<Parts>,
}

impl Bloom {
    /// A filter for so many entries with this rate of false answers.
    pub fn new(entries: usize, rate: f64) -> Bloom {
        let mut parts = Box::new(Parts {
            entries: 0,
            error: 0.0,
            bits: 0,
            bytes: 0,
            hashes: 0,
            bits_per_entry: 0.0,
            field: std::ptr::null_mut(),
            ready: 0,
        });
        // SAFETY: libbloom writes the struct that is lent to it, and keeps no pointer to it.
        let answer = unsafe { bloom_init(&mut *parts, entries as c_int, rate) };
        assert_eq!(answer, 0, "libbloom refuses {entries} entries");
        Bloom { parts }
    }

    pub fn has(&mut self, hash: u64) -> bool {
        // SAFETY: the hash is eight bytes, and the struct is one that was made above.
        unsafe { bloom_check(&mut *self.parts, (&raw const hash).cast(), 8) == 1 }
    }

    /// Adds a hash; true if it seemed to be there already.
    pub fn add(&mut self, hash: u64) -> bool {
        // SAFETY: as above.
        unsafe { bloom_add(&mut *self.parts, (&raw const hash).cast(), 8) == 1 }
    }

    pub fn clear(&mut self) {
        // SAFETY: as above.
        assert_eq!(unsafe { bloom_reset(&mut *self.parts) }, 0);
    }
}

impl Drop for Bloom {
    fn drop(&mut self) {
        // SAFETY: as above; it is not used again.
        unsafe { bloom_free(&mut *self.parts) };
    }
}
