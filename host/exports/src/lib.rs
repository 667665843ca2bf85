//! The C interface of libkjarnhul.a, declared once. Promises are those of kjarnhul.h.
#![allow(clippy::missing_safety_doc)]

/// `kj_filter` of kjarnhul.h.
#[repr(C)]
#[derive(Clone, Copy, Default)]
pub struct Filter {
    pub numbers: [u32; 6],
    pub annex: [[u32; 3]; 15],
}

/// The first of the words lent.
pub type Lent = *mut u32;

/// Declares calls on a record, main, queue and annex, each with what it takes besides.
macro_rules! calls {
    ($($name:ident($($more:ident: $kind:ty),*);)*) => {
        extern "C" {
            $(pub fn $name(
                record: *mut Filter,
                main: Lent,
                main_count: usize,
                queue: Lent,
                queue_count: usize,
                annex: Lent,
                annex_count: usize,
                $($more: $kind),*
            ) -> u32;)*
        }
    };
}

calls! {
    kj_start(power: u32, f: u32, regime: u32);
    kj_query(hash: u64);
    kj_insert(hash: u64);
    kj_delete(hash: u64);
    kj_rejuvenate(hash: u64);
    kj_audit();
    kj_settle();
    kj_double(second: Lent, second_count: usize);
}

extern "C" {
    pub fn kj_width(record: *const Filter) -> u32;
    pub fn kj_query_bytes(k: u32, w: u32, hash: u64, bytes: *const u8, count: usize) -> u32;
}
