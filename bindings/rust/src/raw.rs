//! The calls of `pam.h`, and handles that are freed once.
use crate::NoMemory;
use std::cell::UnsafeCell;
use std::ffi::c_void;
use std::ptr;

pub const OK: u8 = 0;
pub const NOT_THERE: u8 = 1;
pub const NO_ROOM: u8 = 2;
pub const NOT_A_MAP: u8 = 3;
pub const NO_MEMORY: u8 = 7;

/// A handle of C: zeros are closed.
#[repr(C)]
pub struct Raw {
    at: *mut c_void,
    state: u64,
}

/// What the kinds of handles have in common.
pub trait Kind {
    const NEW: unsafe extern "C" fn(*mut Raw) -> u8;
    const FREE: unsafe extern "C" fn(*mut Raw) -> u8;
    const SHARE: unsafe extern "C" fn(*mut Raw, *mut Raw) -> u8;
    const LEN: unsafe extern "C" fn(*mut Raw, *mut u64) -> u8;
}

pub struct MapKind;
pub struct TextMapKind;
pub struct SeqKind;
pub struct IntervalsKind;

/// An open handle. Calls that only read want it to themselves too, hence the cell, which makes it not `Sync`.
pub struct Handle<K: Kind> {
    raw: UnsafeCell<Raw>,
    kind: std::marker::PhantomData<K>,
}

// SAFETY: the library keeps nothing of a thread, and counts the owners of shared memory atomically.
unsafe impl<K: Kind> Send for Handle<K> {}

impl<K: Kind> Handle<K> {
    /// The handle that a call opens.
    pub fn opened(call: impl FnOnce(*mut Raw) -> u8) -> Result<Self, u8> {
        let raw = UnsafeCell::new(Raw { at: ptr::null_mut(), state: 0 });
        let handle = Handle { raw, kind: std::marker::PhantomData };
        match call(handle.as_ptr()) {
            OK => Ok(handle),
            status => Err(status),
        }
    }

    pub fn new() -> Result<Self, NoMemory> {
        // SAFETY: a closed handle.
        Self::opened(|out| unsafe { K::NEW(out) }).map_err(no_memory)
    }

    pub fn share(&self) -> Result<Self, NoMemory> {
        // SAFETY: an open handle, and a closed one.
        Self::opened(|out| unsafe { K::SHARE(self.as_ptr(), out) }).map_err(no_memory)
    }

    pub fn len(&self) -> u64 {
        let mut len = 0;
        // SAFETY: an open handle.
        sure(unsafe { K::LEN(self.as_ptr(), &mut len) });
        len
    }

    /// The pointer for a call, which has the handle to itself while it lasts: a handle is not `Sync`, and no call calls back.
    pub fn as_ptr(&self) -> *mut Raw {
        self.raw.get()
    }
}

impl<K: Kind> Drop for Handle<K> {
    fn drop(&mut self) {
        // SAFETY: an open handle, or a closed one, which stays closed.
        unsafe { K::FREE(self.as_ptr()) };
    }
}

/// The error of a call that may want memory, and nothing else.
pub fn no_memory(status: u8) -> NoMemory {
    assert_eq!(status, NO_MEMORY, "pam: a call was refused");
    NoMemory
}

/// Whether a call that may want memory did it.
pub fn done(status: u8) -> Result<(), NoMemory> {
    match status {
        OK => Ok(()),
        status => Err(no_memory(status)),
    }
}

/// A call that can't be refused.
pub fn sure(status: u8) {
    assert_eq!(status, OK, "pam: a call was refused");
}

/// Whether something was there, for a call that can't be refused otherwise.
pub fn there(status: u8) -> bool {
    match status {
        NOT_THERE => false,
        status => {
            sure(status);
            true
        }
    }
}

macro_rules! kinds {
    ($($kind:ident: $new:ident $free:ident $share:ident $len:ident;)*) => {
        extern "C" {
            $(
                fn $new(out: *mut Raw) -> u8;
                fn $free(handle: *mut Raw) -> u8;
                fn $share(handle: *mut Raw, out: *mut Raw) -> u8;
                fn $len(handle: *mut Raw, len: *mut u64) -> u8;
            )*
        }
        $(
            impl Kind for $kind {
                const NEW: unsafe extern "C" fn(*mut Raw) -> u8 = $new;
                const FREE: unsafe extern "C" fn(*mut Raw) -> u8 = $free;
                const SHARE: unsafe extern "C" fn(*mut Raw, *mut Raw) -> u8 = $share;
                const LEN: unsafe extern "C" fn(*mut Raw, *mut u64) -> u8 = $len;
            }
        )*
    };
}

kinds! {
    MapKind: pam_map_new pam_map_free pam_map_share pam_map_len;
    TextMapKind: pam_text_map_new pam_text_map_free pam_text_map_share pam_text_map_len;
    SeqKind: pam_seq_new pam_seq_free pam_seq_share pam_seq_len;
    IntervalsKind: pam_intervals_new pam_intervals_free pam_intervals_share pam_intervals_len;
}

extern "C" {
    pub fn pam_map_get(m: *mut Raw, key: u64, val: *mut u64) -> u8;
    pub fn pam_map_put(m: *mut Raw, key: u64, val: u64) -> u8;
    pub fn pam_map_del(m: *mut Raw, key: u64) -> u8;
    pub fn pam_map_fold(m: *mut Raw, sum: *mut u64, greatest: *mut u64) -> u8;
    pub fn pam_map_fold_range(m: *mut Raw, lo: u64, hi: u64, sum: *mut u64, greatest: *mut u64) -> u8;
    pub fn pam_map_least(m: *mut Raw, least: *mut u64) -> u8;
    pub fn pam_map_least_range(m: *mut Raw, lo: u64, hi: u64, least: *mut u64) -> u8;
    pub fn pam_map_count(m: *mut Raw, lo: u64, hi: u64, count: *mut u64) -> u8;
    pub fn pam_map_rank(m: *mut Raw, key: u64, rank: *mut u64) -> u8;
    pub fn pam_map_select(m: *mut Raw, at: u64, key: *mut u64, val: *mut u64) -> u8;
    pub fn pam_map_next(m: *mut Raw, from: u64, key: *mut u64, val: *mut u64) -> u8;
    pub fn pam_map_prev(m: *mut Raw, from: u64, key: *mut u64, val: *mut u64) -> u8;
    pub fn pam_map_first(m: *mut Raw, key: *mut u64, val: *mut u64) -> u8;
    pub fn pam_map_last(m: *mut Raw, key: *mut u64, val: *mut u64) -> u8;
    pub fn pam_map_union(a: *mut Raw, b: *mut Raw, how: u8, out: *mut Raw) -> u8;
    pub fn pam_map_intersection(a: *mut Raw, b: *mut Raw, how: u8, out: *mut Raw) -> u8;
    pub fn pam_map_difference(a: *mut Raw, b: *mut Raw, out: *mut Raw) -> u8;
    pub fn pam_map_split(m: *mut Raw, key: u64, below: *mut Raw, from: *mut Raw) -> u8;
    pub fn pam_map_range(m: *mut Raw, lo: u64, hi: u64, out: *mut Raw) -> u8;
    pub fn pam_map_fill(m: *mut Raw, from: u64, keys: *mut u64, keys_len: usize, vals: *mut u64, vals_len: usize, count: *mut usize) -> u8;
    pub fn pam_map_build(m: *mut Raw, keys: *const u64, keys_len: usize, vals: *const u64, vals_len: usize) -> u8;
    pub fn pam_map_put_many(m: *mut Raw, keys: *const u64, keys_len: usize, vals: *const u64, vals_len: usize) -> u8;
    pub fn pam_map_get_many(m: *mut Raw, keys: *const u64, keys_len: usize, vals: *mut u64, vals_len: usize, present: *mut u8, present_len: usize) -> u8;
    pub fn pam_map_del_many(m: *mut Raw, keys: *const u64, keys_len: usize) -> u8;
    pub fn pam_map_bytes(m: *mut Raw, out: *mut u8, room: usize, needed: *mut usize) -> u8;
    pub fn pam_map_from_bytes(m: *mut Raw, bytes: *const u8, len: usize) -> u8;

    pub fn pam_text_map_get(m: *mut Raw, key: *const u8, len: usize, val: *mut u64) -> u8;
    pub fn pam_text_map_contains(m: *mut Raw, key: *const u8, len: usize) -> u8;
    pub fn pam_text_map_put(m: *mut Raw, key: *const u8, len: usize, val: u64) -> u8;
    pub fn pam_text_map_del(m: *mut Raw, key: *const u8, len: usize) -> u8;
    pub fn pam_text_map_fold(m: *mut Raw, sum: *mut u64, greatest: *mut u64) -> u8;
    pub fn pam_text_map_fold_range(m: *mut Raw, lo: *const u8, lo_len: usize, hi: *const u8, hi_len: usize, sum: *mut u64, greatest: *mut u64) -> u8;
    pub fn pam_text_map_rank(m: *mut Raw, key: *const u8, len: usize, rank: *mut u64) -> u8;
    pub fn pam_text_map_select(m: *mut Raw, at: u64, key: *mut u8, room: usize, key_len: *mut usize, val: *mut u64) -> u8;
    pub fn pam_text_map_next(m: *mut Raw, than: *const u8, than_len: usize, key: *mut u8, room: usize, key_len: *mut usize, val: *mut u64) -> u8;
    pub fn pam_text_map_prev(m: *mut Raw, than: *const u8, than_len: usize, key: *mut u8, room: usize, key_len: *mut usize, val: *mut u64) -> u8;
    pub fn pam_text_map_first(m: *mut Raw, key: *mut u8, room: usize, key_len: *mut usize, val: *mut u64) -> u8;
    pub fn pam_text_map_last(m: *mut Raw, key: *mut u8, room: usize, key_len: *mut usize, val: *mut u64) -> u8;
    pub fn pam_text_map_union(a: *mut Raw, b: *mut Raw, how: u8, out: *mut Raw) -> u8;
    pub fn pam_text_map_intersection(a: *mut Raw, b: *mut Raw, how: u8, out: *mut Raw) -> u8;
    pub fn pam_text_map_difference(a: *mut Raw, b: *mut Raw, out: *mut Raw) -> u8;
    pub fn pam_text_map_split(m: *mut Raw, key: *const u8, len: usize, below: *mut Raw, from: *mut Raw) -> u8;
    pub fn pam_text_map_fill(m: *mut Raw, from: *const u8, from_len: usize, keys: *mut u8, room: usize, ends: *mut usize, ends_len: usize, vals: *mut u64, vals_len: usize, count: *mut usize) -> u8;
    pub fn pam_text_map_put_many(m: *mut Raw, keys: *const u8, keys_len: usize, ends: *const usize, ends_len: usize, vals: *const u64, vals_len: usize) -> u8;

    pub fn pam_seq_get(s: *mut Raw, place: u64, item: *mut u64) -> u8;
    pub fn pam_seq_set(s: *mut Raw, place: u64, item: u64) -> u8;
    pub fn pam_seq_push(s: *mut Raw, item: u64) -> u8;
    pub fn pam_seq_push_many(s: *mut Raw, items: *const u64, len: usize) -> u8;
    pub fn pam_seq_build(s: *mut Raw, items: *const u64, len: usize) -> u8;
    pub fn pam_seq_append(a: *mut Raw, b: *mut Raw, out: *mut Raw) -> u8;
    pub fn pam_seq_take(s: *mut Raw, count: u64, out: *mut Raw) -> u8;
    pub fn pam_seq_skip(s: *mut Raw, count: u64, out: *mut Raw) -> u8;
    pub fn pam_seq_reverse(s: *mut Raw, out: *mut Raw) -> u8;
    pub fn pam_seq_fold(s: *mut Raw, sum: *mut u64, greatest: *mut u64) -> u8;
    pub fn pam_seq_fold_range(s: *mut Raw, from: u64, count: u64, sum: *mut u64, greatest: *mut u64) -> u8;
    pub fn pam_seq_fill(s: *mut Raw, from: u64, items: *mut u64, len: usize, count: *mut usize) -> u8;

    pub fn pam_intervals_add(s: *mut Raw, left: u64, right: u64) -> u8;
    pub fn pam_intervals_del(s: *mut Raw, left: u64, right: u64) -> u8;
    pub fn pam_intervals_any(s: *mut Raw, point: u64) -> u8;
    pub fn pam_intervals_build(s: *mut Raw, lefts: *const u64, lefts_len: usize, rights: *const u64, rights_len: usize) -> u8;
    pub fn pam_intervals_stab(s: *mut Raw, point: u64, lefts: *mut u64, lefts_len: usize, rights: *mut u64, rights_len: usize, count: *mut usize) -> u8;
    pub fn pam_intervals_overlapping(s: *mut Raw, lo: u64, hi: u64, lefts: *mut u64, lefts_len: usize, rights: *mut u64, rights_len: usize, count: *mut usize) -> u8;
    pub fn pam_intervals_fill(s: *mut Raw, from_left: u64, from_right: u64, lefts: *mut u64, lefts_len: usize, rights: *mut u64, rights_len: usize, count: *mut usize) -> u8;
}
