// The functions of crate probe as its archive exports them: a slice is a pointer, never null, and then a length. No function has a
// `requires`, and the borrow checker here sees to it that lent memory does not overlap. Nothing else holds these lines to crates/probe.

#[repr(C)]
pub struct Symbol {
    pub code: u32,
    pub len: usize,
}

#[repr(C)]
#[derive(Clone, Copy)]
pub struct Lacking {
    pub left: u8,
    pub lo: u8,
    pub hi: u8,
}

#[repr(C)]
pub struct Measured {
    pub len: usize,
    pub utf8: bool,
}

#[repr(C)]
pub struct Unsigned {
    pub kind: u64,
    pub value: u64,
}

#[repr(C)]
pub struct Integer {
    pub kind: u64,
    pub value: i64,
}

#[repr(C)]
pub struct Located {
    pub kind: u64,
    pub high: u64,
    pub low: u64,
}

mod c {
    use super::*;
    extern "C" {
        pub fn probe_stands_at(w: *const u8, wn: usize, at: usize, s: *const u8, sn: usize) -> bool;
        pub fn probe_put(dst: *mut u8, dn: usize, at: usize, b: u8) -> usize;
        pub fn probe_copy(src: *const u8, sn: usize, dst: *mut u8, dn: usize, at: usize) -> usize;
        pub fn probe_clear(dst: *mut u8, dn: usize, at: usize, n: usize) -> usize;
        pub fn probe_space(code: u32) -> bool;
        pub fn probe_char_at(s: *const u8, sn: usize, at: usize) -> Symbol;
        pub fn probe_valid(s: *const u8, sn: usize) -> bool;
        pub fn probe_start() -> Lacking;
        pub fn probe_next(left: u8, lo: u8, hi: u8, b: u8) -> Lacking;
        pub fn probe_decode(src: *const u8, sn: usize, dst: *mut u8, dn: usize, at: usize) -> usize;
        pub fn probe_first(s: *const u8, sn: usize) -> u8;
        pub fn probe_decoded_len(s: *const u8, sn: usize) -> usize;
        pub fn probe_check(s: *const u8, sn: usize) -> Measured;
        pub fn probe_unsigned(s: *const u8, sn: usize, max: u64) -> Unsigned;
        pub fn probe_u16(s: *const u8, sn: usize) -> Unsigned;
        pub fn probe_u32(s: *const u8, sn: usize) -> Unsigned;
        pub fn probe_hex(s: *const u8, sn: usize, max: u64) -> Unsigned;
        pub fn probe_signed(s: *const u8, sn: usize) -> Integer;
        pub fn probe_decimal_len(n: u64) -> usize;
        pub fn probe_put_decimal(n: u64, dst: *mut u8, dn: usize, at: usize) -> usize;
        pub fn probe_put_hex2_upper(b: u8, dst: *mut u8, dn: usize, at: usize) -> usize;
        pub fn probe_put_hex4_lower(g: u16, dst: *mut u8, dn: usize, at: usize) -> usize;
        pub fn probe_address(s: *const u8, sn: usize) -> Located;
        pub fn probe_key_number(s: *const u8, sn: usize) -> usize;
        pub fn probe_word_number(key: usize, s: *const u8, sn: usize) -> usize;
        pub fn probe_prefix_len(s: *const u8, sn: usize) -> usize;
        pub fn probe_put_key(key: usize, dst: *mut u8, dn: usize, at: usize) -> usize;
        pub fn probe_put_word(key: usize, word: usize, dst: *mut u8, dn: usize, at: usize) -> usize;
    }
}

pub fn stands_at(w: &[u8], at: usize, s: &[u8]) -> bool {
    unsafe { c::probe_stands_at(w.as_ptr(), w.len(), at, s.as_ptr(), s.len()) }
}

pub fn put(dst: &mut [u8], at: usize, b: u8) -> usize {
    unsafe { c::probe_put(dst.as_mut_ptr(), dst.len(), at, b) }
}

pub fn copy(src: &[u8], dst: &mut [u8], at: usize) -> usize {
    unsafe { c::probe_copy(src.as_ptr(), src.len(), dst.as_mut_ptr(), dst.len(), at) }
}

pub fn clear(dst: &mut [u8], at: usize, n: usize) -> usize {
    unsafe { c::probe_clear(dst.as_mut_ptr(), dst.len(), at, n) }
}

pub fn space(code: u32) -> bool {
    unsafe { c::probe_space(code) }
}

/// Code point and length of the character at a place, both 0 where none begins.
pub fn char_at(s: &[u8], at: usize) -> (u32, usize) {
    let x = unsafe { c::probe_char_at(s.as_ptr(), s.len(), at) };
    (x.code, x.len)
}

pub fn valid(s: &[u8]) -> bool {
    unsafe { c::probe_valid(s.as_ptr(), s.len()) }
}

/// Whether a text is UTF-8, judged byte by byte.
pub fn valid_by_steps(s: &[u8]) -> bool {
    let first = unsafe { c::probe_start() };
    let last = s.iter().fold(first, |t, b| unsafe { c::probe_next(t.left, t.lo, t.hi, *b) });
    last.left == 0
}

pub fn decode(src: &[u8], dst: &mut [u8], at: usize) -> usize {
    unsafe { c::probe_decode(src.as_ptr(), src.len(), dst.as_mut_ptr(), dst.len(), at) }
}

/// The first decoded byte, or 0.
pub fn first(s: &[u8]) -> u8 {
    unsafe { c::probe_first(s.as_ptr(), s.len()) }
}

pub fn decoded_len(s: &[u8]) -> usize {
    unsafe { c::probe_decoded_len(s.as_ptr(), s.len()) }
}

/// The decoded length again, and whether what is decoded is UTF-8.
pub fn check(s: &[u8]) -> (usize, bool) {
    let m = unsafe { c::probe_check(s.as_ptr(), s.len()) };
    (m.len, m.utf8)
}

/// What was read, or why it was refused.
#[derive(PartialEq, Debug, Clone, Copy)]
pub enum Read<T> {
    Is(T),
    Form,
    Range,
}

fn read<T>(kind: u64, value: T) -> Read<T> {
    match kind {
        0 => Read::Is(value),
        1 => Read::Form,
        2 => Read::Range,
        _ => panic!("no kind of answer: {}", kind),
    }
}

pub fn unsigned(s: &[u8], max: u64) -> Read<u64> {
    let r = unsafe { c::probe_unsigned(s.as_ptr(), s.len(), max) };
    read(r.kind, r.value)
}

pub fn as_u16(s: &[u8]) -> Read<u64> {
    let r = unsafe { c::probe_u16(s.as_ptr(), s.len()) };
    read(r.kind, r.value)
}

pub fn as_u32(s: &[u8]) -> Read<u64> {
    let r = unsafe { c::probe_u32(s.as_ptr(), s.len()) };
    read(r.kind, r.value)
}

pub fn hex(s: &[u8], max: u64) -> Read<u64> {
    let r = unsafe { c::probe_hex(s.as_ptr(), s.len(), max) };
    read(r.kind, r.value)
}

pub fn signed(s: &[u8]) -> Read<i64> {
    let r = unsafe { c::probe_signed(s.as_ptr(), s.len()) };
    read(r.kind, r.value)
}

pub fn decimal_len(n: u64) -> usize {
    unsafe { c::probe_decimal_len(n) }
}

pub fn put_decimal(n: u64, dst: &mut [u8], at: usize) -> usize {
    unsafe { c::probe_put_decimal(n, dst.as_mut_ptr(), dst.len(), at) }
}

pub fn put_hex2_upper(b: u8, dst: &mut [u8], at: usize) -> usize {
    unsafe { c::probe_put_hex2_upper(b, dst.as_mut_ptr(), dst.len(), at) }
}

pub fn put_hex4_lower(g: u16, dst: &mut [u8], at: usize) -> usize {
    unsafe { c::probe_put_hex4_lower(g, dst.as_mut_ptr(), dst.len(), at) }
}

/// The kind (0: none, 4, 6) and the address as a number, in two halves.
pub fn address(s: &[u8]) -> (u64, u64, u64) {
    let a = unsafe { c::probe_address(s.as_ptr(), s.len()) };
    (a.kind, a.high, a.low)
}

/// The number of a key, or 0.
pub fn key_number(s: &[u8]) -> usize {
    unsafe { c::probe_key_number(s.as_ptr(), s.len()) }
}

/// The number of a word among those of the key, or 0.
pub fn word_number(key: usize, s: &[u8]) -> usize {
    unsafe { c::probe_word_number(key, s.as_ptr(), s.len()) }
}

/// The length of the prefix that makes a text a URI, or 0.
pub fn prefix_len(s: &[u8]) -> usize {
    unsafe { c::probe_prefix_len(s.as_ptr(), s.len()) }
}

pub fn put_key(key: usize, dst: &mut [u8], at: usize) -> usize {
    unsafe { c::probe_put_key(key, dst.as_mut_ptr(), dst.len(), at) }
}

pub fn put_word(key: usize, word: usize, dst: &mut [u8], at: usize) -> usize {
    unsafe { c::probe_put_word(key, word, dst.as_mut_ptr(), dst.len(), at) }
}
