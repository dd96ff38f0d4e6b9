// The functions of crate dock, as the archive of dock_c exports them: a slice is a pointer, never null, and then a length.

mod c {
    extern "C" {
        pub fn nyimbrak_answer(text: *const u8, tn: usize, decode: *mut u8, dn: usize) -> u64;
        pub fn nyimbrak_read(text: *const u8, tn: usize, decode: *mut u8, dn: usize, report: *mut u8, rn: usize) -> u32;
    }
}

/// Number, key and count: number + 2^8 · key + 2^16 · count.
pub fn answer(text: &[u8], decode: &mut [u8]) -> (u32, u32, usize) {
    let n = unsafe { c::nyimbrak_answer(text.as_ptr(), text.len(), decode.as_mut_ptr(), decode.len()) };
    (n as u32 & 0xff, n as u32 >> 8 & 0xff, (n >> 16) as usize)
}

/// The report's length, or 1,000,000 plus the refusal.
pub fn read(text: &[u8], decode: &mut [u8], report: &mut [u8]) -> u32 {
    unsafe { c::nyimbrak_read(text.as_ptr(), text.len(), decode.as_mut_ptr(), decode.len(), report.as_mut_ptr(), report.len()) }
}
