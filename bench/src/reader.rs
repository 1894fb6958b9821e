//! The library for readers, as c/lekruvas.h declares it.

unsafe extern "C" {
    fn lekruvas_check(sheet: *const u8, length: usize, place: *mut u64) -> u8;
    fn lekruvas_mark(sheet: *const u8, length: usize, state: u32, action: u16, place: *mut u64) -> u8;
    fn lekruvas_text(number: u8, buffer: *mut u8, length: usize) -> usize;
}

/// 0 for a whole sheet, else the number of its refusal; and the place.
pub fn check(sheet: &[u8]) -> (u8, u64) {
    let mut place = u64::MAX;
    // SAFETY: the pointers come with their lengths, and the library is proved to stay within them.
    let number = unsafe { lekruvas_check(sheet.as_ptr(), sheet.len(), &mut place) };
    (number, place)
}

/// 101 best, 102 other, 103 stuck, or the number of a refusal; and the place.
pub fn mark(sheet: &[u8], state: u32, action: u16) -> (u8, u64) {
    let mut place = u64::MAX;
    // SAFETY: as above.
    let answer = unsafe { lekruvas_mark(sheet.as_ptr(), sheet.len(), state, action, &mut place) };
    (answer, place)
}

/// Writes as much of a refusal's sentence as fits, and answers the length of all of it.
pub fn text(number: u8, buffer: &mut [u8]) -> usize {
    // SAFETY: as above.
    unsafe { lekruvas_text(number, buffer.as_mut_ptr(), buffer.len()) }
}
