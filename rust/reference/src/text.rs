//! Numbers put into texts: what printouts and delivery logs share.

/// Puts a number's digits before the place `end` of a text; gives where they start.
#[inline]
pub(crate) fn put_before(text: &mut [u8], end: usize, mut number: u32) -> usize {
    let mut start = end;
    loop {
        start -= 1;
        text[start] = b'0' + (number % 10) as u8;
        number /= 10;
        if number == 0 {
            return start;
        }
    }
}
