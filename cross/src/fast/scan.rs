//! The parts of a line: numbers, signed numbers, literals. Each answers what it read and the offset behind it, or nothing if the text
//! is malformed there.

/// Above every limit of the format. A number of more than seven digits counts as this, so nothing wraps.
const TOO_LARGE: u32 = 10_000_000;

#[inline(always)]
fn digit(text: &[u8], at: usize) -> Option<u32> {
    let value = text.get(at)?.wrapping_sub(b'0');
    (value < 10).then_some(u32::from(value))
}

/// Whether `part` stands at this offset.
#[inline(always)]
pub fn stands(text: &[u8], at: usize, part: &[u8]) -> bool {
    text.get(at..at + part.len()) == Some(part)
}

/// A number without a sign. After a leading zero it ends, so that a further digit is out of place for whoever reads on.
#[inline(always)]
pub fn number(text: &[u8], start: usize) -> Option<(u32, usize)> {
    let mut value = digit(text, start)?;
    let mut at = start + 1;
    if value == 0 {
        return Some((0, at));
    }
    while let Some(next) = digit(text, at) {
        value = value.wrapping_mul(10).wrapping_add(next);
        at += 1;
    }
    Some((if at - start > 7 { TOO_LARGE } else { value }, at))
}

/// A number with a minus or none; a minus stands only before a number that is not zero.
#[inline(always)]
pub fn signed(text: &[u8], start: usize) -> Option<(i32, usize)> {
    if text.get(start) != Some(&b'-') {
        let (value, at) = number(text, start)?;
        return Some((value as i32, at));
    }
    match number(text, start + 1)? {
        (0, _) => None,
        (value, at) => Some((-(value as i32), at)),
    }
}

/// An atom or `(not A)`, as 2 × atom, plus 1 if negated.
#[inline(always)]
pub fn literal(text: &[u8], start: usize) -> Option<(u32, usize)> {
    if text.get(start) != Some(&b'(') {
        let (atom, at) = number(text, start)?;
        return Some((2 * atom, at));
    }
    if !stands(text, start, b"(not ") {
        return None;
    }
    let (atom, at) = number(text, start + 5)?;
    (text.get(at) == Some(&b')')).then_some((2 * atom + 1, at + 1))
}

/// Whether another part follows: a space says so, and the closing bracket that there is none.
#[inline(always)]
pub fn another(text: &[u8], at: usize) -> Option<bool> {
    match text.get(at)? {
        b' ' => Some(true),
        b')' => Some(false),
        _ => None,
    }
}
