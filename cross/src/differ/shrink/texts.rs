//! Smaller texts.

use super::{parts, without, Smaller};
use std::ops::Range;

/// Without lines, without parts of forms, with smaller numbers, without bytes.
pub fn smaller(text: &[u8]) -> Smaller<'_, Vec<u8>> {
    let lines: Vec<&[u8]> = text.split_inclusive(|&byte| byte == b'\n').collect();
    let without_lines = parts(lines.len()).map(move |part| without(&lines, part).concat());
    let without_parts = form_parts(text).into_iter().map(|part| without(text, part));
    let without_bytes = parts(text.len()).map(|part| without(text, part));
    Box::new(without_lines.chain(without_parts).chain(smaller_numbers(text)).chain(without_bytes))
}

/// Each number or bracketed part with the space before it.
fn form_parts(text: &[u8]) -> Vec<Range<usize>> {
    let spaces = (0..text.len()).filter(|&place| text[place] == b' ');
    spaces.map(|start| start..part_end(text, start + 1)).collect()
}

/// Where the part that begins at `start` ends: before the next space or closing bracket that does not belong to it.
fn part_end(text: &[u8], start: usize) -> usize {
    let mut depth = 0;
    for (place, &byte) in text.iter().enumerate().skip(start) {
        match byte {
            b'(' => depth += 1,
            b')' if depth == 0 => return place,
            b')' => depth -= 1,
            b' ' if depth == 0 => return place,
            b'\n' => return place,
            _ => {}
        }
    }
    text.len()
}

/// Each number that a u64 holds, nearer to zero. Longer ones lose digits as bytes.
fn smaller_numbers(text: &[u8]) -> Smaller<'_, Vec<u8>> {
    let digit = |place: usize| text.get(place).is_some_and(u8::is_ascii_digit);
    let starts = (0..text.len()).filter(move |&place| digit(place) && (place == 0 || !digit(place - 1)));
    Box::new(starts.flat_map(move |start| {
        let end = start + text[start..].iter().take_while(|byte| byte.is_ascii_digit()).count();
        let number: u64 = String::from_utf8_lossy(&text[start..end]).parse().unwrap_or(0);
        let nearer = [0, number / 2, number.saturating_sub(1)].into_iter().filter(move |&smaller| smaller < number);
        nearer.map(move |smaller| [&text[..start], smaller.to_string().as_bytes(), &text[end..]].concat())
    }))
}
