//! Texts with one thing wrong, or nearly so.

use crate::random::Random;

/// Bytes that stand in texts, and some that never do.
const BYTES: &[u8] = b"0123456789()- \natomsrulecloadpenimx\t\r\0A,.+\xFF\x80/:`{";

pub fn damaged(random: &mut Random, text: &[u8]) -> Vec<u8> {
    match random.below(11) {
        0 => byte_changed(random, text),
        1 => byte_removed(random, text),
        2 => byte_inserted(random, text),
        3 => lines_swapped(random, text),
        4 => line_repeated(random, text),
        5 => line_removed(random, text),
        6 => truncated(random, text),
        7 => line_moved(random, text),
        _ => number_changed(random, text),
    }
}

/// A `(defined ..)` line more, wherever it falls: with no atom or up to three, about those of a book of n atoms.
pub fn defined_line_added(random: &mut Random, text: &[u8], n: usize) -> Vec<u8> {
    let last = n.saturating_sub(1);
    let atoms: String =
        (0..random.below(4)).map(|_| format!(" {}", random.pick(&[0, 1, 2, last, last, n, 1_023, 1_024]))).collect();
    let line = format!("(defined{atoms})\n");
    let mut lines = lines(text);
    lines.insert(random.below(lines.len() + 1), line.as_bytes());
    lines.concat()
}

/// A place in the text, or its end if it is empty.
fn place(random: &mut Random, text: &[u8]) -> usize {
    random.below(text.len().max(1)).min(text.len())
}

fn byte_changed(random: &mut Random, text: &[u8]) -> Vec<u8> {
    let mut changed = text.to_vec();
    let place = place(random, text);
    if let Some(byte) = changed.get_mut(place) {
        *byte = if random.one_in(2) { *byte ^ 1 << random.below(8) } else { random.pick(BYTES) };
    }
    changed
}

fn byte_removed(random: &mut Random, text: &[u8]) -> Vec<u8> {
    let place = place(random, text);
    text.iter().enumerate().filter(|(other, _)| *other != place).map(|(_, &byte)| byte).collect()
}

fn byte_inserted(random: &mut Random, text: &[u8]) -> Vec<u8> {
    let place = random.below(text.len() + 1);
    [&text[..place], &[random.pick(BYTES)], &text[place..]].concat()
}

fn truncated(random: &mut Random, text: &[u8]) -> Vec<u8> {
    text[..random.below(text.len() + 1)].to_vec()
}

fn lines(text: &[u8]) -> Vec<&[u8]> {
    text.split_inclusive(|&byte| byte == b'\n').collect()
}

fn lines_swapped(random: &mut Random, text: &[u8]) -> Vec<u8> {
    let mut lines = lines(text);
    if !lines.is_empty() {
        let (first, second) = (random.below(lines.len()), random.below(lines.len()));
        lines.swap(first, second);
    }
    lines.concat()
}

fn line_repeated(random: &mut Random, text: &[u8]) -> Vec<u8> {
    let mut lines = lines(text);
    if !lines.is_empty() {
        let from = random.below(lines.len());
        lines.insert(random.below(lines.len() + 1), lines[from]);
    }
    lines.concat()
}

fn line_removed(random: &mut Random, text: &[u8]) -> Vec<u8> {
    let mut lines = lines(text);
    if !lines.is_empty() {
        lines.remove(random.below(lines.len()));
    }
    lines.concat()
}

fn line_moved(random: &mut Random, text: &[u8]) -> Vec<u8> {
    let mut lines = lines(text);
    if !lines.is_empty() {
        let line = lines.remove(random.below(lines.len()));
        lines.insert(random.below(lines.len() + 1), line);
    }
    lines.concat()
}

/// Replaces one number: by a huge one, one at a limit, one with a minus or a leading zero, or none.
fn number_changed(random: &mut Random, text: &[u8]) -> Vec<u8> {
    let starts = |at: &usize| text[*at].is_ascii_digit() && (*at == 0 || !text[at - 1].is_ascii_digit());
    let starts: Vec<usize> = (0..text.len()).filter(starts).collect();
    if starts.is_empty() {
        return text.to_vec();
    }
    let start = random.pick(&starts);
    let length = text[start..].iter().take_while(|byte| byte.is_ascii_digit()).count();
    let old = String::from_utf8_lossy(&text[start..start + length]).into_owned();
    let limits = ["0", "1", "2", "255", "256", "1023", "1024", "1025", "1440", "1441", "65535", "65536", "1000000", "1000001"];
    let new = match random.below(8) {
        0 => format!("-{old}"),
        1 => format!("0{old}"),
        2 => String::new(),
        3 => {
            random.pick(&["4294967296", "4294967297", "18446744073709551616", "10000000", "9999999", "99999999999999999999"]).into()
        }
        4 => "1".to_string() + &"0".repeat(random.below(3_000)),
        _ => random.pick(&limits).into(),
    };
    [&text[..start], new.as_bytes(), &text[start + length..]].concat()
}
