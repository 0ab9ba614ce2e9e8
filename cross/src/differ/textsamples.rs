//! The texts with a claim that the program `textsamples` puts through the reader, taken from its source.

use crate::{
    book::{Lengths, State},
    solver::Solver,
};
use std::str::{self, Chars};

/// Counted by hand: three in texts.rt, one in built_texts.rt, two in lent_tables.rt and one in other_lengths.rt.
const AT_LEAST: usize = 7;

/// Fails if there are fewer than were counted, as then calls have changed and texts are lost.
pub fn claims_in(sources: &[Vec<u8>]) -> Result<Vec<Vec<u8>>, String> {
    let mut claims = Vec::new();
    for source in sources {
        let source = str::from_utf8(source).map_err(|error| format!("textsamples: {error}"))?;
        claims.extend(texts_in(source)?.into_iter().filter(|text| is_claim(text)));
    }
    match claims.len() {
        AT_LEAST.. => Ok(claims),
        found => Err(format!("textsamples: {found} texts with a claim are found, and {AT_LEAST} were counted")),
    }
}

fn is_claim(text: &[u8]) -> bool {
    Solver::default().read(text, &Lengths::FULL).state == State::Claim
}

/// An argument that is written out, or another.
#[derive(Debug, PartialEq)]
enum Argument {
    Bytes(Vec<u8>),
    Number(usize),
    Other,
}

/// The texts of the calls whose names begin with `show_` and that have theirs written out.
fn texts_in(source: &str) -> Result<Vec<Vec<u8>>, String> {
    let mut texts = Vec::new();
    for (name, rest) in source.split("show_").skip(1).filter_map(|call| call.split_once('(')) {
        texts.extend(text_of(name, &arguments(rest)?));
    }
    Ok(texts)
}

/// After the handle that prints and the name of what is shown stands the whole text, or its pieces, and after a piece that repeats how many times it does.
fn text_of(call: &str, arguments: &[Argument]) -> Option<Vec<u8>> {
    use Argument::{Bytes, Number};
    match (call, arguments) {
        ("text" | "five" | "long", [_, _, Bytes(text)]) | ("lent", [_, _, Bytes(text), _]) => Some(text.clone()),
        ("repeated", [_, _, Bytes(beginning), Bytes(piece), Number(times), Bytes(end)]) => {
            Some([beginning.clone(), piece.repeat(*times), end.clone()].concat())
        }
        ("built", [_, _, Bytes(beginning), Bytes(piece), Number(times), Bytes(other), Number(other_times), Bytes(end)]) => {
            Some([beginning.clone(), piece.repeat(*times), other.repeat(*other_times), end.clone()].concat())
        }
        _ => None,
    }
}

/// The arguments of a call, from what follows its bracket.
fn arguments(source: &str) -> Result<Vec<Argument>, String> {
    let mut arguments = Vec::new();
    let mut rest = source.trim_start();
    while !rest.is_empty() && !rest.starts_with(')') {
        let (argument, after) = argument(rest)?;
        arguments.push(argument);
        rest = after.trim_start_matches(',').trim_start();
    }
    Ok(arguments)
}

/// One argument, and what follows it.
fn argument(source: &str) -> Result<(Argument, &str), String> {
    if let Some(string) = source.strip_prefix("b\"") {
        return byte_string(string).map(|(bytes, after)| (Argument::Bytes(bytes), after));
    }
    let (word, after) = source.split_at(source.find([',', ')']).unwrap_or(source.len()));
    Ok((word.trim_end().parse().map_or(Argument::Other, Argument::Number), after))
}

/// The bytes of a string from what follows its first quotation mark, and what follows its last.
fn byte_string(source: &str) -> Result<(Vec<u8>, &str), String> {
    let mut bytes = Vec::new();
    let mut rest = source.chars();
    loop {
        match rest.next() {
            Some('"') => return Ok((bytes, rest.as_str())),
            Some('\\') => bytes.push(escaped(&mut rest)?),
            Some(letter) if letter.is_ascii() => bytes.push(letter as u8),
            Some(letter) => return Err(format!("textsamples: {letter} is no byte")),
            None => return Err("textsamples: a byte string is not closed".into()),
        }
    }
}

/// The byte that is meant by what follows a backslash.
fn escaped(rest: &mut Chars) -> Result<u8, String> {
    match rest.next() {
        Some('n') => Ok(b'\n'),
        Some('r') => Ok(b'\r'),
        Some('t') => Ok(b'\t'),
        Some('0') => Ok(0),
        Some(mark @ ('\\' | '"')) => Ok(mark as u8),
        Some('x') => {
            let mut digit = || rest.next().and_then(|digit| digit.to_digit(16));
            let (high, low) = (digit(), digit());
            high.zip(low).map(|(high, low)| (16 * high + low) as u8).ok_or("textsamples: no two digits after \\x".into())
        }
        other => Err(format!("textsamples: {other:?} after a backslash")),
    }
}

#[cfg(test)]
mod tests {
    use super::*;

    const CLAIM: &str = r#"show_text(rt, b"a name", b"(atoms 0)\n(claim)\n");"#;
    const OPEN: &str = r#"show_text(rt, b"a name", b"(atoms 0)\n(open)\n");"#;

    fn strings(source: &str) -> Result<Vec<Vec<u8>>, String> {
        texts_in(&format!("show_text(rt, b\"a name\", {source});"))
    }

    #[test]
    fn bytes_are_those_that_are_written() {
        assert_eq!(strings(r#"b"""#), Ok(vec![vec![]]));
        assert_eq!(strings(r#"b"a, b) \n\r\t\\\"\0\x00\x7f\xFf""#), Ok(vec![b"a, b) \n\r\t\\\"\0\x00\x7f\xff".to_vec()]));
        for wrong in [r#"b"a"#, r#"b"a\"#, r#"b"\q""#, r#"b"\x4""#, r#"b"\xg0""#, r#"b"–""#] {
            assert!(strings(wrong).is_err(), "{wrong}");
        }
    }

    #[test]
    fn texts_are_those_that_calls_show() {
        let source = r#"
            use super::texts::show_text;
            // What show_text does.
            fn show_text(name: &[u8], text: &[u8]) { show_name(name); show_number(b" atoms ", number(text)); }
            show_text(rt, name, &buffer[0..length]);
            show_text(
                rt,
                b"a name",
                b"whole",
            );
            show_lent(rt, name, b"lent", short);
            show_lent(rt, b"a name", b"lent too", 9);
            show_five(rt, b"a name", b"five");
            show_long(rt, b"a name", b"long");
            show_claim(rt, b"a name", 3);
            show_repeated(rt, b"a name", b"<", b"ab", 3, b">");
            show_repeated(rt, name, b"<", b"ab", times, b">");
            show_built(rt, b"a name", b"<", b"ab", 2, b"c", 0, b">");
            show_built(rt, name, beginning, piece, times, b"", 0, end);
        "#;
        let texts = ["whole", "lent", "lent too", "five", "long", "<ababab>", "<abab>"];
        assert_eq!(texts_in(source), Ok(texts.map(|text| text.as_bytes().to_vec()).to_vec()));
    }

    #[test]
    fn claims_that_are_lost_are_noticed() {
        let sources = |claims: usize| [CLAIM.repeat(claims).into(), OPEN.into()];
        assert_eq!(claims_in(&sources(AT_LEAST)), Ok(vec![b"(atoms 0)\n(claim)\n".to_vec(); AT_LEAST]));
        assert!(claims_in(&sources(AT_LEAST - 1)).is_err_and(|message| message.contains("6 texts")));
        assert!(claims_in(&[]).is_err());
    }
}
