//! A dispatch book as a station would keep it: calls with contact and acknowledgement, escalation, and duty loads of two pilots for
//! every eight calls.

use crate::book::Book;
use crate::random::Random;

/// Atoms of one call, in turn.
const ATOMS: usize = 16;

/// Calls that one pair of pilots serves.
const CALLS_OF_PAIR: usize = 8;

const FIRST_ACCEPTS: u16 = 0;
const SECOND_ACCEPTS: u16 = 1;
const WINDOW_OPEN: u16 = 2;
const OFFICER_REACHED: u16 = 3;
const SECOND_STANDS_BY: u16 = 4;
const CONTACT: u16 = 5;
const ACKNOWLEDGED: u16 = 6;
const OVERDUE: u16 = 7;
const CALL_OFFICER: u16 = 8;
const CALL_HARBOUR: u16 = 9;
const ESCALATED: u16 = 10;
const FIRST_BOARDS: u16 = 11;
const SECOND_BOARDS: u16 = 12;
const FIRST_RETURNS: u16 = 13;
const SECOND_RETURNS: u16 = 14;
const SETTLED: u16 = 15;

/// A literal of the call before this one.
const BEFORE: i32 = -2 * ATOMS as i32;

fn is(atom: u16) -> i32 {
    2 * i32::from(atom)
}

fn not(atom: u16) -> i32 {
    is(atom) + 1
}

/// A book of `n` atoms, a multiple of 16, and the values of its open atoms.
pub fn book(n: usize, random: &mut Random) -> (Book, Vec<u8>) {
    let calls = n / ATOMS;
    let mut book = Book::of_atoms(n);
    let mut open = vec![0; n];
    for call in 0..calls {
        for atom in FIRST_ACCEPTS..=SECOND_STANDS_BY {
            let likely = if atom == WINDOW_OPEN { 3 } else { 1 };
            open[call * ATOMS + usize::from(atom)] = u8::from(random.below(4) < likely);
        }
        add_rules(&mut book, call);
    }
    for call in 0..calls {
        add_clauses(&mut book, call);
    }
    for pair in 0..calls / CALLS_OF_PAIR {
        add_duty(&mut book, pair, [FIRST_BOARDS, FIRST_RETURNS], random);
        add_duty(&mut book, pair, [SECOND_BOARDS, SECOND_RETURNS], random);
    }
    (book, open)
}

/// The same book after rules were withdrawn: nobody stands by and no officer is reached any more, which the book declares together with
/// what it still derives of boarding.
pub fn withdrawn(n: usize, random: &mut Random) -> (Book, Vec<u8>) {
    let (mut book, mut open) = book(n, random);
    for call in 0..n / ATOMS {
        for atom in [OFFICER_REACHED, SECOND_STANDS_BY, FIRST_BOARDS, SECOND_BOARDS] {
            let atom = call * ATOMS + usize::from(atom);
            book.marks[atom] = 1;
            open[atom] = 0;
        }
    }
    (book, open)
}

/// The literals of one call as literals of the book.
fn placed(call: usize, literals: &[i32]) -> Vec<u16> {
    literals.iter().map(|literal| (literal + (2 * ATOMS * call) as i32) as u16).collect()
}

fn add_rules(book: &mut Book, call: usize) {
    let rules: [(u16, &[i32]); 20] = [
        (CONTACT, &[is(FIRST_ACCEPTS)]),
        (CONTACT, &[is(SECOND_ACCEPTS)]),
        (CONTACT, &[is(ACKNOWLEDGED)]),
        (ACKNOWLEDGED, &[is(CONTACT)]),
        (OVERDUE, &[is(WINDOW_OPEN), not(CONTACT)]),
        (OVERDUE, &[is(WINDOW_OPEN), not(CONTACT), is(OVERDUE) + BEFORE]),
        (CALL_OFFICER, &[is(OVERDUE)]),
        (CALL_HARBOUR, &[is(OVERDUE), not(OFFICER_REACHED)]),
        (ESCALATED, &[is(CALL_HARBOUR)]),
        (ESCALATED, &[is(CALL_OFFICER), not(CONTACT)]),
        (FIRST_BOARDS, &[is(FIRST_ACCEPTS), is(WINDOW_OPEN)]),
        (SECOND_BOARDS, &[is(SECOND_ACCEPTS), not(FIRST_ACCEPTS), is(WINDOW_OPEN)]),
        (SECOND_BOARDS, &[is(SECOND_STANDS_BY), not(CONTACT), is(WINDOW_OPEN)]),
        (FIRST_RETURNS, &[is(FIRST_BOARDS)]),
        (SECOND_RETURNS, &[is(SECOND_BOARDS)]),
        (SETTLED, &[is(FIRST_RETURNS)]),
        (SETTLED, &[is(SECOND_RETURNS)]),
        (SETTLED, &[is(ESCALATED)]),
        (SETTLED, &[not(WINDOW_OPEN)]),
        (SETTLED, &[is(SETTLED) + BEFORE, is(ACKNOWLEDGED), is(WINDOW_OPEN)]),
    ];
    for (head, body) in rules {
        let of_first_call = call == 0 && body.iter().any(|&literal| literal < 0);
        if !of_first_call {
            book.add_rule((call * ATOMS) as u16 + head, &placed(call, body));
        }
    }
}

fn add_clauses(book: &mut Book, call: usize) {
    let clauses: [&[i32]; 4] = [
        &[not(WINDOW_OPEN), is(CONTACT), is(ESCALATED)],
        &[not(CONTACT), not(ESCALATED)],
        &[not(FIRST_BOARDS), not(SECOND_BOARDS)],
        &[is(SETTLED)],
    ];
    for clause in clauses {
        book.add_clause(&placed(call, clause));
    }
}

/// Minutes out and back for each call of a pair's pilot, within what the station allows.
fn add_duty(book: &mut Book, pair: usize, [boards, returns]: [u16; 2], random: &mut Random) {
    let mut terms = Vec::new();
    for call in pair * CALLS_OF_PAIR..(pair + 1) * CALLS_OF_PAIR {
        for atom in [boards, returns] {
            terms.push((60 + random.below(120) as i16, placed(call, &[is(atom)])[0]));
        }
    }
    book.add_load(0, 480, &terms);
}
