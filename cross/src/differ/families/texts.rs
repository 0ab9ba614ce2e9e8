//! Texts written from random books, and damaged ones, read into tables of many lengths.

use crate::random::Random;
use crate::{
    book::{Claim, Lengths, Read},
    differ::{
        books::{add_conditions, definition, Marking, Shape},
        case::Case,
        claims,
        damage::{damaged, defined_line_added},
        forms::{claim_form, open_form, Forms},
        lengths,
        session::{Compared, Session},
        settings,
    },
};

/// How many damaged texts are made of one.
const DAMAGED: usize = 6;

/// How many rounds there are for each one with a long text.
const ROUNDS_FOR_A_LONG_TEXT: usize = 100;

pub fn compare_all(session: &mut Session, marking: Marking) -> Compared {
    for round in 0..session.count {
        let most_atoms = if round % ROUNDS_FOR_A_LONG_TEXT == 0 { 1_024 } else { 30 };
        let text = some_text(session, most_atoms, marking);
        session.text(&text)?;
        let read = session.solver.read(&text, &Lengths::FULL);
        compare_lengths(session, &text, &read, marking)?;
        for _ in 0..DAMAGED {
            compare_damaged(session, &text, &read, marking)?;
        }
    }
    Ok(())
}

/// The text read into tables that hold it just so, or are one entry short, or have any lengths; and with answers of any length.
fn compare_lengths(session: &mut Session, text: &[u8], read: &Read, marking: Marking) -> Compared {
    for _ in 0..3 {
        let lent = lengths::about(&mut session.random, read, marking);
        session.compare(Case::read(text, lent))?;
    }
    let lent = lengths::about(&mut session.random, read, marking);
    let answer = session.random.pick(&[0, 1, 7, 8, 9, 20]);
    session.compare(Case::Read { text: text.to_vec(), lent, answer })
}

fn compare_damaged(session: &mut Session, text: &[u8], read: &Read, marking: Marking) -> Compared {
    let random = &mut session.random;
    let mut text = match marking {
        Marking::Some if random.one_in(2) => defined_line_added(random, text, read.book.n),
        _ => damaged(random, text),
    };
    while random.one_in(4) {
        text = damaged(random, &text);
    }
    session.compare(Case::verdict(&text))?;
    let lent = lengths::about(&mut session.random, read, marking);
    session.compare(Case::read(&text, lent))
}

/// The text of a random book with an open form or a claim.
pub fn some_text(session: &mut Session, most_atoms: usize, marking: Marking) -> Vec<u8> {
    let random = &mut session.random;
    let most = random.pick(&[1, 4, 8, most_atoms]);
    let n = random.below(most + 1);
    if n == 0 {
        return Forms::default().text(random.pick(&["(open)", "(claim)"]));
    }
    let shape = random.pick(&Shape::ALL);
    let mut forms = definition(random, shape, n);
    marking.declare(random, &mut forms);
    add_conditions(random, &mut forms, 4, 3);
    let setting = settings::some(random, &forms.defined());
    let made = session.solver.evaluate(&forms.book(), &setting, n, n, n).written.unwrap_or_default();
    forms.text(&state_form(random, &setting, &made))
}

/// The setting as an open form, or a claim: the one that was made, that one damaged, or any.
fn state_form(random: &mut Random, setting: &[u8], made: &Claim) -> String {
    let claim = match random.below(6) {
        0 | 1 => return open_form(setting),
        2 => arbitrary_claim(random, setting.len()),
        3 => made.clone(),
        _ => claims::damaged(random, made),
    };
    claim_form(&claim.values, &claim.levels)
}

fn arbitrary_claim(random: &mut Random, n: usize) -> Claim {
    let values = (0..n).map(|_| random.pick(&[0, 1, 1, 2, 255])).collect();
    let levels = (0..n).map(|_| random.pick(&[0, 1, 2, 3, 65_535])).collect();
    Claim { values, levels }
}
