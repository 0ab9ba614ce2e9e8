//! What the program prints and the call on a page writes: the whole report of random texts, sound and damaged.

use super::texts::some_text;
use crate::differ::{
    books::{definition, Marking, Shape},
    damage::damaged,
    forms::open_form,
    session::{Compared, Session},
    settings,
};

/// How many rounds there are for each one with a process of its own, and for each one with pages to be filled.
const ROUNDS_FOR_A_PROCESS: usize = 50;
const ROUNDS_FOR_PAGES: usize = 10;

pub fn compare_all(session: &mut Session, marking: Marking) -> Compared {
    for _ in 0..session.count.div_ceil(ROUNDS_FOR_A_PROCESS) {
        let text = some_text(session, 40, marking);
        session.page(&text)?;
        let text = damaged(&mut session.random, &text);
        session.page(&text)?;
    }
    for _ in 0..session.count.div_ceil(ROUNDS_FOR_PAGES) {
        let text = some_text(session, 40, marking);
        session.report(&text)?;
        let text = damaged(&mut session.random, &text);
        session.report(&text)?;
    }
    for shape in Shape::ALL {
        let random = &mut session.random;
        let mut forms = definition(random, shape, 300);
        marking.declare(random, &mut forms);
        let setting = settings::some(random, &forms.defined());
        session.page(&forms.text(&open_form(&setting)))?;
    }
    Ok(())
}
