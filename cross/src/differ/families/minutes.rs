//! Every number of minutes that a book may have, alone in a load line with LO = HI: the line holds at what it counts, and neither one
//! tenth below nor one above.

use crate::{
    book::Verdict,
    differ::{
        case::Case,
        forms::{claim_form, open_form, tenths, Forms, Load},
        session::{Compared, Session},
    },
};

pub fn compare_all(session: &mut Session) -> Compared {
    for minutes in -1_440..=1_440 {
        let count = tenths(minutes);
        compare_line(session, minutes, count, Verdict::ACCEPTED)?;
        compare_line(session, minutes, count - 1, Verdict::refused(27, 0))?;
        compare_line(session, minutes, count + 1, Verdict::refused(27, 0))?;
    }
    Ok(())
}

/// The maker and the check, lent the tables and as texts.
fn compare_line(session: &mut Session, minutes: i16, count: i32, verdict: Verdict) -> Compared {
    let says = format!("{minutes} minutes held against {count} tenths");
    let forms = Forms { n: 1, loads: vec![Load { lo: count, hi: count, terms: vec![(minutes, 0)] }], ..Forms::default() };
    let book = forms.book();
    session.stated(&says, Case::evaluate(&book, &[1]), verdict)?;
    session.stated(&says, Case::check(&book, &[1], &[0]), verdict)?;
    session.stated(&says, Case::verdict(&forms.text(&open_form(&[1]))), verdict)?;
    session.stated(&says, Case::verdict(&forms.text(&claim_form(&[1], &[0]))), verdict)
}
