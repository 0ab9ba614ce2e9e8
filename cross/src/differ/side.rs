//! The sides that are held against the solver: implementations of the calls, and the program.

use super::{
    case::Case,
    lending::Lending,
    outcome::{Answer, Outcome},
};
use crate::calls::Calls;
use std::{
    io::{self, ErrorKind, Write},
    path::Path,
    process::{Command, Stdio},
};

#[derive(Clone, Copy)]
pub enum Side<'a> {
    Calls(&'a dyn Calls),
    Program(&'a Path),
}

impl Side<'_> {
    pub fn name(&self) -> &'static str {
        match self {
            Side::Calls(calls) => calls.name(),
            Side::Program(_) => "program",
        }
    }

    /// What this side does with a case, or nothing if it does not have the call.
    pub fn outcome(&self, case: &Case, before: &Lending) -> Option<Outcome> {
        match (self, case) {
            (Side::Calls(calls), case) => {
                let mut after = before.clone();
                let answer = answer_of_call(*calls, case, &mut after)?;
                Some(Outcome { answer, after })
            }
            (Side::Program(program), Case::Program { text }) => {
                Some(Outcome { answer: Answer::Printed(printed(program, text)), after: before.clone() })
            }
            (Side::Program(_), _) => None,
        }
    }
}

fn answer_of_call(calls: &dyn Calls, case: &Case, lent: &mut Lending) -> Option<Answer> {
    match case {
        Case::Verdict { .. } => Some(Answer::Verdict(calls.verdict(lent.text.lent()))),
        Case::Report { .. } => Some(Answer::Length(calls.report(lent.text.lent(), lent.page.lent_mut()))),
        Case::Read { .. } => {
            let (text, tables, answer) = lent.to_fill();
            Some(Answer::Verdict(calls.read(text, tables, answer)))
        }
        Case::Check { book, .. } => {
            let tables = lent.tables.to_read(book.n);
            Some(Answer::Verdict(calls.check(tables, lent.values.lent(), lent.levels.lent())))
        }
        Case::Evaluate { book, .. } => {
            let tables = lent.tables.to_read(book.n);
            let (values, levels, work) = (lent.values.lent_mut(), lent.levels.lent_mut(), lent.work.lent_mut());
            Some(Answer::Made(calls.evaluate(tables, lent.open_values.lent(), values, levels, work)))
        }
        Case::Write { book, .. } => {
            let tables = lent.tables.to_read(book.n);
            Some(Answer::Written(calls.write(tables, lent.values.lent(), lent.levels.lent(), lent.text.lent_mut())))
        }
        Case::Index { book, .. } => {
            let tables = lent.tables.to_read(book.n);
            Some(Answer::Verdict(calls.index(tables, lent.starts.lent_mut(), lent.entries.lent_mut())))
        }
        Case::EvaluateIndexed { book, .. } => {
            let (tables, open_values, slices) = lent.to_follow(book.n);
            Some(Answer::Made(calls.evaluate_indexed(tables, open_values, slices)))
        }
        Case::Program { .. } => None,
    }
}

/// What the program prints for a text. A program that cannot be run, or ends with another status than 0, prints nothing that
/// could be a page, so this differs from every report.
fn printed(program: &Path, text: &[u8]) -> Vec<u8> {
    match run(program, text) {
        Ok(page) => page,
        Err(error) => format!("({}: {error})", program.display()).into_bytes(),
    }
}

fn run(program: &Path, text: &[u8]) -> io::Result<Vec<u8>> {
    let mut child = Command::new(program).stdin(Stdio::piped()).stdout(Stdio::piped()).spawn()?;
    let mut input = child.stdin.take().ok_or(ErrorKind::BrokenPipe)?;
    match input.write_all(text) {
        // The program need not read on once a text is too long.
        Err(error) if error.kind() != ErrorKind::BrokenPipe => return Err(error),
        _ => drop(input),
    }
    let output = child.wait_with_output()?;
    match output.status.success() {
        true => Ok(output.stdout),
        false => Err(io::Error::other(format!("ended with {}", output.status))),
    }
}
