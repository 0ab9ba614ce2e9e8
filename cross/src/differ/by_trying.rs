//! The stages of a very small book by the words of the paper: the largest unfounded set is found by trying every set.

use super::forms::Forms;

/// What a stage holds of each atom.
type Stage = Vec<Option<bool>>;

/// The well-founded model with 2 for an undecided atom, each atom's stage with 0 for undecided ones, and the closure number.
#[derive(PartialEq, Debug)]
pub struct Model {
    pub values: Vec<u8>,
    pub stages: Vec<u16>,
    pub closure_number: u32,
}

impl Model {
    pub fn two_valued(&self) -> bool {
        !self.values.contains(&2)
    }
}

pub fn model(forms: &Forms, setting: &[u8]) -> Model {
    let defined = forms.defined();
    let mut present: Stage = (0..forms.n).map(|atom| (!defined[atom]).then(|| setting[atom] == 1)).collect();
    let mut stages = vec![0; forms.n];
    for number in 0.. {
        let next = next_stage(forms, &defined, &present);
        if next == present {
            let values = present.iter().map(|held| held.map_or(2, u8::from)).collect();
            return Model { values, stages, closure_number: number };
        }
        for atom in (0..forms.n).filter(|&atom| present[atom].is_none() && next[atom].is_some()) {
            stages[atom] = number as u16 + 1;
        }
        present = next;
    }
    unreachable!("stages only grow")
}

fn next_stage(forms: &Forms, defined: &[bool], present: &Stage) -> Stage {
    let unfounded = largest_unfounded_set(forms, defined, present);
    let next = |atom: usize| {
        let made_true =
            forms.rules.iter().any(|rule| rule.head as usize == atom && rule.body.iter().all(|&l| held(l, present) == Some(true)));
        present[atom].or(made_true.then_some(true)).or((unfounded >> atom & 1 == 1).then_some(false))
    };
    (0..forms.n).map(next).collect()
}

/// A set is a number whose bits stand for atoms. The union of unfounded sets is one too.
fn largest_unfounded_set(forms: &Forms, defined: &[bool], present: &Stage) -> usize {
    let all_defined = (0..forms.n).filter(|&atom| defined[atom]).fold(0, |set, atom| set | 1 << atom);
    (0..1 << forms.n).filter(|set| set & !all_defined == 0 && unfounded(forms, *set, present)).fold(0, |union, set| union | set)
}

fn unfounded(forms: &Forms, set: usize, present: &Stage) -> bool {
    let within = |atom: u16| set >> atom & 1 == 1;
    let against = |&literal: &u16| held(literal, present) == Some(false) || literal % 2 == 0 && within(literal / 2);
    forms.rules.iter().filter(|rule| within(rule.head)).all(|rule| rule.body.iter().any(against))
}

fn held(literal: u16, stage: &Stage) -> Option<bool> {
    stage[usize::from(literal / 2)].map(|value| value != (literal % 2 == 1))
}
