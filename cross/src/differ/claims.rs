//! Claims with one thing wrong, or nearly so.

use crate::book::Claim;
use crate::random::Random;

/// Of a claim on at least one atom.
pub fn damaged(random: &mut Random, claim: &Claim) -> Claim {
    let atom = random.below(claim.values.len());
    match random.below(4) {
        0 => value_changed(random, claim, atom),
        1 => level_changed(random, claim, atom),
        2 => swapped(random, claim, atom),
        _ => stretched(random, claim),
    }
}

/// Mostly the other value, else one that no claim may have.
pub fn value_changed(random: &mut Random, claim: &Claim, atom: usize) -> Claim {
    let mut changed = claim.clone();
    let other = u8::from(claim.values[atom] == 0);
    changed.values[atom] = random.pick(&[other, other, other, 2, 3, 255]);
    changed
}

/// One beside it, or a level at some limit.
pub fn level_changed(random: &mut Random, claim: &Claim, atom: usize) -> Claim {
    let mut changed = claim.clone();
    let level = claim.levels[atom];
    let highest = claim.levels.iter().copied().max().unwrap_or(0);
    let near = [level.saturating_sub(1), level.saturating_sub(1), level + 1, level + 1, 0, 1];
    let limits = [highest, highest + 1, claim.levels.len() as u16, 65_535];
    changed.levels[atom] = if random.one_in(4) { random.pick(&limits) } else { random.pick(&near) };
    changed
}

/// Value, level or both exchanged with those of some atom.
pub fn swapped(random: &mut Random, claim: &Claim, atom: usize) -> Claim {
    let mut changed = claim.clone();
    let other = random.below(claim.values.len());
    let (values, levels) = random.pick(&[(true, false), (false, true), (true, true)]);
    if values {
        changed.values.swap(atom, other);
    }
    if levels {
        changed.levels.swap(atom, other);
    }
    changed
}

/// All levels from some level on moved up by one, which keeps their order.
pub fn stretched(random: &mut Random, claim: &Claim) -> Claim {
    let from = 1 + random.below(4) as u16;
    let levels = claim.levels.iter().map(|&level| if level >= from { level + 1 } else { level });
    Claim { values: claim.values.clone(), levels: levels.collect() }
}
