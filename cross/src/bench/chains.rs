//! Chains and loops: every defined atom rests on the one before it, and on one open literal that is true.

use crate::book::Book;
use crate::random::Random;

/// How a chain is laid.
#[derive(Clone, Copy, PartialEq, Eq, Debug)]
pub enum Chain {
    /// Rules in the order in which they fire.
    Forward,
    /// Rules against that order, so that a pass over them founds one atom only.
    Reverse,
    /// Each atom from the negation of the one before.
    Negated,
    /// The first atom rests on the last: all are unfounded.
    Loop,
}

/// A book of `n` atoms, of which an eighth is open, and the values of its open atoms.
pub fn book(chain: Chain, n: usize, random: &mut Random) -> (Book, Vec<u8>) {
    let first = n / 8;
    let mut open: Vec<u8> = (0..first).map(|_| random.below(2) as u8).collect();
    let mut book = Book::of_atoms(n);
    for place in first..n {
        let atom = if chain == Chain::Reverse { first + n - 1 - place } else { place };
        book.add_rule(atom as u16, &body(chain, atom, n, &open, random));
    }
    open.resize(n, 0);
    (book, open)
}

/// The literal on the atom before and the open literal, in either order.
fn body(chain: Chain, atom: usize, n: usize, open: &[u8], random: &mut Random) -> Vec<u16> {
    let chosen = random.below(open.len());
    let mut body = vec![(2 * chosen + usize::from(open[chosen] == 0)) as u16];
    let before = match (atom == open.len(), chain) {
        (true, Chain::Loop) => Some(2 * (n - 1)),
        (true, _) => None,
        (false, Chain::Negated) => Some(2 * (atom - 1) + 1),
        (false, _) => Some(2 * (atom - 1)),
    };
    if let Some(literal) = before {
        body.insert(random.below(2), literal as u16);
    }
    body
}
