//! The order of the page's lines, each page stated whole.

use crate::differ::samples::Sample;

pub fn all() -> Vec<Sample> {
    [values(), undecided(), full_size()].into_iter().flatten().collect()
}

fn values() -> Vec<Sample> {
    let chosen = "(made 0)\n(atom 1 1 0)\n(atom 3 1 0)\n(atom 0 0 0)\n(atom 2 0 0)\n(accepted)\n";
    let book = "(atoms 6)\n(rule 0 0)\n(rule 1)\n(rule 2 2)\n(rule 3)\n(rule 4 (not 1))\n(rule 5 3)\n(open)\n";
    let levels = "(made 2)\n(atom 1 1 1)\n(atom 3 1 1)\n(atom 0 0 1)\n(atom 2 0 1)\n(atom 5 1 2)\n(atom 4 0 2)\n(accepted)\n";
    let one_level = "(made 1)\n(atom 1 1 1)\n(atom 3 1 1)\n(atom 0 0 1)\n(atom 2 0 1)\n(accepted)\n";
    let lower = "(made 1)\n(atom 1 0 0)\n(atom 0 1 1)\n(accepted)\n";
    let refused = |number| format!("(made 0)\n(atom 1 1 0)\n(atom 0 0 0)\n(refused {number} 0)\n");
    vec![
        Sample::page("true open atoms come before false ones", "(atoms 4)\n(open 1 3)\n", chosen),
        Sample::page(
            "true atoms come before false ones",
            "(atoms 4)\n(rule 0 0)\n(rule 1)\n(rule 2 2)\n(rule 3)\n(open)\n",
            one_level,
        ),
        Sample::page("true atoms come before false ones at every level", book, levels),
        Sample::page("a lower level comes first, whatever the values", "(atoms 2)\n(rule 0)\n(open)\n", lower),
        Sample::page("the order is the same for 26", "(atoms 2)\n(clause 0)\n(open 1)\n", &refused(26)),
        Sample::page("the order is the same for 27", "(atoms 2)\n(load 1 1)\n(open 1)\n", &refused(27)),
    ]
}

fn undecided() -> Vec<Sample> {
    let one = "(made 1)\n(atom 2 1 0)\n(atom 1 2 0)\n(atom 0 1 1)\n(refused 25 1)\n";
    let book = "(atoms 5)\n(rule 0 (not 0))\n(rule 1 0)\n(rule 4)\n(open 3)\n";
    let all = "(made 1)\n(atom 3 1 0)\n(atom 2 0 0)\n(atom 0 2 0)\n(atom 1 2 0)\n(atom 4 1 1)\n(refused 25 0)\n";
    let every =
        "(atoms 9)\n(rule 0 (not 0))\n(rule 3 1)\n(rule 4 2)\n(rule 5 5)\n(rule 6)\n(rule 7 (not 4))\n(rule 8 6)\n(open 2)\n";
    let listed = "(made 2)\n(atom 2 1 0)\n(atom 1 0 0)\n(atom 0 2 0)\n(atom 4 1 1)\n(atom 6 1 1)\n(atom 3 0 1)\n(atom 5 0 1)\n(atom 8 1 2)\n(atom 7 0 2)\n(refused 25 0)\n";
    vec![
        Sample::page("undecided atoms print among the atoms of level 0", "(atoms 3)\n(rule 1 (not 1))\n(rule 0)\n(open 2)\n", one),
        Sample::page("undecided atoms come after the open ones and before level 1", book, all),
        Sample::page("levels with all values that they can have", every, listed),
    ]
}

/// A book of 1,024 atoms, by the line of each.
fn book(line: impl Fn(usize) -> String, state: &str) -> String {
    format!("(atoms 1024)\n{}{state}\n", (0..1_024).map(line).collect::<String>())
}

/// A page that lists atoms with their values and levels, and accepts.
fn listed(rounds: usize, atoms: impl Iterator<Item = (usize, usize, usize)>) -> String {
    let lines: String = atoms.map(|(atom, value, level)| format!("(atom {atom} {value} {level})\n")).collect();
    format!("(made {rounds})\n{lines}(accepted)\n")
}

/// 1,024 atoms at one level, half of them true, and at a level each.
fn full_size() -> Vec<Sample> {
    let odd_first = || (1..1_024).step_by(2).chain((0..1_024).step_by(2));
    let odd: String = (1..1_024).step_by(2).map(|atom| format!(" {atom}")).collect();
    let open = book(|_| String::new(), &format!("(open{odd})"));
    let at_one = book(|atom| if atom % 2 == 1 { format!("(rule {atom})\n") } else { format!("(rule {atom} {atom})\n") }, "(open)");
    let falling =
        book(|atom| if atom == 1_023 { "(rule 1023)\n".into() } else { format!("(rule {atom} {})\n", atom + 1) }, "(open)");
    let turning =
        book(|atom| if atom == 0 { "(rule 0)\n".into() } else { format!("(rule {atom} (not {}))\n", atom - 1) }, "(open)");
    vec![
        Sample::page("1,024 open atoms", &open, &listed(0, odd_first().map(|atom| (atom, atom % 2, 0)))),
        Sample::page("1,024 atoms at level 1", &at_one, &listed(1, odd_first().map(|atom| (atom, atom % 2, 1)))),
        Sample::page("1,024 levels of true atoms", &falling, &listed(1_024, (0..1_024).rev().map(|atom| (atom, 1, 1_024 - atom)))),
        Sample::page("1,024 levels in turn", &turning, &listed(1_024, (0..1_024).map(|atom| (atom, 1 - atom % 2, atom + 1)))),
    ]
}
