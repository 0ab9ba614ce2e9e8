//! The readings that a text shows, each with the last line or the page that the program prints.

use crate::differ::samples::Sample;

pub fn all() -> Vec<Sample> {
    let groups = [
        judging_lines(),
        order(),
        counts(),
        signs_and_zeros(),
        long_numbers(),
        forms(),
        sizes(),
        tables(),
        claims(),
        made_or_not(),
    ];
    groups.into_iter().flatten().collect()
}

/// Texts that show one reading, each with the last line that is printed.
pub(super) fn reading<T: Into<Vec<u8>>, const TEXTS: usize>(says: &str, texts: [(T, &str); TEXTS]) -> Vec<Sample> {
    texts.into_iter().map(|(text, line)| Sample::last_line(says, text, line)).collect()
}

/// The second line of a text whose first line is `(atoms 1)`, and begins at 10.
fn second(line: &str) -> String {
    format!("(atoms 1)\n{line}\n")
}

fn judging_lines() -> Vec<Sample> {
    let whole = reading(
        "a malformed part anywhere comes before every other refusal of the line",
        [
            ("(atoms 3)\n(rule 1024 x)\n", "(refused 1 10)"),
            ("(atoms 1025", "(refused 1 0)"),
            ("(atoms 1025)", "(refused 1 0)"),
            ("(atoms 1)\n(rule 1024)", "(refused 1 10)"),
            ("(atoms 1)\n(open", "(refused 1 10)"),
            ("(atoms 1)\n(open)\n(rule 1024)", "(refused 1 17)"),
        ],
    );
    let limits = reading(
        "2 beats 3 on a line, even where the form could not stand there at all",
        [
            ("(rule 1024)\n", "(refused 2 0)"),
            ("(atoms 1)\n(atoms 1025)\n", "(refused 2 10)"),
            ("(atoms 3)\n(open 2 1 3)\n", "(refused 2 10)"),
            ("(atoms 1)\n(open)\n(open 1)\n", "(refused 2 17)"),
        ],
    );
    [whole, limits].into_iter().flatten().collect()
}

fn order() -> Vec<Sample> {
    let first = reading(
        "the line out of order is the first that cannot follow the lines before it",
        [
            ("(open)\n", "(refused 3 0)"),
            ("(atoms 1)\n(atoms 1)\n", "(refused 3 10)"),
            ("(atoms 1)\n(load 0 0)\n(clause)\n(rule 0)\n(open)\n", "(refused 3 21)"),
            ("(atoms 3)\n(open 1 1)\n", "(refused 3 10)"),
            ("(atoms 3)\n(open 2 1)\n", "(refused 3 10)"),
        ],
    );
    let missing = reading(
        "a missing form counts after all lines",
        [("(atoms 1)\n", "(refused 3 10)"), ("(atoms 1)\n(rule 1024)\n", "(refused 2 10)")],
    );
    let open = reading(
        "before an atoms line the open atoms have the limit 1,023",
        [("(open 1023)\n", "(refused 3 0)"), ("(open 1024)\n", "(refused 2 0)")],
    );
    let after = reading(
        "anything after the state form is judged like any line and is at least 3",
        [
            ("(atoms 1)\n(open)\n(open)\n", "(refused 3 17)"),
            ("(atoms 1)\n(open)\n(rule 0)\n", "(refused 3 17)"),
            ("(atoms 1)\n(open)\n(atoms 1)\n", "(refused 3 17)"),
            ("(atoms 1)\n(open)\n(rule 1024)\n", "(refused 2 17)"),
            ("(atoms 1)\n(open)\nx\n", "(refused 1 17)"),
            ("(atoms 1)\n(open)\n\n", "(refused 1 17)"),
        ],
    );
    [first, missing, open, after].into_iter().flatten().collect()
}

fn counts() -> Vec<Sample> {
    let claim = |n: usize, pairs: usize| format!("(atoms {n})\n(claim{})\n", " (0 0)".repeat(pairs));
    let pairs = reading(
        "more than 1,024 claim pairs are 2, any other number than N is 3",
        [
            (claim(1, 1_025), "(refused 2 10)"),
            (claim(1_024, 1_025), "(refused 2 13)"),
            (claim(1, 1_024), "(refused 3 10)"),
            (claim(1_024, 1_023), "(refused 3 13)"),
            (claim(1_024, 1_024), "(accepted)"),
            (claim(0, 0), "(accepted)"),
        ],
    );
    let rules = "(rule 0)\n".repeat(2_048);
    let text = format!("(atoms 1)\n{rules}(clause 0)\n(rule 0)\n");
    let limit = reading("a line counts towards the limits also if it is out of order", [(text, "(refused 2 18453)")]);
    [pairs, limit].into_iter().flatten().collect()
}

fn signs_and_zeros() -> Vec<Sample> {
    let minus_zero = ["(load -0 0)", "(load 0 -0)", "(load 0 0 (-0 0))"];
    let leading_zero = ["(load 00 0)", "(load -01 0)", "(rule 00)", "(rule 0 01)", "(open 00)", "(claim (00 0))", "(claim (0 00))"];
    let minus = ["(rule -1)", "(rule 0 -1)", "(rule 0 (not -1))", "(clause -1)", "(load 0 0 (1 -1))", "(open -1)"];
    let minus_in_claim = ["(claim (-1 0))", "(claim (0 -1))"];
    let no_number = ["(load - 0)", "(load -- 0)", "(load --1 0)", "(rule -)"];
    let lines = [&minus_zero[..], &leading_zero, &minus, &minus_in_claim, &no_number].concat();
    let says = "minus zero, a leading zero, and a minus before an atom, N, V or K are 1";
    let mut samples: Vec<Sample> = lines.iter().map(|line| Sample::last_line(says, second(line), "(refused 1 10)")).collect();
    samples.extend(reading(says, [("(atoms -1)\n", "(refused 1 0)"), ("(atoms 01)\n", "(refused 1 0)")]));
    samples
}

fn long_numbers() -> Vec<Sample> {
    let long = "9".repeat(5_000);
    let at_a_power = ["65536", "65539", "4294967295", "4294967296", "4294967299", "18446744073709551619"];
    let above_all_limits = ["10000000", "10000001", long.as_str()];
    at_a_power.iter().chain(&above_all_limits).flat_map(|number| out_of_limits(number)).collect()
}

/// A number above its limit in each place where a number stands. Bounds have larger limits than all others.
fn out_of_limits(number: &str) -> Vec<Sample> {
    let mut forms = vec!["(rule #)", "(rule 0 #)", "(rule 0 (not #))", "(clause #)", "(open #)", "(claim (# 0))", "(claim (0 #))"];
    forms.extend(["(load 0 0 (# 0))", "(load 0 0 (-# 0))", "(load 0 0 (0 #))"]);
    if number.len() > 7 {
        forms.extend(["(load # 0)", "(load -# 0)", "(load 0 #)", "(load 0 -#)"]);
    }
    let says = "numbers of any length are numbers, and nothing wraps";
    let sample = |form: &str| Sample::last_line(says, second(&form.replace('#', number)), "(refused 2 10)");
    let mut samples: Vec<Sample> = forms.into_iter().map(sample).collect();
    samples.push(Sample::last_line(says, format!("(atoms {number})\n"), "(refused 2 0)"));
    samples
}

fn forms() -> Vec<Sample> {
    let malformed = ["(rule)", "(load 0)", "(load)", "()", "(", "", " ", "(open )", "(clause )", "(not 0)", "(rule 0 (not))"];
    let sample = |line: &&str| Sample::last_line("what is no form", second(line), "(refused 1 10)");
    let mut samples: Vec<Sample> = malformed.iter().map(sample).collect();
    samples.extend(reading("what is no form", [("(atoms)\n", "(refused 1 0)"), ("\n", "(refused 1 0)")]));
    samples.extend(reading(
        "what is a form",
        [
            ("(atoms 1)\n(rule 0)\n(open)\n", "(accepted)"),
            ("(atoms 1)\n(clause)\n(open)\n", "(refused 26 0)"),
            ("(atoms 1)\n(load 0 0)\n(open)\n", "(accepted)"),
            ("(atoms 0)\n(claim)\n", "(accepted)"),
            ("(atoms 0)\n(open 0)\n", "(refused 2 10)"),
        ],
    ));
    samples.push(Sample::page("N = 0 is a legal book", "(atoms 0)\n(open)\n", "(made 0)\n(accepted)\n"));
    samples
}

fn sizes() -> Vec<Sample> {
    let clauses = format!("(clause{})\n(clause 0 0)\n", " (not 0)".repeat(8_187));
    let longest = format!("(atoms 1)\n{clauses}(open)\n");
    assert_eq!(longest.len(), 65_535);
    reading(
        "65,535 bytes are read, one more is 2 at 0 before anything is",
        [
            (longest.clone(), "(refused 26 1)"),
            (longest + "\n", "(refused 2 0)"),
            ("(".repeat(65_535), "(refused 1 0)"),
            ("(".repeat(65_536), "(refused 2 0)"),
            (format!("(atoms 0)\n(open)\n{}", "\n".repeat(65_536)), "(refused 2 0)"),
            ("\0".repeat(200_000), "(refused 2 0)"),
        ],
    )
}

fn tables() -> Vec<Sample> {
    let later = reading(
        "an atom from N to 1,023 reads well and is refused later",
        [
            ("(atoms 2)\n(rule 2)\n(open)\n", "(refused 12 0)"),
            ("(atoms 2)\n(rule 1023)\n(open)\n", "(refused 12 0)"),
            ("(atoms 2)\n(rule 0 1)\n(rule 0 1 1023)\n(open)\n", "(refused 15 2)"),
            ("(atoms 2)\n(rule 0 1)\n(clause 0)\n(clause 1 (not 2))\n(claim (0 0) (0 0))\n", "(refused 15 3)"),
            ("(atoms 2)\n(load 0 0 (6 0))\n(load 0 0 (6 1) (6 (not 2)))\n(open)\n", "(refused 16 2)"),
        ],
    );
    let single = reading(
        "each term is rounded by itself",
        [
            ("(atoms 1)\n(load 0 0 (3 0) (3 0))\n(open 0)\n", "(accepted)"),
            ("(atoms 1)\n(load 0 0 (2 0) (2 0) (2 0))\n(open 0)\n", "(accepted)"),
            ("(atoms 1)\n(load 2 2 (-3 0) (9 0))\n(open 0)\n", "(accepted)"),
        ],
    );
    [later, single].into_iter().flatten().collect()
}

fn claims() -> Vec<Sample> {
    let negated = "(atoms 3)\n(rule 0)\n(rule 1 (not 2))\n(rule 2 2)\n";
    let lower = reading(
        "each defined atom among them at a strictly lower level, negated ones too",
        [
            (format!("{negated}(claim (1 1) (1 1) (0 1))\n"), "(refused 23 1)"),
            (format!("{negated}(claim (1 1) (1 2) (0 1))\n"), "(accepted)"),
        ],
    );
    let compared = reading(
        "levels of false atoms are always compared",
        [
            ("(atoms 2)\n(rule 0 1)\n(rule 1 1)\n(claim (0 1) (0 2))\n", "(refused 24 0)"),
            ("(atoms 2)\n(rule 0)\n(rule 1 (not 0))\n(claim (1 1) (0 1))\n", "(refused 24 1)"),
        ],
    );
    let defined = reading(
        "23 and 24 concern defined atoms, and 24's position is a row over all false ones together",
        [("(atoms 1)\n(claim (1 0))\n", "(accepted)"), ("(atoms 2)\n(rule 1)\n(rule 0)\n(claim (0 1) (0 1))\n", "(refused 24 0)")],
    );
    [lower, compared, defined].into_iter().flatten().collect()
}

fn made_or_not() -> Vec<Sample> {
    let hidden = "(atoms 1)\n(rule 0 (not 0))\n(clause)\n(load 1 0)\n(open)\n";
    vec![
        Sample::page("25 hides failing clauses and loads", hidden, "(made 0)\n(atom 0 2 0)\n(refused 25 0)\n"),
        Sample::page("an open form that names a defined atom", "(atoms 2)\n(rule 1 0)\n(open 0 1)\n", "(refused 21 1)\n"),
    ]
}
