//! Left-recursive rules added to a sheet, out of reach or behind a single edge.

use sheets::Sheet;

/// How an added rule R is left-recursive.
#[derive(Clone, Copy, Debug)]
pub enum Form {
    /// R <- R
    Itself,
    /// R <- R 'a' / 'a'
    Growing,
    /// R <- Q 'a' / 'a'; Q <- R 'b' / 'b'
    Pair,
    /// R <- 'x'* R 'a' / 'b'
    Hidden,
    /// R <- R S / L, with rule 0 and the last rule that was there
    Using,
}

pub const FORMS: [Form; 5] = [
    Form::Itself,
    Form::Growing,
    Form::Pair,
    Form::Hidden,
    Form::Using,
];

/// Adds a rule of this form, which nothing else uses, and gives its number.
pub fn add_unused(sheet: &mut Sheet, form: Form) -> u16 {
    let own = sheet.roots.len() as u16;
    let itself = sheet.rule(own);
    match form {
        Form::Itself => sheet.root(itself),
        Form::Growing => {
            let root = growing(sheet, itself, b'a');
            sheet.root(root);
        }
        Form::Pair => {
            let other = sheet.rule(own + 1);
            let root = growing(sheet, other, b'a');
            let other_root = growing(sheet, itself, b'b');
            sheet.root(root);
            sheet.root(other_root);
        }
        Form::Hidden => {
            let x = sheet.byte(b'x');
            let before = sheet.repetition(x);
            let a = sheet.byte(b'a');
            let b = sheet.byte(b'b');
            let longer = sheet.in_order(&[before, itself, a]);
            let root = sheet.choice(longer, b);
            sheet.root(root);
        }
        Form::Using => {
            let start = sheet.rule(0);
            let last = sheet.rule(own - 1);
            let longer = sheet.sequence(itself, start);
            let root = sheet.choice(longer, last);
            sheet.root(root);
        }
    }
    own
}

/// The used rule and the byte, or else the byte alone.
fn growing(sheet: &mut Sheet, used: u16, byte: u8) -> u16 {
    let byte = sheet.byte(byte);
    let longer = sheet.sequence(used, byte);
    sheet.choice(longer, byte)
}

/// By what a rule R is reached from a rule whose root was X.
#[derive(Clone, Copy, Debug)]
pub enum Edge {
    /// R 'z' / X
    FirstOfSequence,
    /// 'z' R / X, where the first can't be empty
    SecondOfSequence,
    /// R / X
    FirstOfChoice,
    /// X / R
    SecondOfChoice,
    /// !R X
    Not,
    /// R* X
    Repetition,
    /// X / P; P <- 'z' R
    OneRule,
    /// X / P; P <- 'z' Q; Q <- !R
    TwoRules,
}

pub const EDGES: [Edge; 8] = [
    Edge::FirstOfSequence,
    Edge::SecondOfSequence,
    Edge::FirstOfChoice,
    Edge::SecondOfChoice,
    Edge::Not,
    Edge::Repetition,
    Edge::OneRule,
    Edge::TwoRules,
];

/// Lets one rule use another by one edge and no more.
pub fn add_edge(sheet: &mut Sheet, from: usize, to: u16, edge: Edge) {
    let root = sheet.roots[from];
    let used = sheet.rule(to);
    sheet.roots[from] = match edge {
        Edge::FirstOfSequence => {
            let z = sheet.byte(b'z');
            let first = sheet.sequence(used, z);
            sheet.choice(first, root)
        }
        Edge::SecondOfSequence => {
            let first = behind_a_byte(sheet, used);
            sheet.choice(first, root)
        }
        Edge::FirstOfChoice => sheet.choice(used, root),
        Edge::SecondOfChoice => sheet.choice(root, used),
        Edge::Not => {
            let not = sheet.not(used);
            sheet.sequence(not, root)
        }
        Edge::Repetition => {
            let all = sheet.repetition(used);
            sheet.sequence(all, root)
        }
        Edge::OneRule => {
            let through = behind_a_byte(sheet, used);
            or_rule(sheet, root, through)
        }
        Edge::TwoRules => {
            let not = sheet.not(used);
            let second = sheet.rule(sheet.roots.len() as u16 + 1);
            let through = behind_a_byte(sheet, second);
            let either = or_rule(sheet, root, through);
            sheet.root(not);
            either
        }
    };
}

/// 'z', then the node.
fn behind_a_byte(sheet: &mut Sheet, node: u16) -> u16 {
    let z = sheet.byte(b'z');
    sheet.sequence(z, node)
}

/// The node, or else a new rule with this root.
fn or_rule(sheet: &mut Sheet, node: u16, root: u16) -> u16 {
    let rule = sheet.rule(sheet.roots.len() as u16);
    sheet.root(root);
    sheet.choice(node, rule)
}

/// The sheet with an unused rule of this form.
pub fn with_unused(mut sheet: Sheet, form: Form) -> Sheet {
    add_unused(&mut sheet, form);
    sheet
}

/// The sheet with a rule of this form, which rule `from` uses by this edge.
pub fn with_used(mut sheet: Sheet, from: usize, form: Form, edge: Edge) -> Sheet {
    let rule = add_unused(&mut sheet, form);
    add_edge(&mut sheet, from, rule, edge);
    sheet
}

/// The same matches, but not free: rule 0 falls back on a rule that only fails.
pub fn not_free(sheet: Sheet) -> Sheet {
    with_used(sheet, 0, Form::Itself, Edge::SecondOfChoice)
}

/// Adds all nodes and rules of another sheet behind its own.
pub fn append(sheet: &mut Sheet, other: &Sheet) {
    let (nodes, rules) = (sheet.nodes.len() as u16, sheet.roots.len() as u16);
    for &(kind, a, b) in &other.nodes {
        sheet.add(match kind {
            2 => (kind, a + rules, b),
            3 | 4 => (kind, a + nodes, b + nodes),
            5 | 6 => (kind, a + nodes, b),
            _ => (kind, a, b),
        });
    }
    for root in &other.roots {
        sheet.root(root + nodes);
    }
}

/// Each of two rules gets the other's number.
pub fn swap_rules(sheet: &mut Sheet, one: u16, other: u16) {
    sheet.roots.swap(one.into(), other.into());
    for (kind, rule, _) in &mut sheet.nodes {
        if *kind == 2 && *rule == one {
            *rule = other;
        } else if *kind == 2 && *rule == other {
            *rule = one;
        }
    }
}

#[cfg(test)]
mod tests {
    use super::*;

    fn report(sheet: &Sheet) -> independent::Report {
        let report = independent::report(&sheet.bytes());
        assert_eq!(report.code, independent::READ);
        report
    }

    #[test]
    fn unused_rules_leave_a_sheet_free() {
        for form in FORMS {
            let sheet = with_unused(sheets::sheet_b(), form);
            let report = report(&sheet);
            let rules = if let Form::Pair = form { 0b1100 } else { 0b100 };
            assert_eq!(
                (report.left_recursive, report.free),
                (rules, true),
                "{form:?}"
            );
        }
    }

    #[test]
    fn every_edge_counts() {
        for form in FORMS {
            for edge in EDGES {
                for from in [0, 1] {
                    let sheet = with_used(sheets::sheet_b(), from, form, edge);
                    let report = report(&sheet);
                    assert!(report.left_recursive & 0b100 != 0, "{form:?} {edge:?}");
                    assert!(!report.free, "{form:?} {edge:?}");
                }
            }
        }
    }

    #[test]
    fn a_fallback_that_never_matches_changes_no_tree() {
        let (table, other) = (sheets::sheet_b(), not_free(sheets::sheet_b()));
        for line in [b"1,5".as_slice(), b"1", b",5", b""] {
            let read = |sheet: &Sheet| {
                let (mut work, mut room) = (vec![0; 3_000], vec![0; 50]);
                let answer =
                    independent::read(&sheet.bytes(), line, 100, &mut work, &mut room, true);
                (answer.code, answer.matched, room)
            };
            assert_eq!(read(&table), read(&other));
        }
    }

    #[test]
    fn the_rules_of_another_sheet_stand_behind() {
        let mut sheet = sheets::sheet_b();
        append(&mut sheet, &sheets::sum());
        let both = report(&sheet);
        assert_eq!((both.left_recursive, both.free), (0b1100, true));
        let mut sheet = sheets::sum();
        append(&mut sheet, &sheets::sheet_b());
        let both = report(&sheet);
        assert_eq!((both.left_recursive, both.free), (0b11, false));
    }

    #[test]
    fn swapped_rules_are_the_same_grammar() {
        let mut sheet = with_unused(sheets::sheet_b(), Form::Growing);
        swap_rules(&mut sheet, 1, 2);
        let swapped = report(&sheet);
        assert_eq!((swapped.left_recursive, swapped.free), (0b10, true));
        swap_rules(&mut sheet, 2, 1);
        assert_eq!(sheet, with_unused(sheets::sheet_b(), Form::Growing));
    }
}
