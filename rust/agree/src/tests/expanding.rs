//! Sides whose expander answers wrong are found out, by random cases and by those that are listed.
use super::found;
use crate::{compare_listed, library_answer, Side};
use second::{Answer, Case, Expansion, Verdict};

/// The library, but the expander's answer to a table, and the bytes lent, are changed.
fn changed(case: &Case, change: impl Fn(&[u8], &mut Expansion, &mut [u8])) -> Answer {
    let mut answer = library_answer(case);
    if let (Case::Expand { table, .. }, Answer::Expand(expansion, out)) = (case, &mut answer) {
        change(table, expansion, out);
    }
    answer
}

/// The library, but each node that was written for a table of version 3 is changed.
fn changed_nodes(case: &Case, change: fn(&mut [u8])) -> Answer {
    changed(case, |table, expansion, out| {
        if expansion.count > 0 && table[3] == 3 {
            let nodes = out[6..].chunks_exact_mut(4).take(expansion.count);
            nodes.for_each(change);
        }
    })
}

/// `or` has its sides the other way round.
fn or_turned_round(case: &Case) -> Answer {
    changed_nodes(case, |node| {
        if node[0] == 19 {
            node.swap(1, 2);
        }
    })
}

/// The 0 of always is strong: every weak is.
fn always_by_strong(case: &Case) -> Answer {
    changed_nodes(case, |node| {
        if node[0] == 33 {
            node[0] = 32;
        }
    })
}

/// The fourth byte stays in the node that stands for a repeat.
fn fourth_byte_stays(case: &Case) -> Answer {
    changed(case, |table, expansion, out| {
        if expansion.count > 0 && table[3] == 3 {
            out[9 + 4 * (expansion.count - 1)] = table[table.len() - 1];
        }
    })
}

/// The version is copied.
fn version_copied(case: &Case) -> Answer {
    changed(case, |table, expansion, out| {
        if expansion.count > 0 {
            out[3] = table[3];
        }
    })
}

/// A refusal with 9 names no node.
fn nine_names_no_node(case: &Case) -> Answer {
    changed(case, |_, expansion, _| {
        if expansion.verdict.number == 9 {
            expansion.verdict.node = 0;
        }
    })
}

/// 121 nodes are let through as 15, since no output is large enough.
fn thirteen_as_fifteen(case: &Case) -> Answer {
    changed(case, |_, expansion, _| {
        if expansion.verdict.number == 13 {
            expansion.verdict = Verdict {
                number: 15,
                node: 0,
            };
        }
    })
}

/// The byte after the table is cleared.
fn one_byte_more(case: &Case) -> Answer {
    changed(case, |_, expansion, out| {
        if expansion.count > 0 {
            if let Some(byte) = out.get_mut(6 + 4 * expansion.count) {
                *byte = 0;
            }
        }
    })
}

const WRONG: [Side; 7] = [
    or_turned_round,
    always_by_strong,
    fourth_byte_stays,
    version_copied,
    nine_names_no_node,
    thirteen_as_fifteen,
    one_byte_more,
];

#[test]
fn a_wrong_expander_is_found() {
    for wrong in WRONG {
        let (difference, text) = found(wrong);
        assert!(matches!(difference.case, Case::Expand { .. }), "{text}");
    }
}

#[test]
fn a_wrong_expander_is_found_by_a_listed_case() {
    for wrong in WRONG {
        let text = compare_listed(wrong, second::answer).unwrap_err();
        assert!(text.contains("\ncase:    expand "), "{text}");
    }
    assert!(compare_listed(library_answer, library_answer).is_ok());
}

#[test]
fn a_wrong_expansion_is_shrunk() {
    let (difference, text) = found(or_turned_round);
    let Case::Expand { table, .. } = difference.case else {
        panic!("this is no case of the expander: {text}");
    };
    // a signal, a letter and a derived node, or a letter more
    assert!(table.len() <= 6 + 4 * 4, "{text}");
    assert!(text.contains("lent:    byte "), "{text}");
}
