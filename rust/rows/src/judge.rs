//! The judge and match ends: all refusals before the first write, then the rows, then what is read off them.
use crate::answers::{Judgement, MatchEnds, Verdict};
use crate::below::Below;
use crate::check::{checked, MOST};
use crate::expand::{in_base_operators, Space};
use crate::fill::fill;
use crate::operators::{OPERATORS, PROPERTY, SEQUENCE};
use crate::rewrite::{Rewritten, Room};
use crate::tested::tested;
use crate::{Row, LONGEST, SHARE, TOP};

/// What a call is given besides the table: the sort that the root must not have, the number of samples, the start, and the words of the workspace.
struct Call {
    wrong: u8,
    samples: usize,
    start: usize,
    words: usize,
}

/// Refusals 1 to 9, 12, 13, 10, 14 and 11; with none, the nodes of the table, expanded into `space` where it is of version 3, and its rewriting, which is kept in
/// `room` where it is another table.
fn settle<'a>(
    table: &'a [u8],
    call: Call,
    space: &'a mut Space,
    room: &'a mut Room,
) -> Result<(&'a [[u8; 4]], Rewritten<'a>), Verdict> {
    let table = checked(table)?;
    let root = table.nodes[table.nodes.len() - 1][0];
    if OPERATORS[usize::from(root)].own == call.wrong {
        return Err(Verdict::refusal(12));
    }
    let table = in_base_operators(table, space)?;
    let new = Rewritten::of(&table, room)?;
    let refusals = [
        (call.samples > LONGEST, 10),
        (call.start > call.samples, 14),
        (call.words < SHARE * new.nodes.len(), 11),
    ];
    match refusals.iter().find(|(applies, _)| *applies) {
        Some(&(_, number)) => Err(Verdict::refusal(number)),
        None => Ok((table.nodes, new)),
    }
}

/// The rows of a table of m nodes, in the first words of the workspace.
fn rows(workspace: &mut [u64], m: usize) -> &mut [Row] {
    &mut workspace.as_chunks_mut().0[..m]
}

/// The level at which the property at the table's root holds on the samples, and whether it was tested; leaves the rows in the workspace.
pub fn judge(table: &[u8], samples: &[u64], workspace: &mut [u64]) -> Judgement {
    let (mut space, mut room) = (None, Room::default());
    let call = Call {
        wrong: SEQUENCE,
        samples: samples.len(),
        start: 0,
        words: workspace.len(),
    };
    let (nodes, new) = match settle(table, call, &mut space, &mut room) {
        Ok(settled) => settled,
        Err(verdict) => {
            return Judgement {
                verdict,
                ..Judgement::default()
            }
        }
    };
    let rows = rows(workspace, new.nodes.len());
    let mut starts = [0; MOST];
    fill(new.nodes, samples, rows, &mut starts);
    let [neutral, weak, strong] = [0, 1, 2].map(|word| rows[rows.len() - 1][word] & 1 == 1);
    let below = Below {
        nodes: new.nodes,
        rows,
        starts: &starts,
    };
    Judgement {
        verdict: Verdict::default(),
        level: level(neutral, weak, strong),
        tested: tested(nodes, &new, &below, samples.len()),
    }
}

fn level(neutral: bool, weak: bool, strong: bool) -> u8 {
    match (strong, neutral, weak) {
        (true, _, _) => 3,
        (_, true, _) => 2,
        (_, _, true) => 1,
        _ => 0,
    }
}

/// The match ends of the sequence at the table's root, from a start; leaves the rows in the workspace.
pub fn match_ends(table: &[u8], samples: &[u64], start: usize, workspace: &mut [u64]) -> MatchEnds {
    let (mut space, mut room) = (None, Room::default());
    let call = Call {
        wrong: PROPERTY,
        samples: samples.len(),
        start,
        words: workspace.len(),
    };
    let new = match settle(table, call, &mut space, &mut room) {
        Ok((_, new)) => new,
        Err(verdict) => {
            return MatchEnds {
                verdict,
                ..MatchEnds::default()
            }
        }
    };
    let m = new.nodes.len();
    let rows = rows(workspace, m);
    fill(new.nodes, samples, rows, &mut [0; MOST]);
    MatchEnds {
        verdict: Verdict::default(),
        mask: rows[m - 1][start],
        top: rows[m - 1][TOP] >> start & 1 == 1,
    }
}
