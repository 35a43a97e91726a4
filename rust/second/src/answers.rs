//! The entry points, each with its refusals in the order of
//! docs/FORMAT.md (Refusals).

use crate::expansion::expanded;
use crate::meaning::Meaning;
use crate::node::{Node, Sort};
use crate::record::{self, MOST_SAMPLES};
use crate::rewriting::rewritten;
use crate::rows::{rows, WORDS_PER_NODE};
use crate::table::{self, table_bytes, Table, MOST_NODES};
use crate::tested::Testing;
use crate::verdict::{refuse_if, Verdict};
use crate::versions::Call;
use crate::words::Tail;

/// What reading a record answers.
#[derive(Clone, Copy, Debug, PartialEq, Eq)]
pub struct Reading {
    pub verdict: Verdict,
    pub count: usize,
}

/// What expanding a table answers.
#[derive(Clone, Copy, Debug, PartialEq, Eq)]
pub struct Expansion {
    pub verdict: Verdict,
    pub count: usize,
}

/// What rewriting a table answers.
#[derive(Clone, Copy, Debug, PartialEq, Eq)]
pub struct Rewriting {
    pub verdict: Verdict,
    pub count: usize,
}

/// What the judge answers.
#[derive(Clone, Copy, Debug, PartialEq, Eq)]
pub struct Judgement {
    pub verdict: Verdict,
    pub level: u8,
    pub tested: bool,
}

/// What match ends answers: the ends as a mask, and whether ⊤ letters help.
#[derive(Clone, Copy, Debug, PartialEq, Eq)]
pub struct MatchEnds {
    pub verdict: Verdict,
    pub mask: u64,
    pub top: bool,
}

/// Checks a table: refusals 1 to 9.
pub fn check(table: &[u8]) -> Verdict {
    match table::checked(table, Call::Check.newest()) {
        Ok(_) => Verdict::ACCEPTED,
        Err(refusal) => refusal,
    }
}

/// Reads a record into `out`: refusals 1, 2, 3, 10, 5, 15.
pub fn read(record: &[u8], out: &mut [u64]) -> Reading {
    let samples = record::checked(record).and_then(|samples| {
        refuse_if(out.len() < samples.len(), 15)?;
        Ok(samples)
    });
    match samples {
        Ok(samples) => {
            out[..samples.len()].copy_from_slice(&samples);
            let (verdict, count) = (Verdict::ACCEPTED, samples.len());
            Reading { verdict, count }
        }
        Err(verdict) => Reading { verdict, count: 0 },
    }
}

/// Expands a table into `out`, version 3 as version 2 and older ones as they
/// are: refusals 1 to 9, 13, 15.
pub fn expand(table: &[u8], out: &mut [u8]) -> Expansion {
    let expanded = table::checked(table, Call::Expand.newest()).and_then(in_base_operators);
    let (verdict, count) = write_table(expanded, out);
    Expansion { verdict, count }
}

/// Rewrites a table, expanded first, into `out`, with its version: refusals 1 to
/// 9, 13, 15.
pub fn rewrite(table: &[u8], out: &mut [u8]) -> Rewriting {
    let checked = table::checked(table, Call::Rewrite.newest());
    let rewritten = checked.and_then(in_base_operators).and_then(|table| {
        let nodes = rewritten_in_limits(&table.nodes)?;
        Ok(Table { nodes, ..table })
    });
    let (verdict, count) = write_table(rewritten, out);
    Rewriting { verdict, count }
}

/// Writes a table that was not refused into `out`, where it fits: refusal 15.
fn write_table(table: Result<Table, Verdict>, out: &mut [u8]) -> (Verdict, usize) {
    let fitting = table.and_then(|table| {
        refuse_if(out.len() < 6 + 4 * table.nodes.len(), 15)?;
        Ok(table)
    });
    match fitting {
        Ok(Table { version, nodes }) => {
            let bytes = table_bytes(version, &nodes);
            out[..bytes.len()].copy_from_slice(&bytes);
            (Verdict::ACCEPTED, nodes.len())
        }
        Err(verdict) => (verdict, 0),
    }
}

/// Judges the samples: refusals 1 to 9, 12, 13, 10, 11.
pub fn judge(table: &[u8], samples: &[u64], workspace: &mut [u64]) -> Judgement {
    let judged = judge_table(table, Call::Judge).and_then(|(nodes, rewritten)| {
        refuse_if(samples.len() > MOST_SAMPLES, 10)?;
        refuse_if(workspace.len() < WORDS_PER_NODE * rewritten.len(), 11)?;
        Ok((nodes, rewritten))
    });
    match judged {
        Ok((nodes, rewritten)) => {
            leave_rows(&rewritten, samples, workspace);
            judgement(&nodes, samples)
        }
        Err(refusal) => refused_judgement(refusal),
    }
}

/// Judges without a workspace, as if one of any size were lent.
pub fn level(table: &[u8], samples: &[u64]) -> Judgement {
    let judged = judge_table(table, Call::Judge).and_then(|(nodes, _)| {
        refuse_if(samples.len() > MOST_SAMPLES, 10)?;
        Ok(nodes)
    });
    judgement_or_refusal(judged, samples)
}

/// Judges by the clocked table alone, with nothing lent: refusals 1 to 9, 12, 13
/// for the expansion, 10.
pub fn plain_judge(table: &[u8], samples: &[u64]) -> Judgement {
    let newest = Call::Plain.newest();
    let judged = nodes_with_root(table, newest, Sort::Property).and_then(|nodes| {
        refuse_if(samples.len() > MOST_SAMPLES, 10)?;
        Ok(nodes)
    });
    judgement_or_refusal(judged, samples)
}

/// Match ends from a start: refusals 1 to 9, 12, 13, 10, 14, 11.
pub fn match_ends(table: &[u8], samples: &[u64], start: usize, workspace: &mut [u64]) -> MatchEnds {
    let newest = Call::Ends.newest();
    let tables = table_with_root(table, newest, Sort::Sequence).and_then(|(nodes, rewritten)| {
        refuse_if(samples.len() > MOST_SAMPLES, 10)?;
        refuse_if(start > samples.len(), 14)?;
        refuse_if(workspace.len() < WORDS_PER_NODE * rewritten.len(), 11)?;
        Ok((nodes, rewritten))
    });
    match tables {
        Ok((nodes, rewritten)) => {
            leave_rows(&rewritten, samples, workspace);
            ends_from(&nodes, samples, start)
        }
        Err(verdict) => MatchEnds {
            verdict,
            mask: 0,
            top: false,
        },
    }
}

/// The program's line for its standard input, without the newline.
pub fn line(input: &[u8]) -> String {
    let count = input.get(5).map_or(0, |&count| usize::from(count));
    let (table, record) = input.split_at(input.len().min(6 + 4 * count));
    let judged = judge_table(table, Call::Program).and_then(|_| record::checked(record));
    match judged {
        Ok(samples) => {
            let judgement = level(table, &samples);
            let tested = if judgement.tested { "yes" } else { "no" };
            format!("level {} tested {}", judgement.level, tested)
        }
        Err(refusal) => format!("refused {} at {}", refusal.number, refusal.node),
    }
}

/// A table for the judge, expanded, and its rewriting: refusals 1 to 9, 12, 13.
fn judge_table(table: &[u8], call: Call) -> Result<(Vec<Node>, Vec<Node>), Verdict> {
    table_with_root(table, call.newest(), Sort::Property)
}

/// A table with a root of the sort asked for, expanded, and its rewriting.
fn table_with_root(
    table: &[u8],
    newest: u16,
    sort: Sort,
) -> Result<(Vec<Node>, Vec<Node>), Verdict> {
    let nodes = nodes_with_root(table, newest, sort)?;
    let rewritten = rewritten_in_limits(&nodes)?;
    Ok((nodes, rewritten))
}

/// The nodes of a table with a root of the sort asked for, expanded: refusals 1
/// to 9, 12, and 13 for the expansion.
fn nodes_with_root(table: &[u8], newest: u16, sort: Sort) -> Result<Vec<Node>, Verdict> {
    let table = table::checked(table, newest)?;
    let right = table.nodes.last().map(|root| root.sort()) == Some(sort);
    refuse_if(!right, 12)?;
    Ok(in_base_operators(table)?.nodes)
}

/// A table of version 3 as the version 2 table of its expansion, or refusal 13
/// for too many nodes; an older one as it is.
pub fn in_base_operators(table: Table) -> Result<Table, Verdict> {
    if table.version < 3 {
        return Ok(table);
    }
    let nodes = expanded(&table.nodes, MOST_NODES).ok_or(Verdict::refused(13))?;
    Ok(Table { version: 2, nodes })
}

/// The rewritten table, or refusal 13 for too many nodes.
fn rewritten_in_limits(nodes: &[Node]) -> Result<Vec<Node>, Verdict> {
    let rewritten = rewritten(nodes);
    refuse_if(rewritten.len() > MOST_NODES, 13)?;
    Ok(rewritten)
}

/// The judgement of nodes that are not refused.
fn judgement_or_refusal(judged: Result<Vec<Node>, Verdict>, samples: &[u64]) -> Judgement {
    match judged {
        Ok(nodes) => judgement(&nodes, samples),
        Err(refusal) => refused_judgement(refusal),
    }
}

/// The level and whether the table was tested, by the clocked definitions.
fn judgement(nodes: &[Node], samples: &[u64]) -> Judgement {
    let mut meaning = Meaning::new(nodes, samples);
    let root = nodes.len() - 1;
    let mut from_zero = |tail| meaning.satisfies(root, None, 0, tail);
    let level = if from_zero(Tail::Bottom) {
        3
    } else if from_zero(Tail::Nothing) {
        2
    } else if from_zero(Tail::Top) {
        1
    } else {
        0
    };
    Judgement {
        verdict: Verdict::ACCEPTED,
        level,
        tested: Testing::new(&mut meaning).tested(root, None, 0),
    }
}

/// The ends of the root's matches by the clocked definitions.
fn ends_from(nodes: &[Node], samples: &[u64], start: usize) -> MatchEnds {
    let mut meaning = Meaning::new(nodes, samples);
    let root = nodes.len() - 1;
    let inside = meaning.ends(root, None, start, Tail::Nothing);
    let with_top = meaning.ends(root, None, start, Tail::Top);
    MatchEnds {
        verdict: Verdict::ACCEPTED,
        mask: inside.iter().fold(0, |mask, &end| mask | 1 << end),
        top: with_top.iter().any(|&end| end > samples.len()),
    }
}

/// Writes the rows of the rewritten table and leaves the words after them.
fn leave_rows(rewritten: &[Node], samples: &[u64], workspace: &mut [u64]) {
    let rows = rows(rewritten, samples);
    workspace[..rows.len()].copy_from_slice(&rows);
}

/// A refused judgement has level 0 and is not tested.
fn refused_judgement(verdict: Verdict) -> Judgement {
    Judgement {
        verdict,
        level: 0,
        tested: false,
    }
}
