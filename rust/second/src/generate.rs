//! Random cases: a pure function of the seed.

mod expand;

use crate::case::Case;
use crate::count;
use crate::damage::{damage_bytes, damage_header, damage_table};
use crate::grow::{filled, grown, grown_once, Plan, Shape};
use crate::node::{Node, Sort};
use crate::random::Random;
use crate::record::record_bytes;
use crate::recording::{good_samples, signals, too_many_samples};
use crate::rows::WORDS_PER_NODE;
use crate::table::{table_bytes, MOST_NODES};
use crate::versions::Call;

/// How often, of a hundred cases, one is spoilt somewhere.
const SPOILT: usize = 40;

/// How often, of a hundred tables, one is guarded.
const GUARDED: usize = 40;

/// How often, of a hundred tables, all of a property is under a clock.
const CLOCKED: usize = 20;

/// The most words of workspace a case lends.
const MOST_WORKSPACE: usize = 7865;

/// A table and its signals, with what it comes to: its rewritten count, or for
/// the expander its expanded one.
struct Made {
    bytes: Vec<u8>,
    signals: Vec<usize>,
    m: usize,
}

/// How many of a hundred cases are of the plain judge, and how many of a hundred
/// others of the expander.
const PLAIN: usize = 14;
const EXPAND: usize = 14;

/// The case of a seed. Whether it is one of the plain judge or of the expander is
/// drawn from a stream of its own, so that the other cases stay what they were
/// without them.
pub fn random_case(seed: u64) -> Case {
    let random = &mut Random::new(seed);
    let added = &mut Random::new(!seed);
    if added.percent(PLAIN) {
        return plain_case(random);
    }
    if added.percent(EXPAND) {
        return expand::expand_case(random);
    }
    match random.weighted(&[8, 8, 14, 40, 20, 10]) {
        0 => check_case(random),
        1 => read_case(random),
        2 => rewrite_case(random),
        3 => judge_case(random),
        4 => ends_case(random),
        _ => program_case(random),
    }
}

/// Either sort of root.
fn any_root(random: &mut Random) -> Sort {
    random.pick(&[Sort::Property, Sort::Property, Sort::Sequence])
}

/// The other sort of root.
fn other_root(root: Sort) -> Sort {
    match root {
        Sort::Property => Sort::Sequence,
        _ => Sort::Property,
    }
}

/// A good table for a call with a root of this sort.
fn made(random: &mut Random, call: Call, root: Sort) -> Made {
    let size_class = random.weighted(&[62, 24, 8, 6]);
    let size = match size_class {
        0 => random.between(1, 9),
        1 => random.between(8, 30),
        2 => random.between(30, 110),
        _ => random.between(1, 60),
    };
    let mut plan = plan(random, call, root, size);
    if root == Sort::Sequence && random.percent(50) {
        plan.shape = Shape::Broad;
    }
    let mut nodes = grown(random, &plan);
    if size_class == 3 {
        let target = random.between(112, 126).min(MOST_NODES);
        nodes = filled(random, &plan, nodes, target);
    }
    made_of(&nodes, plan)
}

/// A table that comes to just too many nodes, or far too many.
fn made_too_large(random: &mut Random, call: Call, root: Sort) -> Made {
    made_larger(random, call, root, 60)
}

/// The same, of up to about so many sequence and property nodes.
fn made_larger(random: &mut Random, call: Call, root: Sort, most: usize) -> Made {
    for _ in 0..20 {
        let size = random.between(10, most);
        let mut plan = plan(random, call, root, size);
        plan.clocks = random.between(10, 60);
        let mut nodes = grown_once(random, &plan, size);
        if nodes.len() < MOST_NODES && (plan.count)(&nodes) > nodes.len() {
            nodes = filled(random, &plan, nodes, MOST_NODES + 1);
        }
        if nodes.len() <= MOST_NODES && (plan.count)(&nodes) > MOST_NODES {
            return made_of(&nodes, plan);
        }
    }
    made(random, call, root)
}

/// The bytes of a table and what goes with it.
fn made_of(nodes: &[Node], plan: Plan) -> Made {
    Made {
        bytes: table_bytes(plan.version, nodes),
        signals: plan.signals,
        m: (plan.count)(nodes),
    }
}

/// What a random table for a call should be like.
fn plan(random: &mut Random, call: Call, root: Sort, size: usize) -> Plan {
    let shapes = [
        Shape::Even,
        Shape::Left,
        Shape::Right,
        Shape::Mixed,
        Shape::Mixed,
        Shape::Chain,
        Shape::Broad,
        Shape::Broad,
    ];
    let version = version(random, call);
    let edges = random.pick(&[0, 40, 60, 90]);
    Plan {
        version,
        root,
        size,
        signals: signals(random),
        edges: if version == 1 { 0 } else { edges },
        derived: match version {
            3 => random.pick(&[15, 30, 50]),
            _ => 0,
        },
        clocks: random.pick(&[0, 0, 5, 12, 25]),
        empties: random.pick(&[0, 3, 8, 15]),
        clocked: random.percent(CLOCKED),
        shape: match random.percent(GUARDED) {
            true => Shape::Guarded,
            false => random.pick(&shapes),
        },
        mixed_order: random.percent(40),
        unused_booleans: random.pick(&[0, 0, 0, 1, 3]),
        count: match call {
            Call::Expand => count::expanded,
            _ => count::rewritten,
        },
    }
}

/// A version that the call takes: for the expander mostly the one that it is for.
fn version(random: &mut Random, call: Call) -> u16 {
    if call == Call::Expand {
        return random.pick(&[1, 2, 3, 3, 3, 3, 3, 3]);
    }
    let taken: Vec<u16> = (1..=call.newest()).collect();
    random.pick(&taken)
}

/// A workspace that is large enough: often exactly.
fn good_words(random: &mut Random, m: usize) -> usize {
    let least = WORDS_PER_NODE * m;
    let words = match random.weighted(&[60, 15, 15, 5, 5]) {
        0 => least,
        1 => least + 1,
        2 => least + random.below(70),
        3 => 7800,
        _ => MOST_WORKSPACE,
    };
    words.clamp(least.min(MOST_WORKSPACE), MOST_WORKSPACE)
}

/// A workspace that is too small: often by one word.
fn few_words(random: &mut Random, m: usize) -> usize {
    let least = (WORDS_PER_NODE * m).min(MOST_WORKSPACE);
    match random.below(4) {
        0 | 1 => least.saturating_sub(1),
        2 => least.saturating_sub(65),
        _ => random.below(least),
    }
}

/// Damages a table once, and at times again.
fn damaged(random: &mut Random, bytes: &mut Vec<u8>) {
    damage_table(random, bytes);
    while random.percent(25) {
        damage_table(random, bytes);
    }
}

/// Checking a table.
fn check_case(random: &mut Random) -> Case {
    let root = any_root(random);
    let mut table = made(random, Call::Check, root).bytes;
    if random.percent(SPOILT + 20) {
        damaged(random, &mut table);
    }
    Case::Check { table }
}

/// Reading a record.
fn read_case(random: &mut Random) -> Case {
    let signals = signals(random);
    let mut samples = good_samples(random, &signals);
    let spoilt = random.percent(SPOILT);
    if spoilt && random.percent(25) {
        samples = too_many_samples(random, &signals);
    }
    let mut words = match random.below(3) {
        0 => samples.len(),
        1 => 64,
        _ => random.between(samples.len(), 64),
    };
    let mut record = record_bytes(&samples);
    if spoilt && random.percent(35) {
        words = random.below(samples.len());
    }
    if spoilt && random.percent(35) {
        damage_bytes(random, &mut record);
    }
    if spoilt && random.percent(35) {
        damage_header(random, &mut record);
    }
    let words = words.min(64);
    Case::Read { record, words }
}

/// Rewriting a table.
fn rewrite_case(random: &mut Random) -> Case {
    let root = any_root(random);
    let fault = fault(random, &[1, 2, 3, 4]);
    let mut table = match fault {
        2 => made_too_large(random, Call::Rewrite, root),
        _ => made(random, Call::Rewrite, root),
    };
    let bytes = lent_for(random, table.m, fault);
    if fault == 1 || fault != 0 && random.percent(15) {
        damaged(random, &mut table.bytes);
    }
    let table = table.bytes;
    Case::Rewrite { table, bytes }
}

/// No fault, 0, or for a case that is to be spoilt one of these.
fn fault(random: &mut Random, faults: &[usize]) -> usize {
    if random.percent(SPOILT) {
        random.pick(faults)
    } else {
        0
    }
}

/// How many bytes are lent for a table of so many nodes: enough, or where the
/// fault is 3 or 4, and at times beside another, too few, often by one.
fn lent_for(random: &mut Random, count: usize, fault: usize) -> usize {
    let needed = 6 + 4 * count;
    let enough = random.pick(&[needed, needed, needed + 1, needed + 9, 486, 500]);
    if fault == 3 || fault == 4 || fault != 0 && random.percent(10) {
        let fewer = [needed - 1, needed - 1, 0, random.below(needed)];
        return random.pick(&fewer).min(500);
    }
    enough.max(needed).min(500)
}

/// A table, samples and a workspace for the judge or for match ends, with one
/// fault or several when it is to be spoilt.
fn call(random: &mut Random, call: Call, root: Sort, spoilt: bool) -> (Vec<u8>, Vec<u64>, usize) {
    // A damaged table, 5, has the rarest refusals.
    let faults = [1, 2, 3, 4, 5, 5];
    let fault = if spoilt { random.pick(&faults) } else { 0 };
    let again = |random: &mut Random| spoilt && random.percent(12);
    let root = if fault == 1 || again(random) {
        other_root(root)
    } else {
        root
    };
    let mut table = match fault == 2 || again(random) {
        true => made_too_large(random, call, root),
        false => made(random, call, root),
    };
    let samples = match fault == 3 || again(random) {
        true => too_many_samples(random, &table.signals),
        false => good_samples(random, &table.signals),
    };
    let words = match fault == 4 || again(random) {
        true => few_words(random, table.m),
        false => good_words(random, table.m),
    };
    if fault == 5 || again(random) {
        damaged(random, &mut table.bytes);
    }
    (table.bytes, samples, words)
}

/// Judging.
fn judge_case(random: &mut Random) -> Case {
    let spoilt = random.percent(SPOILT - 5);
    let (table, samples, words) = call(random, Call::Judge, Sort::Property, spoilt);
    Case::Judge {
        table,
        samples,
        words,
    }
}

/// The plain judge: a table for the judge or, as often, one whose rewriting has
/// too many nodes.
fn plain_case(random: &mut Random) -> Case {
    let spoilt = random.percent(SPOILT - 5);
    if spoilt {
        let (table, samples, _) = call(random, Call::Plain, Sort::Property, true);
        return Case::Plain { table, samples };
    }
    let table = match random.percent(50) {
        true => made(random, Call::Plain, Sort::Property),
        false => made_larger(random, Call::Plain, Sort::Property, 105),
    };
    Case::Plain {
        samples: good_samples(random, &table.signals),
        table: table.bytes,
    }
}

/// Match ends.
fn ends_case(random: &mut Random) -> Case {
    let spoilt = random.percent(SPOILT - 8);
    let (table, samples, words) = call(random, Call::Ends, Sort::Sequence, spoilt);
    let n = samples.len();
    let start = match random.weighted(&[52, 32, 7, 6, 3]) {
        0 => 0,
        1 => random.between(0, n),
        2 => n,
        3 => n + 1,
        _ => random.pick(&[n + 2, 64, 255, 1 << 32, usize::MAX]),
    };
    Case::Ends {
        table,
        samples,
        start,
        words,
    }
}

/// The program on a table and a record.
fn program_case(random: &mut Random) -> Case {
    let spoilt = random.percent(SPOILT);
    // A damaged table, 4, has the rarest refusals.
    let faults = [1, 2, 3, 4, 4, 4, 5, 6, 7, 8, 9];
    let fault = if spoilt { random.pick(&faults) } else { 0 };
    let root = if fault == 1 {
        Sort::Sequence
    } else {
        Sort::Property
    };
    let mut table = match fault {
        2 => made_too_large(random, Call::Program, root),
        _ => made(random, Call::Program, root),
    };
    let samples = match fault {
        3 => too_many_samples(random, &table.signals),
        _ => good_samples(random, &table.signals),
    };
    let mut record = record_bytes(&samples);
    match fault {
        4 => damaged(random, &mut table.bytes),
        5 => damage_bytes(random, &mut record),
        6 => damage_header(random, &mut record),
        7 => record.clear(),
        8 => damage_header(random, &mut table.bytes),
        _ => {}
    }
    let mut input = table.bytes;
    input.extend(record);
    if fault == 9 {
        spoil_length(random, &mut input);
    }
    input.truncate(2000);
    Case::Program { input }
}

/// Makes an input end early or go on beyond the longest good one.
fn spoil_length(random: &mut Random, input: &mut Vec<u8>) {
    match random.below(3) {
        0 => input.truncate(random.below(input.len())),
        1 => input.push(random.pick(b"\n\0 ")),
        _ => input.resize(random.between(990, 1500), random.next() as u8),
    }
}
