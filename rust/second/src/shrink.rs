//! Making a case smaller while it still differs.

use crate::case::Case;
use crate::count;
use crate::node::{Node, Sort};
use crate::record::record_bytes;
use crate::rows::WORDS_PER_NODE;
use crate::table::{readable, table_bytes, Table};

/// The smallest case found that still differs: greedy, until nothing smaller does.
pub fn shrink(case: Case, differs: &mut dyn FnMut(&Case) -> bool) -> Case {
    let mut best = case;
    loop {
        let weight_of_best = weight(&best);
        let smaller = candidates(&best)
            .into_iter()
            .find(|candidate| weight(candidate) < weight_of_best && differs(candidate));
        match smaller {
            Some(smaller) => best = smaller,
            None => return best,
        }
    }
}

/// What a case weighs, first things first. It falls with every step, so that
/// shrinking comes to an end.
fn weight(case: &Case) -> [u128; 6] {
    let nothing: &[u64] = &[];
    let (bytes, samples, start, lent) = match case {
        Case::Check { table } => (table, nothing, 0, 0),
        Case::Read { record, words } => (record, nothing, 0, *words),
        Case::Expand { table, bytes } | Case::Rewrite { table, bytes } => {
            (table, nothing, 0, *bytes)
        }
        Case::Judge {
            table,
            samples,
            words,
        } => (table, &samples[..], 0, *words),
        Case::Plain { table, samples } => (table, &samples[..], 0, 0),
        Case::Ends {
            table,
            samples,
            start,
            words,
        } => (table, &samples[..], *start, *words),
        Case::Program { input } => (input, nothing, 0, 0),
    };
    let byte_sum = bytes.iter().map(|&byte| u128::from(byte)).sum();
    let sample_sum = samples.iter().map(|&sample| u128::from(sample)).sum();
    [
        bytes.len() as u128,
        samples.len() as u128,
        byte_sum,
        sample_sum,
        start as u128,
        lent as u128,
    ]
}

/// Cases a step away from this one; not all of them are smaller.
fn candidates(case: &Case) -> Vec<Case> {
    match case {
        Case::Check { table } => tables(table)
            .into_iter()
            .map(|table| Case::Check { table })
            .collect(),
        Case::Read { record, words } => read_candidates(record, *words),
        Case::Expand { table, bytes } => expand_candidates(table, *bytes),
        Case::Rewrite { table, bytes } => rewrite_candidates(table, *bytes),
        Case::Judge {
            table,
            samples,
            words,
        } => judge_candidates(table, samples, *words),
        Case::Plain { table, samples } => pairs(table, samples)
            .into_iter()
            .map(|(table, samples)| Case::Plain { table, samples })
            .collect(),
        Case::Ends {
            table,
            samples,
            start,
            words,
        } => ends_candidates(table, samples, *start, *words),
        Case::Program { input } => inputs(input)
            .into_iter()
            .map(|input| Case::Program { input })
            .collect(),
    }
}

/// Smaller records and fewer words.
fn read_candidates(record: &[u8], words: usize) -> Vec<Case> {
    let records = records(record).into_iter();
    let mut cases: Vec<Case> = records.map(|record| Case::Read { record, words }).collect();
    let record = record.to_vec();
    cases.extend(sizes(words, record.len() / 8).map(|words| Case::Read {
        record: record.clone(),
        words,
    }));
    cases
}

/// Smaller tables and fewer bytes.
fn rewrite_candidates(table: &[u8], bytes: usize) -> Vec<Case> {
    let pairs = tables_and_bytes(table, bytes, rewritten_count(table));
    let case = |(table, bytes)| Case::Rewrite { table, bytes };
    pairs.into_iter().map(case).collect()
}

/// The same for the expander.
fn expand_candidates(table: &[u8], bytes: usize) -> Vec<Case> {
    let count = readable(table).map_or(0, |table| count::expanded(&table.nodes));
    let pairs = tables_and_bytes(table, bytes, count);
    let case = |(table, bytes)| Case::Expand { table, bytes };
    pairs.into_iter().map(case).collect()
}

/// Smaller tables with the bytes, and the table with fewer: around what so many
/// nodes need.
fn tables_and_bytes(table: &[u8], bytes: usize, count: usize) -> Vec<(Vec<u8>, usize)> {
    let smaller = tables(table).into_iter();
    let mut pairs: Vec<_> = smaller.map(|table| (table, bytes)).collect();
    let fewer = sizes(bytes, 6 + 4 * count);
    pairs.extend(fewer.map(|bytes| (table.to_vec(), bytes)));
    pairs
}

/// Smaller tables, smaller records and fewer words.
fn judge_candidates(table: &[u8], samples: &[u64], words: usize) -> Vec<Case> {
    let case = |(table, samples): (Vec<u8>, Vec<u64>), words| Case::Judge {
        table,
        samples,
        words,
    };
    let pairs = pairs(table, samples).into_iter();
    let mut cases: Vec<Case> = pairs.map(|pair| case(pair, words)).collect();
    for words in sizes(words, WORDS_PER_NODE * rewritten_count(table)) {
        cases.push(case((table.to_vec(), samples.to_vec()), words));
    }
    cases
}

/// Smaller records, and smaller tables with the samples or with one less: what
/// a nexttime passes over goes with it.
fn pairs(table: &[u8], samples: &[u64]) -> Vec<(Vec<u8>, Vec<u64>)> {
    let fewer = sample_lists(samples).into_iter();
    let mut pairs: Vec<_> = fewer.map(|fewer| (table.to_vec(), fewer)).collect();
    for smaller in tables(table) {
        pairs.push((smaller.clone(), samples.to_vec()));
        pairs.push((smaller, samples.iter().skip(1).copied().collect()));
    }
    pairs
}

/// The same with the start; a start inside the record may move with it.
fn ends_candidates(table: &[u8], samples: &[u64], start: usize, words: usize) -> Vec<Case> {
    let case = |table: Vec<u8>, samples: Vec<u64>, start, words| Case::Ends {
        table,
        samples,
        start,
        words,
    };
    let mut cases = Vec::new();
    for fewer in sample_lists(samples) {
        for start in [start, start.saturating_sub(samples.len() - fewer.len())] {
            cases.push(case(table.to_vec(), fewer.clone(), start, words));
        }
    }
    for smaller in tables(table) {
        cases.push(case(smaller, samples.to_vec(), start, words));
    }
    for start in sizes(start, samples.len()) {
        cases.push(case(table.to_vec(), samples.to_vec(), start, words));
    }
    for words in sizes(words, WORDS_PER_NODE * rewritten_count(table)) {
        cases.push(case(table.to_vec(), samples.to_vec(), start, words));
    }
    cases
}

/// The rewritten count of a table, 0 for one that cannot be read.
fn rewritten_count(table: &[u8]) -> usize {
    readable(table).map_or(0, |table| count::rewritten(&table.nodes))
}

/// Smaller numbers: none, around what is needed, half, and one less.
fn sizes(size: usize, needed: usize) -> impl Iterator<Item = usize> {
    let around = [needed.saturating_sub(1), needed, needed.saturating_add(1)];
    [0, around[0], around[1], around[2], size / 2]
        .into_iter()
        .chain(size.checked_sub(1))
}

/// Smaller inputs of the program: the table, the record, or plain bytes.
fn inputs(input: &[u8]) -> Vec<Vec<u8>> {
    let count = input.get(5).map_or(0, |&count| usize::from(count));
    let (table, record) = input.split_at(input.len().min(6 + 4 * count));
    let join = |table: &[u8], record: &[u8]| [table, record].concat();
    let mut inputs = Vec::new();
    if readable(table).is_some() {
        inputs.extend(records(record).iter().map(|record| join(table, record)));
        inputs.extend(tables(table).iter().map(|table| join(table, record)));
    } else {
        inputs.extend(byte_strings(input));
    }
    inputs
}

/// Smaller records: fewer or emptier samples, or plain bytes.
fn records(record: &[u8]) -> Vec<Vec<u8>> {
    let mut records = Vec::new();
    if let Ok(samples) = crate::record::checked(record) {
        records.extend(sample_lists(&samples).iter().map(|list| record_bytes(list)));
    }
    records.extend(byte_strings(record));
    records
}

/// Smaller lists of samples: without some in a row, or with bits cleared.
fn sample_lists(samples: &[u64]) -> Vec<Vec<u64>> {
    let mut lists = without_stretches(samples);
    for (index, &sample) in samples.iter().enumerate() {
        let bits = (0..64).filter(|bit| sample >> bit & 1 == 1);
        let cleared = bits.map(|bit| sample & !(1 << bit));
        for smaller in std::iter::once(0).chain(cleared) {
            let mut list = samples.to_vec();
            list[index] = smaller;
            lists.push(list);
        }
    }
    lists
}

/// Smaller byte strings: without some in a row, or with a byte cleared.
fn byte_strings(bytes: &[u8]) -> Vec<Vec<u8>> {
    let mut strings = without_stretches(bytes);
    for index in 0..bytes.len() {
        let mut string = bytes.to_vec();
        string[index] = 0;
        strings.push(string);
    }
    strings
}

/// The items without each stretch of half of them, a quarter, down to one.
fn without_stretches<T: Clone>(items: &[T]) -> Vec<Vec<T>> {
    let mut lists = Vec::new();
    let mut length = items.len();
    while length > 0 {
        for from in (0..items.len()).step_by(length) {
            let to = (from + length).min(items.len());
            lists.push([&items[..from], &items[to..]].concat());
        }
        length /= 2;
    }
    lists
}

/// Smaller tables: simpler nodes, fewer nodes, an older version, or plain bytes.
fn tables(table: &[u8]) -> Vec<Vec<u8>> {
    let mut tables = Vec::new();
    if let Some(Table { version, nodes }) = readable(table) {
        let smaller = node_lists(&nodes);
        tables.extend(smaller.iter().map(|nodes| table_bytes(version, nodes)));
        tables.extend((1..version).map(|older| table_bytes(older, &nodes)));
    }
    tables.extend(byte_strings(table));
    tables
}

/// Fewer nodes, or simpler ones.
fn node_lists(nodes: &[Node]) -> Vec<Vec<Node>> {
    let mut smaller = Vec::new();
    for node in 0..nodes.len() {
        smaller.push(reached(&nodes[..=node]));
        smaller.extend(without_node(nodes, node));
        smaller.extend(with_node_below(nodes, node));
    }
    smaller.push(reached(nodes));
    for node in 0..nodes.len() {
        smaller.extend(with_simpler_node(nodes, node));
    }
    smaller
}

/// The table without a node that no other node uses, renumbered.
fn without_node(nodes: &[Node], node: usize) -> Option<Vec<Node>> {
    let mut operands = nodes.iter().flat_map(|node| node.operands());
    if nodes.len() < 2 || operands.any(|operand| operand == node) {
        return None;
    }
    let moved = |old: usize| if old > node { old - 1 } else { old };
    let left = nodes.iter().enumerate().filter(|(index, _)| *index != node);
    Some(left.map(|(_, kept)| kept.renumbered(moved)).collect())
}

/// Tables with a node replaced by one of its own sort from below it.
fn with_node_below(nodes: &[Node], node: usize) -> Vec<Vec<Node>> {
    let mut tables = Vec::new();
    for below in below(nodes, node) {
        if nodes[below].sort() == nodes[node].sort() {
            let moved = |old: usize| if old == node { below } else { old };
            let mut changed: Vec<Node> = nodes.iter().map(|n| n.renumbered(moved)).collect();
            if node == nodes.len() - 1 {
                changed.truncate(below + 1);
            }
            tables.push(reached(&changed));
            tables.push(reached_or_boolean(&changed));
        }
    }
    tables
}

/// The operands of a node, their operands, and the lowest property below it.
fn below(nodes: &[Node], node: usize) -> Vec<usize> {
    let mut below: Vec<usize> = nodes[node].operands().collect();
    for operand in below.clone() {
        below.extend(nodes[operand].operands());
    }
    let mut lowest = node;
    while let Some(p) = first_property(nodes, lowest) {
        lowest = p;
    }
    below.push(lowest);
    below.retain(|&index| index != node);
    below
}

/// The first operand of a node that is a property.
fn first_property(nodes: &[Node], node: usize) -> Option<usize> {
    let mut operands = nodes[node].operands();
    operands.find(|&operand| nodes[operand].sort() == Sort::Property)
}

/// Tables with a boolean made a constant or a signal, or a sequence a letter.
fn with_simpler_node(nodes: &[Node], node: usize) -> Vec<Vec<Node>> {
    let simpler = match nodes[node].sort() {
        Sort::Boolean => simpler_booleans(nodes[node]),
        Sort::Sequence => {
            let is_boolean = |b: &usize| nodes[*b].sort() == Sort::Boolean;
            (0..node).filter(is_boolean).map(Node::Letter).collect()
        }
        Sort::Property => Vec::new(),
    };
    let changed = |simple: Node| {
        let mut changed = nodes.to_vec();
        changed[node] = simple;
        [reached(&changed), changed]
    };
    simpler.into_iter().flat_map(changed).collect()
}

/// Constants and signals in place of a boolean; of one that asks whether a
/// signal has risen or fallen, that signal too.
fn simpler_booleans(boolean: Node) -> Vec<Node> {
    let mut simpler = vec![Node::Constant(0), Node::Constant(1), Node::Signal(0)];
    if let Node::Risen(signal) | Node::Fallen(signal) = boolean {
        simpler.push(Node::Signal(signal));
    }
    simpler
}

/// The nodes that the root needs, renumbered.
pub fn reached(nodes: &[Node]) -> Vec<Node> {
    with_operands(nodes, vec![false; nodes.len()])
}

/// The same with all booleans: a row of one may matter that no node uses.
fn reached_or_boolean(nodes: &[Node]) -> Vec<Node> {
    let is_boolean = |node: &Node| node.sort() == Sort::Boolean;
    with_operands(nodes, nodes.iter().map(is_boolean).collect())
}

/// The nodes wanted and the root with all that they need, renumbered.
fn with_operands(nodes: &[Node], wanted: Vec<bool>) -> Vec<Node> {
    let mut needed = wanted;
    if let Some(root) = needed.last_mut() {
        *root = true;
    }
    for (index, node) in nodes.iter().enumerate().rev() {
        if needed[index] {
            node.operands().for_each(|operand| needed[operand] = true);
        }
    }
    let number = |old: usize| needed[..old].iter().filter(|&&kept| kept).count();
    let kept = (0..nodes.len()).filter(|&index| needed[index]);
    kept.map(|index| nodes[index].renumbered(number)).collect()
}
