//! Expanding: the proved expander beside the same in safe Rust.
use crate::measure::{medians, Effort, Turns};
use crate::nodes::Nodes;
use crate::summary::Summary;
use std::hint::black_box;

/// The bytes of the largest table.
const BYTES: usize = 6 + 4 * 120;

/// A table to be expanded.
pub struct Table {
    pub name: &'static str,
    pub bytes: Vec<u8>,
}

/// What expands.
#[derive(Clone, Copy)]
pub enum Expander {
    Library,
    Rows,
}

impl Expander {
    pub fn named(name: &str) -> Option<Expander> {
        match name {
            "library" => Some(Expander::Library),
            "rows" => Some(Expander::Rows),
            _ => None,
        }
    }

    /// The number of the refusal, its node, and the count.
    fn expand(self, table: &[u8], out: &mut [u8]) -> (u8, usize, usize) {
        match self {
            Expander::Library => {
                let expansion = xistomar::raw::expand(table, out);
                let verdict = expansion.verdict;
                (verdict.number, verdict.node, expansion.count)
            }
            Expander::Rows => {
                let expansion = rows::expand(table, out);
                let verdict = expansion.verdict;
                (verdict.number, verdict.node, expansion.count)
            }
        }
    }

    /// Makes so many calls.
    pub fn call(self, table: &Table, calls: usize, out: &mut [u8]) {
        for _ in 0..calls {
            black_box(self.expand(black_box(&table.bytes), black_box(out)));
        }
    }
}

/// Small, medium and the largest tables, one that is refused with 13 after a deep nesting, and an older one that is copied.
pub fn all() -> Vec<Table> {
    vec![
        implies_next(),
        waits(2, "goto-2"),
        flush(),
        repeats(0x80, "repeat-0-8"),
        waits(13, "goto-13"),
        untils(),
        nested(),
        base_nodes(3, "base-120"),
        base_nodes(2, "copied-120"),
    ]
}

/// A table with a name, of the nodes' own version or of a later one.
fn table(name: &'static str, nodes: &Nodes, version: u8) -> Table {
    let mut bytes = nodes.table();
    bytes[3] = bytes[3].max(version);
    Table { name, bytes }
}

/// `a |=> strong(b)`.
fn implies_next() -> Table {
    let mut t = Nodes::default();
    let (a, b) = (t.signal(0), t.signal(1));
    let (left, right) = (t.letter(a), t.letter(b));
    let held = t.strong(right);
    t.implies_next(left, held);
    table("implies-next", &t, 3)
}

/// `strong(a[->m])`.
fn waits(m: u8, name: &'static str) -> Table {
    let mut t = Nodes::default();
    let a = t.signal(0);
    let goto = t.goto(a, m);
    t.strong(goto);
    table(name, &t, 3)
}

/// `@(c) always (a ##[1:3] b |=> strong(c[->2] ##1 a[*2:3]))`, an assertion as a lab writes it.
fn flush() -> Table {
    let mut t = Nodes::default();
    let (a, b, c) = (t.signal(0), t.signal(1), t.signal(2));
    let (first, second) = (t.letter(a), t.letter(b));
    let left = t.delay(first, second, 1, 3);
    let goto = t.goto(c, 2);
    let letter = t.letter(a);
    let times = t.times(letter, 2, 3);
    let both = t.then(goto, times);
    let held = t.strong(both);
    let implied = t.implies_next(left, held);
    let always = t.always(implied);
    t.clocked(c, always);
    table("always-flush", &t, 3)
}

/// `strong(a[*m:n])` by its fourth byte.
fn repeats(fourth: u8, name: &'static str) -> Table {
    let mut t = Nodes::default();
    let a = t.signal(0);
    let letter = t.letter(a);
    let times = t.times(letter, fourth & 15, fourth >> 4);
    t.strong(times);
    table(name, &t, 3)
}

/// `strong(a) s_until (strong(a) s_until ..)`: the right side stands twice at each.
fn untils() -> Table {
    let mut t = Nodes::default();
    let a = t.signal(0);
    let letter = t.letter(a);
    let mut right = t.strong(letter);
    for _ in 0..3 {
        let letter = t.letter(a);
        let left = t.strong(letter);
        right = t.strong_until(left, right);
    }
    table("s-untils", &t, 3)
}

/// Nested `[*15:15]`, as many as a table has room for: 13, whatever the size.
fn nested() -> Table {
    let mut t = Nodes::default();
    let a = t.signal(0);
    let mut top = t.letter(a);
    for _ in 0..118 {
        top = t.times(top, 15, 15);
    }
    table("refused-13", &t, 3)
}

/// A chain of `##1` of 120 nodes with no derived node: in version 3 written anew, in version 2 copied.
fn base_nodes(version: u8, name: &'static str) -> Table {
    let mut t = Nodes::default();
    let a = t.signal(0);
    t.signal(1);
    let mut top = t.letter(a);
    for _ in 0..58 {
        let letter = t.letter(a);
        top = t.then(top, letter);
    }
    t.strong(top);
    table(name, &t, version)
}

/// That both give the same answer and bytes, and the naive program too.
pub fn agree(table: &Table) -> Result<(), String> {
    let expanded = |expander: Expander| {
        let mut out = vec![0xaa; BYTES];
        (expander.expand(&table.bytes, &mut out), out)
    };
    let (library, rows) = (expanded(Expander::Library), expanded(Expander::Rows));
    let mut out = vec![0xaa; BYTES];
    let naive = second::expand(&table.bytes, &mut out);
    let naive = (naive.verdict.number, naive.verdict.node, naive.count);
    if library != rows || library != (naive, out) {
        return Err(format!("{}: the expanders differ", table.name));
    }
    Ok(())
}

/// The count of the table that is written; 0 for a refusal.
fn written(table: &Table) -> usize {
    xistomar::raw::expand(&table.bytes, &mut [0; BYTES]).count
}

/// Measures both on every table.
pub fn report(effort: Effort) {
    println!("\nExpanding; `nodes` is the count of the table, `written` that of its expansion");
    println!(
        "{:14} {:>5} {:>7} {:>9} {:>9} {:>13}",
        "case", "nodes", "written", "library", "rows", "library/rows"
    );
    let mut summary = Summary::default();
    for table in all() {
        let turns = [Expander::Library, Expander::Rows].map(|expander| {
            let mut out = vec![0; BYTES];
            let table = &table;
            Turns {
                call: Box::new(move |calls| expander.call(table, calls, &mut out)),
                least: 1,
                is_slow: false,
            }
        });
        let [library, rows] = medians(turns, effort);
        summary.add(table.name, library / rows);
        println!(
            "{:14} {:>5} {:>7} {:>9.0} {:>9.0} {:>13.2}",
            table.name,
            table.bytes[5],
            written(&table),
            library,
            rows,
            library / rows
        );
    }
    println!("{}", summary.line("library/rows"));
}
