//! Rewriting clocks away. A table with no clock whose booleans stand first is its own rewriting; any other takes a pass from the root down for clocks and counts, and
//! two up, which number the nodes and write their blocks.
use crate::answers::{Rewriting, Verdict};
use crate::blocks;
use crate::check::{checked, Table, HEADING, MOST};
use crate::expand::in_base_operators;
use crate::operators::*;

/// A clock as a byte: the number of its condition, or this one, which no node has.
const UNCLOCKED: u8 = 255;

/// The clock of each node, and the new node that stands for it.
struct Plan {
    clocks: [u8; 256],
    numbers: [u8; 256],
}

/// The plan of a table that is its own rewriting.
static SAME: Plan = Plan {
    clocks: [UNCLOCKED; 256],
    numbers: own_numbers(),
};

const fn own_numbers() -> [u8; 256] {
    let mut numbers = [0; 256];
    let mut k = 0;
    while k < 256 {
        numbers[k] = k as u8;
        k += 1;
    }
    numbers
}

/// Where a rewriting that is not the table itself is kept.
#[derive(Default)]
pub struct Room {
    plan: Option<Plan>,
    nodes: Option<[[u8; 4]; MOST]>,
}

/// The nodes of the new table, and how they were made.
#[derive(Clone, Copy)]
pub struct Rewritten<'a> {
    pub nodes: &'a [[u8; 4]],
    plan: &'a Plan,
}

impl<'a> Rewritten<'a> {
    /// The rewriting of a table in base operators, or refusal 13.
    pub fn of(table: &Table<'a>, room: &'a mut Room) -> Result<Self, Verdict> {
        let old = table.nodes;
        if table.has_booleans_first && !table.is_clocked {
            return Ok(Self {
                nodes: old,
                plan: &SAME,
            });
        }
        let plan = room.plan.insert(Plan {
            clocks: [UNCLOCKED; 256],
            numbers: [0; 256],
        });
        let [booleans, all] = plan.set_clocks(old);
        if all > MOST {
            return Err(Verdict::refusal(13));
        }
        let nodes = &mut room.nodes.insert([[0; 4]; MOST])[..all];
        plan.write_booleans(old, nodes);
        plan.write_others(old, booleans, nodes);
        Ok(Self { nodes, plan })
    }

    /// The condition of the old node's clock, if it has one.
    pub fn clock(&self, node: usize) -> Option<u8> {
        let clock = self.plan.clocks[node];
        (clock != UNCLOCKED).then_some(clock)
    }

    /// The new node that stands for the old one.
    pub fn number(&self, node: u8) -> u8 {
        self.plan.numbers[usize::from(node)]
    }
}

/// Refusals 1 to 9, 13 and 15; with none, the rewritten table in the first bytes of `out`.
pub fn rewrite(table: &[u8], out: &mut [u8]) -> Rewriting {
    match rewritten(table, out) {
        Ok(count) => Rewriting {
            count,
            ..Rewriting::default()
        },
        Err(verdict) => Rewriting { verdict, count: 0 },
    }
}

/// The new table is of the same version, an expanded one of version 2.
fn rewritten(table: &[u8], out: &mut [u8]) -> Result<usize, Verdict> {
    let (mut space, mut room) = (None, Room::default());
    let table = in_base_operators(checked(table)?, &mut space)?;
    let nodes = Rewritten::of(&table, &mut room)?.nodes;
    let Some(out) = out.get_mut(..HEADING + 4 * nodes.len()) else {
        return Err(Verdict::refusal(15));
    };
    let (heading, rest) = out.split_at_mut(HEADING);
    heading.copy_from_slice(&[b'S', b'V', b'T', table.version, 0, nodes.len() as u8]);
    rest.copy_from_slice(nodes.as_flattened());
    Ok(nodes.len())
}

impl Plan {
    /// Sets the clock of each node, which is that of the node above it, or its condition where that is a clock node; answers how many new nodes there are, of the
    /// booleans and of all.
    fn set_clocks(&mut self, nodes: &[[u8; 4]]) -> [usize; 2] {
        let (mut booleans, mut all) = (0, 0);
        for (k, &[op, x, y, _]) in nodes.iter().enumerate().rev() {
            let operator = OPERATORS[usize::from(op)];
            let own = self.clocks[k];
            let handed_down = if operator.block == 0 { x } else { own };
            if operator.x >= SEQUENCE {
                self.clocks[usize::from(x)] = handed_down;
            }
            if operator.y >= SEQUENCE {
                self.clocks[usize::from(y)] = handed_down;
            }
            booleans += usize::from(operator.own == BOOLEAN);
            all += length(own, operator.block);
        }
        [booleans, all]
    }

    /// The booleans come first, since a clock's condition may stand after a node under it.
    fn write_booleans(&mut self, nodes: &[[u8; 4]], out: &mut [[u8; 4]]) {
        let mut next = 0;
        for (k, &node) in nodes.iter().enumerate() {
            let operator = OPERATORS[usize::from(node[0])];
            if operator.own == BOOLEAN {
                out[next] = self.moved(operator, node);
                self.numbers[k] = next as u8;
                next += 1;
            }
        }
    }

    /// Writes the other nodes, from the new number `next` on. A clock node has no block: its operand stands for it.
    fn write_others(&mut self, nodes: &[[u8; 4]], mut next: usize, out: &mut [[u8; 4]]) {
        for (k, &node) in nodes.iter().enumerate() {
            let operator = OPERATORS[usize::from(node[0])];
            if operator.own == BOOLEAN {
                continue;
            }
            let node = self.moved(operator, node);
            if operator.block == 0 {
                self.numbers[k] = node[2];
                continue;
            }
            match self.clocks[k] {
                UNCLOCKED => {
                    out[next] = node;
                    next += 1;
                }
                clock => {
                    let c = self.numbers[usize::from(clock)];
                    next += write_block(&mut out[next..], next as u8, c, node);
                }
            }
            self.numbers[k] = next as u8 - 1;
        }
    }

    /// The node with the new numbers of its operands.
    fn moved(&self, operator: Operator, [op, x, y, _]: [u8; 4]) -> [u8; 4] {
        let byte = |sort, v| match sort {
            NONE => v,
            _ => self.numbers[usize::from(v)],
        };
        [op, byte(operator.x, x), byte(operator.y, y), 0]
    }
}

/// The length of a block: the operator's under a clock, and one node with none; a clock node has no block.
fn length(clock: u8, block: u8) -> usize {
    usize::from(if clock == UNCLOCKED {
        block.min(1)
    } else {
        block
    })
}

/// Writes the block of a node under the clock c, whose first number is `at`, and answers its length.
fn write_block(out: &mut [[u8; 4]], at: u8, c: u8, node: [u8; 4]) -> usize {
    let [op, x, y, _] = node;
    match op {
        LETTER => put(out, &blocks::letter(at, c, x)),
        NEXTTIME => put(out, &blocks::nexttime(at, c, x)),
        UNTIL => put(out, &blocks::until(at, c, x, y)),
        _ => put(out, &[node]),
    }
}

fn put(out: &mut [[u8; 4]], block: &[[u8; 4]]) -> usize {
    out[..block.len()].copy_from_slice(block);
    block.len()
}
