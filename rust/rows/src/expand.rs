//! Expanding derived operators: a pass up for the sizes, one for the booleans, and then the root written out, operands before their node.
use crate::answers::{Expansion, Verdict};
use crate::check::{checked, Table, HEADING, MOST};
use crate::operators::*;
use crate::sizes::{booleans, makes_boolean, sizes};

/// Refusals 1 to 9, 13 and 15; with none, the expanded table in the first bytes of `out`.
pub fn expand(table: &[u8], out: &mut [u8]) -> Expansion {
    match expanded(table, out) {
        Ok(count) => Expansion {
            count,
            ..Expansion::default()
        },
        Err(verdict) => Expansion { verdict, count: 0 },
    }
}

fn expanded(table: &[u8], out: &mut [u8]) -> Result<usize, Verdict> {
    let read = checked(table)?;
    let nodes = read.nodes;
    if read.version < 3 {
        room(out, nodes.len())?.copy_from_slice(table);
        return Ok(nodes.len());
    }
    let all = count(nodes)?;
    let (heading, rest) = room(out, all)?.split_at_mut(HEADING);
    heading.copy_from_slice(&[b'S', b'V', b'T', 2, 0, all as u8]);
    write_all(nodes, rest.as_chunks_mut().0);
    Ok(all)
}

/// Where the nodes of an expansion are kept, if there is one.
pub type Space = Option<[[u8; 4]; MOST]>;

/// A table in base operators: an older one as it is, one of version 3 expanded into the space, or refusal 13.
pub fn in_base_operators<'a>(table: Table<'a>, space: &'a mut Space) -> Result<Table<'a>, Verdict> {
    if table.version < 3 {
        return Ok(table);
    }
    let all = count(table.nodes)?;
    let nodes = &mut space.insert([[0; 4]; MOST])[..all];
    write_all(table.nodes, nodes);
    Ok(Table {
        version: 2,
        nodes,
        is_clocked: table.is_clocked,
        has_booleans_first: true,
    })
}

/// How many nodes the expansion has, or refusal 13.
fn count(nodes: &[[u8; 4]]) -> Result<usize, Verdict> {
    let all = booleans(nodes) + sizes(nodes)[nodes.len() - 1];
    match all > MOST {
        true => Err(Verdict::refusal(13)),
        false => Ok(all),
    }
}

/// Writes the expansion, which `out` has just the room for.
fn write_all(nodes: &[[u8; 4]], out: &mut [[u8; 4]]) {
    let mut writer = Writer {
        nodes,
        booleans: [0; 256],
        out,
        next: 0,
    };
    writer.write_booleans();
    writer.write(nodes.len() as u8 - 1);
}

/// The bytes of a table of so many nodes, or refusal 15.
fn room(out: &mut [u8], count: usize) -> Result<&mut [u8], Verdict> {
    out.get_mut(..HEADING + 4 * count)
        .ok_or(Verdict::refusal(15))
}

/// The new table, which has just the room for what is written.
struct Writer<'a> {
    nodes: &'a [[u8; 4]],
    /// The new number of a boolean, and of the boolean that a node's block makes.
    booleans: [u8; 256],
    out: &'a mut [[u8; 4]],
    next: usize,
}

/// What a repeat goes round: a node, a letter, or `!b[*0:$] ##1 b`, by the new numbers of booleans.
#[derive(Clone, Copy)]
enum Part {
    Node(u8),
    Letter(u8),
    Group(u8, u8),
}

impl Writer<'_> {
    /// Adds a node and answers its number.
    fn put(&mut self, op: u8, x: u8, y: u8) -> u8 {
        self.out[self.next] = [op, x, y, 0];
        self.next += 1;
        self.next as u8 - 1
    }

    /// The new number of a boolean.
    fn boolean(&self, b: u8) -> u8 {
        self.booleans[usize::from(b)]
    }

    fn write_booleans(&mut self) {
        for (k, &[op, x, y, fourth]) in self.nodes.iter().enumerate() {
            let operator = OPERATORS[usize::from(op)];
            self.booleans[k] = match op {
                _ if operator.own == BOOLEAN => {
                    let x = if operator.x == NONE {
                        x
                    } else {
                        self.boolean(x)
                    };
                    let y = if operator.y == NONE {
                        0
                    } else {
                        self.boolean(y)
                    };
                    self.put(op, x, y)
                }
                _ if !makes_boolean(op, fourth) => continue,
                GOTO | NONCONSECUTIVE => self.put(BOOLEAN_NOT, self.boolean(x), 0),
                ALWAYS | EVENTUALLY | STRONG_UNTIL => self.put(CONSTANT, 0, 0),
                _ => self.put(CONSTANT, 1, 0),
            };
        }
    }

    /// Writes a node of the table with all below it, and answers its number.
    fn write(&mut self, k: u8) -> u8 {
        let [op, x, y, fourth] = self.nodes[usize::from(k)];
        let (m, n) = (fourth & 15, fourth >> 4);
        let made = self.boolean(k);
        match op {
            TIMES => self.bounded(Part::Node(x), m, n),
            DELAY => self.delay(x, y, made, m, n),
            GOTO => self.times(Part::Group(made, self.boolean(x)), m),
            NONCONSECUTIVE => {
                let goto = self.times(Part::Group(made, self.boolean(x)), m);
                let waits = self.waits(made);
                self.put(THEN, goto, waits)
            }
            IMPLIES_NEXT | FOLLOWED | FOLLOWED_NEXT => self.implication(op, x, y, made),
            ALWAYS => {
                let p = self.write(x);
                self.always(p, made)
            }
            EVENTUALLY => self.eventually(x, made),
            STRONG_UNTIL => {
                let (p, q) = (self.write(x), self.write(y));
                let until = self.put(UNTIL, p, q);
                let eventually = self.eventually(y, made);
                self.put(AND, until, eventually)
            }
            STRONG_NEXTTIME => {
                let not = self.not(x);
                let next = self.put(NEXTTIME, not, 0);
                self.put(NOT, next, 0)
            }
            _ => self.base(op, x, y),
        }
    }

    /// A node of the base after its operands.
    fn base(&mut self, op: u8, x: u8, y: u8) -> u8 {
        let operator = OPERATORS[usize::from(op)];
        let x = match operator.x {
            BOOLEAN => self.boolean(x),
            _ => self.write(x),
        };
        let y = match operator.y {
            NONE => 0,
            _ => self.write(y),
        };
        self.put(op, x, y)
    }

    /// `[*m:n]`.
    fn bounded(&mut self, part: Part, m: u8, n: u8) -> u8 {
        let mut all = self.times(part, m);
        for k in m + 1..=n {
            let more = self.times(part, k);
            all = self.put(EITHER, all, more);
        }
        all
    }

    /// `[*k]`.
    fn times(&mut self, part: Part, k: u8) -> u8 {
        let first = self.part(part);
        let mut all = self.put(EMPTY, first, 0);
        for _ in 0..k {
            let more = self.part(part);
            all = self.put(THEN, all, more);
        }
        all
    }

    fn part(&mut self, part: Part) -> u8 {
        match part {
            Part::Node(k) => self.write(k),
            Part::Letter(b) => self.put(LETTER, b, 0),
            Part::Group(not_b, b) => {
                let waits = self.waits(not_b);
                let letter = self.put(LETTER, b, 0);
                self.put(THEN, waits, letter)
            }
        }
    }

    /// `b[*0:$]`.
    fn waits(&mut self, b: u8) -> u8 {
        let letter = self.put(LETTER, b, 0);
        let none = self.put(EMPTY, letter, 0);
        let letter = self.put(LETTER, b, 0);
        let some = self.put(REPEAT, letter, 0);
        self.put(EITHER, none, some)
    }

    /// `##[m:n]`.
    fn delay(&mut self, x: u8, y: u8, one: u8, m: u8, n: u8) -> u8 {
        if m == 0 {
            let (r, s) = (self.write(x), self.write(y));
            let at_once = self.put(FUSED, r, s);
            if n == 0 {
                return at_once;
            }
            let later = self.delay(x, y, one, 1, n);
            return self.put(EITHER, at_once, later);
        }
        let r = self.write(x);
        let gap = self.bounded(Part::Letter(one), m - 1, n - 1);
        let waited = self.put(THEN, r, gap);
        let s = self.write(y);
        self.put(THEN, waited, s)
    }

    /// `|=>`, `#-#` and `#=#`.
    fn implication(&mut self, op: u8, x: u8, y: u8, one: u8) -> u8 {
        let mut r = self.write(x);
        if op != FOLLOWED {
            let letter = self.put(LETTER, one, 0);
            r = self.put(THEN, r, letter);
        }
        if op == IMPLIES_NEXT {
            let p = self.write(y);
            return self.put(IMPLIES, r, p);
        }
        let not = self.not(y);
        let implies = self.put(IMPLIES, r, not);
        self.put(NOT, implies, 0)
    }

    fn not(&mut self, p: u8) -> u8 {
        let p = self.write(p);
        self.put(NOT, p, 0)
    }

    /// P until weak(0), with P written already.
    fn always(&mut self, p: u8, zero: u8) -> u8 {
        let letter = self.put(LETTER, zero, 0);
        let never = self.put(WEAK, letter, 0);
        self.put(UNTIL, p, never)
    }

    fn eventually(&mut self, p: u8, zero: u8) -> u8 {
        let not = self.not(p);
        let always = self.always(not, zero);
        self.put(NOT, always, 0)
    }
}
