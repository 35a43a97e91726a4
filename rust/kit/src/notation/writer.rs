//! Writing an assertion, with no more parentheses than the notation needs or a reader wants.
mod derived;

use super::levels::{
    AND, BOTH, CLOCK, DELAY, EITHER, IMPLIES, NEGATION, OR, PREFIX, PRIMARY, REPETITION, UNTIL,
};
use crate::assertion::{Assertion, Node, Operator, Sort};
use crate::names::Names;

/// A shared boolean whose text is longer than this gets a name in a line with `let`. Written out at
/// each place, booleans that share and share again would have a text without end.
const LONG: usize = 60;

/// A shared boolean whose text is longer than this is cut in a phrase.
const VERY_LONG: usize = 400;

/// The characters of a line, where it can be broken.
const WIDTH: usize = 100;

/// The text of a node, and how tightly its outermost operator binds.
#[derive(Clone, Default)]
struct Written {
    text: String,
    level: u8,
}

/// The text of an assertion in the kit's order.
pub fn text(assertion: &Assertion, names: &Names) -> String {
    let mut lines = String::new();
    let signals = signals(assertion, names);
    if !signals.is_empty() {
        lines = wrapped(&format!("signals {}", signals.join(" ")), "signals ");
    }
    let mut count = 0;
    let mut define = |text: &str| {
        count += 1;
        let name = names.free(format!("b{count}"));
        lines.push_str(&format!("let {name} = {text}\n"));
        name
    };
    let nodes = assertion.nodes();
    let whole = written(nodes, names, LONG, &mut define);
    if !lines.is_empty() {
        lines.push('\n');
    }
    lines + &wrapped(&whole, "    ")
}

/// One node with all below it, in one line.
pub fn phrase(assertion: &Assertion, index: usize, names: &Names) -> String {
    let nodes = assertion.nodes().get(..=index).unwrap_or_default();
    written(nodes, names, VERY_LONG, &mut |_| "..".to_string())
}

/// All of an assertion in one line, if nothing in it is cut.
pub fn whole(assertion: &Assertion, names: &Names) -> Option<String> {
    let mut cut = false;
    let text = written(assertion.nodes(), names, VERY_LONG, &mut |_| {
        cut = true;
        String::new()
    });
    (!cut).then_some(text)
}

/// The declarations: all names in their order, then the signals that are used and have none.
fn signals(assertion: &Assertion, names: &Names) -> Vec<String> {
    let declared = names.all().iter();
    let mut signals: Vec<String> = declared
        .map(|(name, number)| format!("{name}={number}"))
        .collect();
    for number in assertion.signals() {
        if names.declared(number).is_none() {
            signals.push(format!("{}={number}", names.name(number)));
        }
    }
    signals
}

/// A text broken over lines at its blanks; `next` begins each line but the first.
fn wrapped(text: &str, next: &str) -> String {
    let (mut lines, mut width) = (String::new(), 0);
    for word in text.split(' ') {
        let characters = word.chars().count();
        if width == 0 {
            width = characters;
        } else if width + 1 + characters > WIDTH {
            lines.push('\n');
            lines.push_str(next);
            width = next.chars().count() + characters;
        } else {
            lines.push(' ');
            width += 1 + characters;
        }
        lines.push_str(word);
    }
    lines.push('\n');
    lines
}

/// The text of the last node. Every operand stands below its node, so the texts are made from the
/// lowest up. `shorten` gives the name for a shared boolean whose text is longer than `long`.
fn written(
    nodes: &[Node],
    names: &Names,
    long: usize,
    shorten: &mut dyn FnMut(&str) -> String,
) -> String {
    let mut places = vec![0usize; nodes.len()];
    for operand in nodes.iter().flat_map(|node| node.operands()) {
        if let Some(count) = places.get_mut(operand) {
            *count += 1;
        }
    }
    let mut texts = Texts(Vec::with_capacity(nodes.len()));
    for (node, places) in nodes.iter().zip(places) {
        let mut written = texts.of(*node, nodes, names);
        let boolean = node.operator.sort() == Sort::Boolean && written.level < PRIMARY;
        if boolean && places > 1 && written.text.len() > long {
            written = primary(shorten(&written.text));
        }
        texts.0.push(written);
    }
    texts.0.pop().unwrap_or_default().text
}

/// The texts of the nodes written so far.
struct Texts(Vec<Written>);

impl Texts {
    /// The text of the next node.
    fn of(&self, node: Node, nodes: &[Node], names: &Names) -> Written {
        let first = |least| self.operand(node.x, least);
        match node.operator {
            Operator::Constant => primary(node.x.to_string()),
            Operator::Signal => primary(names.name(node.x)),
            Operator::Rose => primary(format!("rose({})", names.name(node.x))),
            Operator::Fell => primary(format!("fell({})", names.name(node.x))),
            Operator::Letter => self.0.get(usize::from(node.x)).cloned().unwrap_or_default(),
            Operator::Strong => primary(format!("strong({})", first(CLOCK))),
            Operator::Weak => primary(format!("weak({})", first(CLOCK))),
            Operator::Not => at(NEGATION, format!("!{}", first(NEGATION))),
            Operator::Empty => at(REPETITION, format!("{}[*0]", first(REPETITION))),
            Operator::Repeated => at(REPETITION, format!("{}[*1:$]", first(REPETITION))),
            Operator::PropertyNot => at(PREFIX, format!("not {}", first(PREFIX))),
            Operator::Nexttime => at(PREFIX, format!("nexttime {}", first(PREFIX))),
            Operator::ClockedSequence | Operator::ClockedProperty => at(
                CLOCK,
                format!("@({}) {}", first(CLOCK), self.reached(node.y, nodes)),
            ),
            Operator::And => self.joined(node, "&", BOTH, [BOTH, BOTH + 1]),
            Operator::Or => self.joined(node, "|", EITHER, [EITHER, EITHER + 1]),
            Operator::Then => self.joined(node, "##1", DELAY, [DELAY, DELAY + 1]),
            Operator::Fused => self.joined(node, "##0", DELAY, [DELAY, DELAY + 1]),
            Operator::Either => self.joined(node, "or", OR, [OR, OR + 1]),
            Operator::PropertyOr => {
                self.joined(node, "or", OR, [self.left(node, nodes, OR), OR + 1])
            }
            Operator::PropertyAnd => {
                self.joined(node, "and", AND, [self.left(node, nodes, AND), AND + 1])
            }
            Operator::Until => self.until(node, "until"),
            Operator::Implies => self.implication(node, "|->"),
            _ => self.derived(node, nodes),
        }
    }

    /// `P and Q until S` and `not P until Q` are easily misread.
    fn until(&self, node: Node, word: &str) -> Written {
        self.joined(node, word, UNTIL, [PRIMARY, PREFIX])
    }

    /// `R |-> P until Q` is easily misread.
    fn implication(&self, node: Node, sign: &str) -> Written {
        let right = match self.0.get(usize::from(node.y)) {
            Some(right) if right.level == IMPLIES => IMPLIES,
            _ => OR,
        };
        self.joined(node, sign, IMPLIES, [DELAY, right])
    }

    /// The level due on the left of `and` and `or`. `nexttime P and Q` is easily misread.
    fn left(&self, node: Node, nodes: &[Node], level: u8) -> u8 {
        let next = [Operator::Nexttime, Operator::StrongNexttime];
        match nodes.get(usize::from(node.x)) {
            Some(left) if next.contains(&left.operator) => PRIMARY,
            _ => level,
        }
    }

    /// What a clock, always or s_eventually reaches: `@(c) P until Q` is easily misread, and
    /// `@(c) always P` is not.
    fn reached(&self, index: u8, nodes: &[Node]) -> String {
        let index_of = usize::from(index);
        let operator = nodes.get(index_of).map(|node| node.operator);
        let least = match self.0.get(index_of) {
            _ if matches!(operator, Some(Operator::Always | Operator::Eventually)) => CLOCK,
            Some(operand) if operand.level == PREFIX => PREFIX,
            _ => NEGATION,
        };
        self.operand(index, least)
    }

    fn joined(&self, node: Node, sign: &str, level: u8, least: [u8; 2]) -> Written {
        let [left, right] = least;
        let [left, right] = [self.operand(node.x, left), self.operand(node.y, right)];
        at(level, format!("{left} {sign} {right}"))
    }

    /// An operand's text, in parentheses where it binds less tightly than is due.
    fn operand(&self, index: u8, least: u8) -> String {
        let Written { text, level } = self.0.get(usize::from(index)).cloned().unwrap_or_default();
        match level < least {
            true => format!("({text})"),
            false => text,
        }
    }
}

fn primary(text: String) -> Written {
    at(PRIMARY, text)
}

fn at(level: u8, text: String) -> Written {
    Written { text, level }
}
