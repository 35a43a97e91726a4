//! What to write for forms with numbers that are not part of the notation, with the numbers that were given.
//! The definitions are those of source 000, F.2.3. What is written grows evenly with each number.
use super::forms::filled;
use super::spans::{apart, between, times, SHORT};
use super::Hint::{self, Made, Told, Turned, Vast};
use crate::assertion::Operator;
use crate::notation::counts::{self, MOST};

/// What is written for a form, or that it is too large. `own` has the numbers as they were given; where they
/// stand backwards, they are turned round.
pub fn forwards(own: String, m: u8, n: u8, made: impl Fn(u8, u8) -> (String, String)) -> Hint {
    let (form, instead) = made(m.min(n), m.max(n));
    match m > n {
        _ if !fits(&instead) => Vast(own),
        true => Turned(counts::backwards(m, n), form, instead),
        false => Made(own, instead),
    }
}

/// A hint for numbers that are part of the notation when they are smaller.
fn limited(hint: Hint) -> Hint {
    match hint {
        Made(form, instead) => Turned(format!("numbers go to {MOST} at most"), form, instead),
        other => other,
    }
}

/// What is written for a form, or that it is too large.
pub fn fitting(own: String, instead: String) -> Hint {
    match fits(&instead) {
        true => Made(own, instead),
        false => Vast(own),
    }
}

/// Whether a form is written out to 120 nodes at most, with the smallest parts in it.
pub fn fits(form: &str) -> bool {
    let small = [('P', "strong(b)"), ('R', "b"), ('S', "b")];
    let small = small.map(|(letter, text)| (letter, text.to_string()));
    let whole = match form.contains('P') {
        true => filled(form, &small),
        false => format!("strong({})", filled(form, &small)),
    };
    let read = crate::notation::read(&format!("signals b\n{whole}"));
    let table = read.map(|read| read.assertion.table());
    // any other refusal is not for its size
    table.is_ok_and(|table| match xistomar::expanded(&table) {
        Err(refusal) => refusal.number() != 13,
        Ok(_) => true,
    })
}

/// The hint for a repetition, by what stands between `[` and `]` without blanks.
pub fn repetition(inside: &str) -> Option<Hint> {
    let (operator, numbers) = counts::split(inside)?;
    let (m, n) = counts::pair(numbers)?;
    if operator == Operator::Times {
        let own = format!("R[{inside}]");
        let made = |m, n| (format!("R[*{m}:{n}]"), repeats(m, n));
        return Some(match n {
            Some(n) => limited(forwards(own, m, n, made)),
            None => fitting(own, repeated(m)),
        });
    }
    let own = format!("b[{inside}]");
    let goto = operator == Operator::Goto;
    Some(match n {
        // 16 groups are 128 nodes
        _ if m.max(n.unwrap_or(0)) > MOST => Vast(own),
        Some(n) if goto => forwards(own, m, n, |m, n| (format!("b[->{m}:{n}]"), waits(m, n))),
        Some(n) => forwards(own, m, n, |m, n| (format!("b[={m}:{n}]"), counted(m, n))),
        None if goto => fitting(own, waited(m)),
        None => fitting(own, among(m)),
    })
}

/// `R[*m:n]` with a number above 15.
fn repeats(m: u8, n: u8) -> String {
    match m == n {
        true => format!("({})", times("R", n)),
        false => format!("({})", between("R", m, n)),
    }
}

/// `R[*m:$]`.
fn repeated(m: u8) -> String {
    match m {
        0 => "(R[*0] or R[*1:$])".to_string(),
        1 => "R[*1:$]".to_string(),
        _ => format!("({} ##1 R[*1:$])", times("R", m - 1)),
    }
}

/// Samples up to the next that satisfies b, as few nodes as they can be.
const NEXT: &str = "((!b)[*0] or (!b)[*1:$]) ##1 b";

/// `b[->m:n]`: b m times, and up to n - m times more.
fn waits(m: u8, n: u8) -> String {
    match (m, n.saturating_sub(m)) {
        (m, 0) => format!("b[->{m}]"),
        (0, more) => format!("({})", up_to(more)),
        (m, more) => format!("(b[->{m}] ##1 {})", up_to(more)),
    }
}

/// `b[=m:n]`: that, and then samples without b.
fn counted(m: u8, n: u8) -> String {
    match (m, n.saturating_sub(m)) {
        (m, 0) => format!("b[={m}]"),
        (0, more) => format!("({} ##1 b[=0])", up_to(more)),
        (m, more) => format!("(b[->{m}] ##1 {} ##1 b[=0])", up_to(more)),
    }
}

/// b up to so many times, each with the samples before it.
fn up_to(number: u8) -> String {
    times(&format!("(b[*0] or {NEXT})"), number)
}

/// `b[->m:$]`.
fn waited(m: u8) -> String {
    match m {
        0 => "(b[*0] or b[->1][*1:$])".to_string(),
        1 => "b[->1][*1:$]".to_string(),
        _ => format!("(b[->{}] ##1 b[->1][*1:$])", m - 1),
    }
}

/// `b[=m:$]`: that, and then samples without b.
fn among(m: u8) -> String {
    match m {
        0 | 1 => format!("({} ##1 b[=0])", waited(m)),
        _ => format!("(b[->{}] ##1 b[->1][*1:$] ##1 b[=0])", m - 1),
    }
}

/// The first number of a delay without an end, by what follows `##` without blanks.
fn without_end(after: &str) -> Option<u8> {
    match after {
        "[+]" => Some(1),
        "[*]" | "[*0:$]" => Some(0),
        _ => match counts::pair(brackets(after)?)? {
            (m, None) => Some(m),
            _ => None,
        },
    }
}

fn brackets(after: &str) -> Option<&str> {
    after.strip_prefix('[')?.strip_suffix(']')
}

/// The hint for a delay, by what follows `##` without blanks.
pub fn delay(after: &str) -> Option<Hint> {
    let own = format!("R ##{after} S");
    let later = "(R ##1 (1[*0] or 1[*1:$]) ##1 S)";
    let instead = match without_end(after) {
        Some(0) => format!("((R ##0 S) or {later})"),
        Some(1) => later.to_string(),
        Some(m) => format!("(R {} 1[*1:$] ##1 S)", apart(m - 1)),
        None => {
            let (m, n) = counts::pair(brackets(after).unwrap_or(after))?;
            let made = |m, n| (format!("R {} S", delayed(m, n)), joined(m, n));
            let hint = forwards(own, m, n?, made);
            return Some(match m > MOST || n > Some(MOST) {
                true => limited(hint),
                false => hint,
            });
        }
    };
    Some(fitting(own, instead))
}

/// `R ##m S`, or `R ##[m:n] S` with a number above 15.
fn joined(m: u8, n: u8) -> String {
    let gap = |m: u8| format!("(R ##1 {} ##1 S)", between("1", m - 1, n.saturating_sub(1)));
    match m {
        m if m == n => format!("R {} S", apart(m)),
        _ if n <= SHORT => format!("(R ##[{m}:{n}] S)"),
        0 => format!("((R ##0 S) or {})", gap(1)),
        m => gap(m),
    }
}

/// The hint for a delay with nothing before it, by what follows `##` without blanks.
pub fn leading_delay(after: &str) -> Option<Hint> {
    let own = format!("##{after} R");
    let instead = match without_end(after) {
        Some(0) => "(1[*0] or 1[*1:$]) ##1 R".to_string(),
        Some(1) => "1[*1:$] ##1 R".to_string(),
        Some(m) => format!("1 {} 1[*1:$] ##1 R", apart(m - 1)),
        None => {
            let (m, n) = counts::pair(brackets(after).unwrap_or(after))?;
            return Some(forwards(own, m, n?, |m, n| {
                (format!("{} R", delayed(m, n)), leading(m, n))
            }));
        }
    };
    Some(fitting(own, instead))
}

/// `##m R` or `##[m:n] R`.
fn leading(m: u8, n: u8) -> String {
    match (m, n) {
        (0, 0) => "R".to_string(),
        _ if m == n => format!("1 {} R", apart(m)),
        (1.., ..=SHORT) => format!("1 ##[{m}:{n}] R"),
        _ => format!("{} ##1 R", between("1", m, n)),
    }
}

fn delayed(m: u8, n: u8) -> String {
    match m == n {
        true => format!("##{m}"),
        false => format!("##[{m}:{n}]"),
    }
}

/// The hint for `$past(a, n)`: a boolean looks back one sample, and a sequence as many as it has.
pub fn past(signal: &str, number: &str) -> Option<Hint> {
    let (n, _) = counts::pair(number)?;
    let own = format!("$past({signal}, {number})");
    let back = format!("{signal} {} 1 |-> P", apart(n));
    Some(match n {
        0 => Made(own, signal.to_string()),
        _ if !fits(&format!("(b {} 1 |-> P)", apart(n))) => Vast(own),
        _ => Told(format!(
            "`{own}` looks back {n} samples, and a boolean looks back one: what begins {n} samples earlier says \
             it, as in `{back}`"
        )),
    })
}
