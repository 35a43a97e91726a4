//! What the cases of a run were, so that it is seen that they were not all alike.
use crate::run::USUAL;
use second::{Answer, Case};
use std::fmt;

const KINDS: [&str; 8] = [
    "check", "read", "rewrite", "judge", "plain", "ends", "program", "expand",
];
const READ: usize = 1;
const JUDGE: usize = 3;
const PLAIN: usize = 4;
const EXPAND: usize = 7;
const TESTED: [&str; 2] = ["no", "yes"];

/// What accepted tables are told apart by: their version, and whether some node asks if a signal has risen or has fallen.
const TABLES: [&str; 5] = ["version 1", "version 2", "version 3", "risen", "fallen"];

/// The operators that are expanded.
const DERIVED: [u8; 11] = [23, 24, 25, 26, 41, 42, 43, 44, 45, 46, 47];

/// The operators that decide whether a record tests a table that has them, with their names.
const DECIDING: [(&str, u8); 4] = [
    ("|->", 37),
    ("nexttime", 38),
    ("until", 39),
    ("a clock", 40),
];

/// The refusals that each kind can give: a run of the usual size has each of them, some about 50 times.
const REFUSALS: [&[usize]; 8] = [
    &[1, 2, 3, 4, 5, 6, 7, 8, 9],
    &[1, 2, 3, 5, 10, 15],
    &[1, 2, 3, 4, 5, 6, 7, 8, 9, 13, 15],
    &[1, 2, 3, 4, 5, 6, 7, 8, 9, 10, 11, 12, 13],
    &[1, 2, 3, 4, 5, 6, 7, 8, 9, 10, 12, 13],
    &[1, 2, 3, 4, 5, 6, 7, 8, 9, 10, 11, 12, 13, 14],
    &[1, 2, 3, 4, 5, 6, 7, 8, 9, 10, 12, 13],
    &[1, 2, 3, 4, 5, 6, 7, 8, 9, 13, 15],
];

/// How many answers there were by kind and number, where 0 is an acceptance, and how many of the accepted had a table of each of TABLES. Of those expanded, how many had each of DERIVED. Of those judged, by either judge, how many had each level, how many were tested, and how many of each with each of DECIDING. Of those that the plain judge accepted and whose rewriting has too many nodes for the other, how many had each level and how many were tested.
#[derive(Clone, Debug, Default, PartialEq, Eq)]
pub struct Summary {
    numbers: [[u64; 16]; 8],
    tables: [[u64; 5]; 8],
    derived: [u64; 11],
    levels: [u64; 4],
    tested: [u64; 2],
    decided: [[u64; 2]; 4],
    past_levels: [u64; 4],
    past_tested: [u64; 2],
}

/// What an answer says: the number of its refusal or 0, and the level and tested where it has them.
struct Told {
    kind: usize,
    number: usize,
    judged: Option<(usize, bool)>,
}

impl Summary {
    /// Counts one case with its answer.
    pub fn count(&mut self, case: &Case, answer: &Answer) {
        let told = Told::by(answer);
        self.numbers[told.kind][told.number] += 1;
        if told.number == 0 {
            sum(&mut self.tables[told.kind], &table_counts(case));
        }
        if told.kind == EXPAND && told.number == 0 {
            let table = table(case);
            sum(
                &mut self.derived,
                &DERIVED.map(|it| u64::from(has(table, it))),
            );
        }
        if let Some((level, tested)) = told.judged {
            self.levels[level] += 1;
            self.tested[usize::from(tested)] += 1;
            if told.kind == PLAIN && is_past_13(table(case)) {
                self.past_levels[level] += 1;
                self.past_tested[usize::from(tested)] += 1;
            }
            for (decided, (_, operator)) in self.decided.iter_mut().zip(DECIDING) {
                decided[usize::from(tested)] += u64::from(has(table(case), operator));
            }
        }
    }

    /// Adds what another thread counted.
    pub fn add(&mut self, other: &Summary) {
        sum(
            self.numbers.as_flattened_mut(),
            other.numbers.as_flattened(),
        );
        sum(self.tables.as_flattened_mut(), other.tables.as_flattened());
        sum(&mut self.derived, &other.derived);
        sum(&mut self.levels, &other.levels);
        sum(&mut self.tested, &other.tested);
        sum(
            self.decided.as_flattened_mut(),
            other.decided.as_flattened(),
        );
        sum(&mut self.past_levels, &other.past_levels);
        sum(&mut self.past_tested, &other.past_tested);
    }

    /// How many cases were counted.
    pub fn cases(&self) -> u64 {
        self.numbers.as_flattened().iter().sum()
    }

    /// How many answers of a kind refused.
    fn refused(&self, kind: usize) -> u64 {
        self.numbers[kind][1..].iter().sum()
    }

    /// What a run of so many cases should have had more of. A share below one case is not asked for,
    /// so that a single case can be run again.
    pub fn lacking(&self, cases: u64) -> Vec<String> {
        let mut lacking = Vec::new();
        let mut ask = |what: String, had: u64, share: u64| {
            if had < share {
                lacking.push(format!("{had} {what}, not {share} or more"));
            }
        };
        ask("cases".into(), self.cases(), cases);
        for (kind, name) in KINDS.iter().enumerate() {
            let had = &self.numbers[kind];
            ask(format!("{name} accepted"), had[0], cases / 500);
            ask(format!("{name} refused"), self.refused(kind), cases / 500);
            if kind != READ {
                for (table, had) in TABLES.iter().zip(self.tables[kind]) {
                    ask(format!("{name} accepted, {table}"), had, cases / 500);
                }
            }
            for &number in REFUSALS[kind] {
                ask(
                    format!("{name} refused {number}"),
                    had[number],
                    cases / USUAL,
                );
            }
        }
        for (number, had) in of_any_kind(&self.numbers).iter().enumerate().skip(1) {
            ask(format!("refused {number}"), *had, cases / 4000);
        }
        for (operator, had) in DERIVED.iter().zip(self.derived) {
            ask(format!("expanded {operator}"), had, cases / 1000);
        }
        for (level, had) in self.levels.iter().enumerate() {
            ask(format!("level {level}"), *had, cases / 500);
        }
        for (tested, had) in TESTED.iter().zip(self.tested) {
            ask(format!("tested {tested}"), had, cases / 500);
        }
        for ((name, _), decided) in DECIDING.iter().zip(self.decided) {
            for (tested, had) in TESTED.iter().zip(decided) {
                ask(format!("with {name}, tested {tested}"), had, cases / 500);
            }
        }
        for (level, had) in self.past_levels.iter().enumerate() {
            ask(format!("past 13, level {level}"), *had, cases / 500);
        }
        for (tested, had) in TESTED.iter().zip(self.past_tested) {
            ask(format!("past 13, tested {tested}"), had, cases / 500);
        }
        lacking
    }
}

/// 1 for each of TABLES that holds of the table of an accepted case, else 0.
fn table_counts(case: &Case) -> [u64; 5] {
    let table = table(case);
    let version = |asked: u8| table.get(3) == Some(&asked);
    let changes = [has(table, 5), has(table, 6)];
    [version(1), version(2), version(3), changes[0], changes[1]].map(u64::from)
}

/// The table of an accepted case; a record has none.
fn table(case: &Case) -> &[u8] {
    match case {
        Case::Read { .. } => &[],
        Case::Check { table } | Case::Rewrite { table, .. } => table,
        Case::Expand { table, .. } => table,
        Case::Judge { table, .. } | Case::Plain { table, .. } => table,
        Case::Ends { table, .. } => table,
        Case::Program { input } => &input[..6 + 4 * usize::from(input[5])],
    }
}

/// Whether an accepted table's rewriting has too many nodes, by `second`.
fn is_past_13(table: &[u8]) -> bool {
    second::rewrite(table, &mut [0; 486]).verdict.number == 13
}

/// Whether some node of a table has an operator.
fn has(table: &[u8], operator: u8) -> bool {
    let mut operators = table.iter().skip(6).step_by(4);
    operators.any(|&of_node| of_node == operator)
}

/// The counts of all kinds together.
fn of_any_kind<const N: usize>(by_kind: &[[u64; N]; 8]) -> [u64; N] {
    let mut all = [0; N];
    for of_kind in by_kind {
        sum(&mut all, of_kind);
    }
    all
}

fn sum(counts: &mut [u64], more: &[u64]) {
    for (count, more) in counts.iter_mut().zip(more) {
        *count += more;
    }
}

impl Told {
    fn by(answer: &Answer) -> Told {
        let (kind, verdict, judged) = match answer {
            Answer::Check(verdict) => (0, *verdict, None),
            Answer::Read(reading, _) => (READ, reading.verdict, None),
            Answer::Rewrite(rewriting, _) => (2, rewriting.verdict, None),
            Answer::Expand(expansion, _) => (EXPAND, expansion.verdict, None),
            Answer::Judge(judgement, _) => (JUDGE, judgement.verdict, Some(*judgement)),
            Answer::Plain(judgement) => (PLAIN, judgement.verdict, Some(*judgement)),
            Answer::Ends(ends, _) => (5, ends.verdict, None),
            Answer::Program(line) => return Told::by_line(line),
        };
        let judged = judged.filter(|_| verdict.number == 0);
        Told {
            kind,
            number: usize::from(verdict.number),
            judged: judged.map(|it| (usize::from(it.level), it.tested)),
        }
    }

    /// What the program's line says.
    fn by_line(line: &str) -> Told {
        let words: Vec<&str> = line.split_whitespace().collect();
        let number = |word: &str| word.parse().expect("the line has a number here");
        let (number, judged) = match words[..] {
            ["level", level, "tested", tested] => (0, Some((number(level), tested == "yes"))),
            ["refused", refusal, "at", _] => (number(refusal), None),
            _ => panic!("this is no line of the program: {line:?}"),
        };
        Told {
            kind: 6,
            number,
            judged,
        }
    }
}

impl fmt::Display for Summary {
    fn fmt(&self, f: &mut fmt::Formatter<'_>) -> fmt::Result {
        for (kind, name) in KINDS.iter().enumerate() {
            let (accepted, refused) = (self.numbers[kind][0], self.refused(kind));
            writeln!(f, "{name:8}{accepted:7} accepted{refused:7} refused")?;
        }
        let tables = list(TABLES.iter().zip(of_any_kind(&self.tables)));
        let judged = list(TABLES.iter().zip(self.tables[JUDGE]));
        let refusals = list((0..).zip(of_any_kind(&self.numbers)).skip(1));
        let derived = list(DERIVED.iter().zip(self.derived));
        let levels = list((0..).zip(self.levels));
        let tested = list(TESTED.iter().zip(self.tested).rev());
        writeln!(f, "tables   {tables}")?;
        writeln!(f, "judged   {judged}")?;
        writeln!(f, "refusals {refusals}")?;
        writeln!(f, "expanded {derived}")?;
        writeln!(f, "levels   {levels}")?;
        write!(f, "tested   {tested}")?;
        for ((name, _), decided) in DECIDING.iter().zip(self.decided) {
            let tested = list(TESTED.iter().zip(decided).rev());
            write!(f, "\n{name:9}{tested}")?;
        }
        let levels = list((0..).zip(self.past_levels));
        let tested = list(TESTED.iter().zip(self.past_tested).rev());
        write!(f, "\npast 13  {levels}; tested {tested}")
    }
}

/// Counts with their names, for one line.
fn list<T: fmt::Display>(counts: impl Iterator<Item = (T, u64)>) -> String {
    let shown: Vec<_> = counts.map(|(name, had)| format!("{name}: {had}")).collect();
    shown.join(", ")
}
