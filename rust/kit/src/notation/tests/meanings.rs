//! The derived operators, and the hints that rewrite an operator of another language: each is compared with
//! that operator's definition, worked out here from what the judge says of its operands.
use super::hints::{self, Hint, FOREIGN};
use super::*;
use crate::verdict::Suffixes;
use xistomar::{Judge, Level};

/// A form with texts put in for its letters: P and Q, R and S, a, b and c.
pub fn filled(form: &str, texts: &[(char, &str)]) -> String {
    let letters: Vec<char> = form.chars().collect();
    let mut filled = String::new();
    for (place, letter) in letters.iter().enumerate() {
        let beside = |place: Option<usize>| {
            let c = place.and_then(|place| letters.get(place));
            c.is_some_and(|c| c.is_alphabetic() || *c == '_')
        };
        let alone = !beside(place.checked_sub(1)) && !beside(Some(place + 1));
        match texts.iter().find(|(known, _)| known == letter) {
            Some((_, text)) if alone => filled.push_str(&format!("({text})")),
            _ => filled.push(*letter),
        }
    }
    filled
}

/// Every rewriting that a hint without numbers of its own gives, by its form.
fn rewritings() -> Vec<(String, String)> {
    let hints = FOREIGN.iter().map(|(_, hint)| hint.clone());
    let hints = hints.chain(["+", "*"].map(hints::repetition));
    hints.filter_map(written).collect()
}

/// A form, and what a hint says to write for it.
pub fn written(hint: Hint) -> Option<(String, String)> {
    match hint {
        Hint::Written(form, instead) | Hint::Noted(form, instead, _) => {
            Some((form.to_string(), instead.to_string()))
        }
        Hint::Made(form, instead) | Hint::Turned(_, form, instead) => Some((form, instead)),
        Hint::Vast(_) | Hint::Words(_) | Hint::Told(_) => None,
    }
}

/// The rewriting of a form; the form itself where it is part of the notation.
fn rewriting(form: &str) -> String {
    if DERIVED.contains(&form) {
        return form.to_string();
    }
    let found = rewritings().into_iter().find(|(known, _)| known == form);
    found.unwrap_or_else(|| panic!("{form} has no rewriting")).1
}

/// Forms with derived operators.
const DERIVED: [&str; 17] = [
    "R |=> P",
    "R #-# P",
    "R #=# P",
    "always P",
    "s_eventually P",
    "s_nexttime P",
    "P s_until Q",
    "R[*1]",
    "R[*0:1]",
    "R[*0:0]",
    "R[*2]",
    "R[*1:2]",
    "b[->1]",
    "b[=1]",
    "R ##2 S",
    "R ##[0:1] S",
    "R ##[1:2] S",
];

/// Forms that are not part of the notation.
const FORMS: [&str; 13] = [
    "a -> b",
    "a == b",
    "a != b",
    "c ? a : b",
    "never P",
    "P until_with Q",
    "P s_until_with Q",
    "P implies Q",
    "P iff Q",
    "if (b) P",
    "if (b) P else Q",
    "R[+]",
    "R[*]",
];

#[test]
fn every_rewriting_is_read_and_every_form_is_known() {
    let texts = [
        ('P', "strong(d)"),
        ('Q', "weak(e ##1 f)"),
        ('R', "d ##1 e"),
        ('S', "f or g"),
        ('a', "d"),
        ('b', "e"),
        ('c', "f"),
    ];
    for (form, _) in rewritings() {
        assert!(FORMS.contains(&form.as_str()), "{form} is not tried below");
    }
    for (form, instead) in rewritings().into_iter().chain(numbered::rewritings()) {
        table(&filled(&instead, &texts));
        // the form itself is not read
        assert!(read(&declared(&filled(&form, &texts))).is_err(), "{form}");
    }
    for form in DERIVED {
        assert_eq!(table(&filled(form, &texts))[3], 3, "{form}");
    }
}

/// What stands for a letter is read as one part without parentheses of its own, and the rewriting of
/// a prefix is one operand: `not always P` becomes `not (..)`.
#[test]
fn what_is_put_in_for_a_letter_stays_together() {
    let texts = [
        ('P', "d |-> strong(e) until weak(f)"),
        ('Q', "strong(e) or weak(f) until strong(g)"),
        ('R', "d or e ##1 f"),
        ('a', "d & e | f"),
        ('b', "e | f & g"),
        ('c', "f | g"),
    ];
    let marked = texts.map(|(letter, text)| (letter, format!("~{text}~")));
    let marked: Vec<(char, &str)> = marked.iter().map(|(c, text)| (*c, text.as_str())).collect();
    for (form, instead) in rewritings().into_iter().chain(numbered::rewritings()) {
        // sequences beside ## and before [ bind tightly, and their rewritings need no parentheses
        if form.contains("##") || form.contains("[*") || form.contains("[+") || form.contains("b[")
        {
            continue;
        }
        let alone = filled(&instead, &marked)
            .replace("(~", "")
            .replace("~)", "");
        assert_eq!(table(&alone), table(&filled(&instead, &texts)), "{form}");
        if !form.starts_with(char::is_uppercase) && !form.contains(['>', '=', '?']) {
            let negated = |text: &str| table(&format!("not {text}"));
            let whole = format!("({alone})");
            assert_eq!(negated(&alone), negated(&whole), "{form}");
        }
    }
}

/// The three answers on a word: with no tail, with a ⊤ tail, with a ⊥ tail.
pub type Answers = [bool; 3];

fn answers(level: Level) -> Answers {
    [
        level >= Level::Neutral,
        level >= Level::Weak,
        level >= Level::Strong,
    ]
}

/// The answers for a property, from each sample on and after the last: a tail's own answers.
pub fn rows(judge: &mut Judge, text: &str, samples: &[u64]) -> Vec<Answers> {
    let levels = Suffixes::of(judge, &table(text), samples).unwrap();
    let starts = 0..=samples.len();
    starts.map(|start| answers(levels.level(start))).collect()
}

/// What the definition of a property operator is worked out from: the answers for P and Q on one
/// kind of word, from each position on. Positions in a tail are all alike: the last entry.
pub struct Word {
    pub p: Vec<bool>,
    q: Vec<bool>,
    not_p: bool,
    not_q: bool,
    /// The positions inside the word: with a tail one more, which stands for all of the tail.
    pub inside: usize,
    pub samples: usize,
}

impl Word {
    pub fn new(kind: usize, p: &[Answers], q: &[Answers]) -> Word {
        // the bar of a word swaps the tails
        let bar = [0, 2, 1][kind];
        let samples = p.len() - 1;
        Word {
            p: p.iter().map(|row| row[kind]).collect(),
            q: q.iter().map(|row| row[kind]).collect(),
            not_p: !p[0][bar],
            not_q: !q[0][bar],
            inside: if kind == 0 { samples } else { samples + 1 },
            samples,
        }
    }

    fn all(&self, holds: impl Fn(usize) -> bool) -> bool {
        (0..self.inside).all(holds)
    }

    fn any(&self, holds: impl Fn(usize) -> bool) -> bool {
        (0..self.inside).any(holds)
    }

    /// P at each position before one.
    fn before(&self, position: usize) -> bool {
        self.p[..position].iter().all(|p| *p)
    }
}

type Definition = fn(&Word) -> bool;

const PROPERTIES: [(&str, Definition); 8] = [
    ("always P", |w| w.all(|i| w.p[i])),
    ("s_eventually P", |w| w.any(|i| w.p[i])),
    ("s_nexttime P", |w| w.inside > 0 && w.p[w.samples.min(1)]),
    ("P s_until Q", |w| w.any(|i| w.q[i] && w.before(i))),
    ("P until_with Q", |w| {
        w.any(|i| w.q[i] && w.p[i] && w.before(i)) || w.all(|i| w.p[i])
    }),
    ("P s_until_with Q", |w| {
        w.any(|i| w.q[i] && w.p[i] && w.before(i))
    }),
    ("P implies Q", |w| w.not_p || w.q[0]),
    ("P iff Q", |w| (w.not_p || w.q[0]) && (w.not_q || w.p[0])),
];

pub const SOME_PROPERTIES: [&str; 12] = [
    "strong(a)",
    "strong(rose(a) ##1 b)",
    "weak(!fell(b))",
    "weak(a ##1 b)",
    "strong(a ##1 b)",
    "not strong(b[*1:$] ##1 a)",
    "a |-> strong(b)",
    "strong(a) until weak(b)",
    "nexttime strong(b)",
    "not weak(a or b ##1 a)",
    "@(c) strong(a)",
    "@(c) weak(a | b)",
];

#[test]
fn rewritten_properties_mean_what_they_stand_for() {
    let (mut judge, random) = (Judge::new(), &mut Random(7));
    for _ in 0..150 {
        let samples = random.samples(7);
        let [p, q] = [0; 2].map(|_| random.pick(&SOME_PROPERTIES));
        let [rows_p, rows_q] = [p, q].map(|text| rows(&mut judge, text, &samples));
        for (form, definition) in PROPERTIES {
            let text = filled(&rewriting(form), &[('P', p), ('Q', q)]);
            let given = rows(&mut judge, &text, &samples)[0];
            let wanted = [0, 1, 2].map(|kind| definition(&Word::new(kind, &rows_p, &rows_q)));
            assert_eq!(given, wanted, "{form} as {text} on {samples:?}");
        }
        // never P is always not P
        let never = filled(&rewriting("never P"), &[('P', p)]);
        let always = filled(&rewriting("always P"), &[('P', &format!("not ({p})"))]);
        assert_eq!(
            rows(&mut judge, &never, &samples),
            rows(&mut judge, &always, &samples)
        );
    }
}

pub const SOME_SEQUENCES: [&str; 10] = [
    "a",
    "rose(a)",
    "b ##1 fell(a)[*0]",
    "a ##1 b",
    "a[*0]",
    "a[*1:$]",
    "a or b[*0]",
    "(a ##1 b)[*1:$]",
    "a[*1:$] ##0 b",
    "@(c) a ##1 b",
];

/// The ends of a sequence's matches from each start, and whether it matches up to a ⊤ tail.
fn ends(judge: &mut Judge, text: &str, samples: &[u64]) -> Vec<(u64, bool)> {
    let table = table(text);
    let from = |start| {
        let ends = judge.match_ends(&table, samples, start).unwrap();
        (ends.mask, ends.top)
    };
    (0..=samples.len()).map(from).collect()
}

/// `R |=> P` and `R #=# P` go on one sample after each match of R; `R #-# P` at its last sample.
#[test]
fn rewritten_implications_mean_what_they_stand_for() {
    let (mut judge, random) = (Judge::new(), &mut Random(8));
    for _ in 0..300 {
        let samples = random.samples(6);
        let (r, p) = (random.pick(&SOME_SEQUENCES), random.pick(&SOME_PROPERTIES));
        let rows_p = rows(&mut judge, p, &samples);
        let (mask, top) = ends(&mut judge, r, &samples)[0];
        let count = samples.len();
        let matched = |end: &usize| mask >> end & 1 == 1;
        let late = mask >> count & 1 == 1 || top;
        let after: Vec<usize> = (0..count).filter(matched).collect();
        let last: Vec<usize> = (1..=count).filter(matched).map(|end| end - 1).collect();
        let holds =
            |at: &[usize], kind: usize| at.iter().map(|i| rows_p[*i][kind]).collect::<Vec<_>>();
        let all = |at, kind| holds(at, kind).iter().all(|held| *held);
        let any = |at, kind| holds(at, kind).iter().any(|held| *held);
        let definitions: [(&str, Answers); 3] = [
            // the bar of a word with a ⊥ tail goes on with ⊤, where R may end and P is not satisfied
            (
                "R |=> P",
                [all(&after, 0), all(&after, 1), all(&after, 2) && !late],
            ),
            // a ⊤ tail satisfies P wherever R ends in it
            (
                "R #=# P",
                [any(&after, 0), any(&after, 1) || late, any(&after, 2)],
            ),
            (
                "R #-# P",
                [any(&last, 0), any(&last, 1) || top, any(&last, 2)],
            ),
        ];
        let hollow = format!("strong({r})");
        if xistomar::check(&table(&hollow)).is_err() {
            continue;
        }
        for (form, wanted) in definitions {
            let text = filled(&rewriting(form), &[('R', r), ('P', p)]);
            let given = rows(&mut judge, &text, &samples)[0];
            assert_eq!(given, wanted, "{form} as {text} on {samples:?}");
        }
    }
}

/// All pairs of a start and an end that match, for definitions by sets.
#[derive(Clone, PartialEq, Eq, Debug)]
pub struct Matches(Vec<u64>);

impl Matches {
    pub fn of(judge: &mut Judge, text: &str, samples: &[u64]) -> Matches {
        let ends = ends(judge, text, samples);
        Matches(ends.into_iter().map(|(mask, _)| mask).collect())
    }

    pub fn made(count: usize, matches: impl Fn(usize, usize) -> bool) -> Matches {
        let row = |start: usize| {
            let ends = (start..count).filter(|end| matches(start, *end));
            ends.fold(0, |mask, end| mask | 1 << end)
        };
        Matches((0..count).map(row).collect())
    }

    pub fn has(&self, start: usize, end: usize) -> bool {
        self.0.get(start).is_some_and(|mask| mask >> end & 1 == 1)
    }

    /// The empty stretch.
    pub fn empty(&self) -> Matches {
        Matches::made(self.0.len(), |start, end| start == end)
    }

    /// One and then the other, with so many samples between them.
    pub fn then(&self, gap: usize, other: &Matches) -> Matches {
        Matches::made(self.0.len(), |start, end| {
            (start..=end).any(|middle| self.has(start, middle) && other.has(middle + gap, end))
        })
    }

    /// Both share one sample.
    pub fn fused(&self, other: &Matches) -> Matches {
        Matches::made(self.0.len(), |start, end| {
            (start + 1..=end).any(|middle| self.has(start, middle) && other.has(middle - 1, end))
        })
    }

    pub fn or(&self, other: &Matches) -> Matches {
        Matches::made(self.0.len(), |start, end| {
            self.has(start, end) || other.has(start, end)
        })
    }

    /// Once or more.
    pub fn repeated(&self) -> Matches {
        let mut all = self.clone();
        for _ in 0..self.0.len() {
            all = all.or(&all.then(0, self));
        }
        all
    }
}

#[test]
fn rewritten_sequences_mean_what_they_stand_for() {
    let (mut judge, random) = (Judge::new(), &mut Random(9));
    for _ in 0..200 {
        let samples = random.samples(6);
        let [r_text, s_text] = [0; 2].map(|_| random.pick(&SOME_SEQUENCES));
        let [r, s] = [r_text, s_text].map(|text| Matches::of(&mut judge, text, &samples));
        let (empty, many) = (r.empty(), r.repeated());
        let definitions = [
            ("R[+]", many.clone()),
            ("R[*]", empty.or(&many)),
            ("R[*1]", r.clone()),
            ("R[*0:1]", empty.or(&r)),
            ("R[*0:0]", empty.clone()),
            ("R[*2]", r.then(0, &r)),
            ("R[*1:2]", r.or(&r.then(0, &r))),
            ("R ##2 S", r.then(1, &s)),
            ("R ##[0:1] S", r.fused(&s).or(&r.then(0, &s))),
            ("R ##[1:2] S", r.then(0, &s).or(&r.then(1, &s))),
        ];
        for (form, wanted) in definitions {
            let text = filled(&rewriting(form), &[('R', r_text), ('S', s_text)]);
            assert_eq!(
                Matches::of(&mut judge, &text, &samples),
                wanted,
                "{form} as {text} on {samples:?}"
            );
        }
    }
}

/// Repetitions and delays with any numbers, as far as their expansion fits.
#[test]
fn counts_mean_what_they_say() {
    let (mut judge, random) = (Judge::new(), &mut Random(12));
    let mut compared = 0;
    for _ in 0..400 {
        let samples = random.samples(6);
        let [r_text, s_text] = [0; 2].map(|_| random.pick(&SOME_SEQUENCES));
        let n = random.below(5);
        let m = random.below(n + 1);
        let texts = [
            format!("({r_text})[*{m}:{n}]"),
            format!("({r_text}) ##[{m}:{n}] ({s_text})"),
        ];
        let large = |text: &String| xistomar::rewrite(&table(text), &mut [0; 486]).is_err();
        if texts.iter().any(large) {
            continue;
        }
        let [r, s] = [r_text, s_text].map(|text| Matches::of(&mut judge, text, &samples));
        let [times, delay] = texts.map(|text| Matches::of(&mut judge, &text, &samples));
        let union = |all: Vec<Matches>| all.into_iter().reduce(|one, more| one.or(&more)).unwrap();
        let power = |k| (0..k).fold(r.empty(), |row, _| row.then(0, &r));
        assert_eq!(
            times,
            union((m..=n).map(power).collect()),
            "{r_text} {m} {n}"
        );
        let apart = |k: usize| match k.checked_sub(1) {
            None => r.fused(&s),
            Some(gap) => r.then(gap, &s),
        };
        let wanted = union((m..=n).map(apart).collect());
        assert_eq!(
            delay, wanted,
            "{r_text} ##[{m}:{n}] {s_text} on {samples:?}"
        );
        compared += 1;
    }
    assert!(compared > 200, "{compared}");
}

/// Long ranges, and what is proposed for them.
#[test]
fn even_ranges_mean_what_they_stand_for() {
    let (mut judge, random) = (Judge::new(), &mut Random(13));
    for (m, n) in [(0, 5), (1, 5), (2, 6), (5, 7), (6, 7)] {
        let [times, delay] = [even_times(m, n), even_delay(m, n)];
        let times = times.map(|pair| [pair.0, pair.1].map(|text| text.replace('R', "a")));
        let delay = delay.map(|pair| [pair.0, pair.1].map(|text| format!("a {text} b")));
        assert_eq!((times.is_some(), delay.is_some()), (true, m > 0));
        for [range, even] in times.into_iter().chain(delay) {
            for _ in 0..40 {
                let samples = random.samples(12);
                let [range, even] = [&range, &even].map(|text| ends(&mut judge, text, &samples));
                assert_eq!(range, even, "{m} {n} {samples:?}");
            }
        }
    }
}

#[test]
fn rewritten_repetitions_of_a_boolean_mean_what_they_stand_for() {
    let (mut judge, random) = (Judge::new(), &mut Random(10));
    for _ in 0..50 {
        let samples = random.samples(6);
        let count = samples.len() + 1;
        // a is bit 0 of a sample
        let ones =
            |start: usize, end: usize| samples[start..end].iter().filter(|s| *s & 1 == 1).count();
        let goto = |least: usize, most: usize| {
            Matches::made(count, move |start, end| {
                let last = end == start || ones(end - 1, end) == 1;
                let exact = last && (end > start || least == 0);
                exact && (least..=most).contains(&ones(start, end))
            })
        };
        let among = |least: usize, most: usize| {
            Matches::made(count, move |start, end| {
                (least..=most).contains(&ones(start, end))
            })
        };
        let mut compare = |text: &str, wanted: Matches| {
            let text = filled(text, &[('b', "a")]);
            let given = Matches::of(&mut judge, &text, &samples);
            assert_eq!(given, wanted, "{text} on {samples:?}");
        };
        for m in 0..=5 {
            compare(&format!("b[->{m}]"), goto(m, m));
            compare(&format!("b[={m}]"), among(m, m));
            compare(&numbered::repetition(&format!("->{m}:$")), goto(m, 9));
            compare(&numbered::repetition(&format!("={m}:$")), among(m, 9));
        }
        for (m, n) in [(0, 0), (0, 3), (1, 2), (1, 3), (2, 2), (2, 4), (3, 4)] {
            compare(&numbered::repetition(&format!("->{m}:{n}")), goto(m, n));
            compare(&numbered::repetition(&format!("={m}:{n}")), among(m, n));
        }
    }
}

/// Source 000 has `((b |-> P) and (weak(b) or Q))` for `if (b) P else Q`, of unclocked P and Q.
#[test]
fn rewritten_conditions_mean_what_they_stand_for() {
    let (mut judge, random) = (Judge::new(), &mut Random(11));
    let unclocked: Vec<&str> = SOME_PROPERTIES
        .into_iter()
        .filter(|text| !text.contains('@'))
        .collect();
    for _ in 0..300 {
        let samples = random.samples(7);
        let [p, q] = [0; 2].map(|_| random.pick(&unclocked));
        let clock = random.pick(&["", "@(c) ", "@(!d) "]);
        let texts = [('P', p), ('Q', q), ('b', "e | !f")];
        let both = [
            ("if (b) P", "b |-> P"),
            ("if (b) P else Q", "(b |-> P) and (weak(b) or Q)"),
        ];
        for (form, source) in both {
            let [given, wanted] = [rewriting(form), source.to_string()]
                .map(|text| format!("{clock}({})", filled(&text, &texts)))
                .map(|text| rows(&mut judge, &text, &samples));
            assert_eq!(given, wanted, "{clock}{form}, {texts:?} on {samples:?}");
        }
    }
}

/// Whether a signal was 1 at the sample before, and is now, made into what a function says of it.
type Function = fn(bool, bool) -> bool;

#[test]
fn functions_of_a_signal_mean_what_they_stand_for() {
    let definitions: [(&str, Function); 5] = [
        ("$rose", |before, now| !before && now),
        ("$fell", |before, now| before && !now),
        ("$changed", |before, now| before != now),
        ("$stable", |before, now| before == now),
        ("$past", |before, _| before),
    ];
    assert_eq!(
        definitions.map(|row| row.0),
        hints::FUNCTIONS.map(|row| row.0)
    );
    let mut judge = Judge::new();
    // every way from one sample to the next, and both first samples
    let records = [[0, 0, 1, 1, 0], [1, 1, 0, 0, 1]];
    for ((_, definition), (name, hint)) in definitions.into_iter().zip(hints::FUNCTIONS) {
        let Hint::Noted(form, instead, _) = hint else {
            panic!("{hint:?}");
        };
        assert_eq!(form, format!("{name}(a)"));
        assert_eq!(table(instead), table(&format!("({instead})")));
        for samples in records {
            let rows = rows(&mut judge, &format!("strong({instead})"), &samples);
            // before the first sample all was 0
            let befores = [0].iter().chain(&samples);
            for ((before, now), [_, _, strong]) in befores.zip(&samples).zip(rows) {
                assert_eq!(
                    strong,
                    definition(*before == 1, *now == 1),
                    "{form} {samples:?}"
                );
            }
        }
    }
}

/// A boolean operator of a, b and c.
type Boolean = fn(bool, bool, bool) -> bool;

#[test]
fn rewritten_booleans_mean_what_they_stand_for() {
    let mut judge = Judge::new();
    let definitions: [(&str, Boolean); 4] = [
        ("a -> b", |a, b, _| !a || b),
        ("a == b", |a, b, _| a == b),
        ("a != b", |a, b, _| a != b),
        ("c ? a : b", |a, b, c| if c { a } else { b }),
    ];
    for (form, definition) in definitions {
        let table = table(&format!("strong({})", rewriting(form)));
        for sample in 0..8u64 {
            let [a, b, c] = [0, 1, 2].map(|bit| sample >> bit & 1 == 1);
            let judged = judge.judge(&table, &[sample]).unwrap();
            assert_eq!(
                judged.level == Level::Strong,
                definition(a, b, c),
                "{form} on {sample}"
            );
        }
    }
}
