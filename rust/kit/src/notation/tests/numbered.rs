//! Hints with the numbers that were given: each is read, and means what source 000 (F.2.3) defines.
use super::hints::{self, Hint};
use super::meanings::{filled, rows, written, Matches, Word, SOME_PROPERTIES, SOME_SEQUENCES};
use super::*;
use xistomar::Judge;

/// The hints for small numbers.
pub fn rewritings() -> Vec<(String, String)> {
    let mut all = Vec::new();
    for m in 0..=4 {
        all.extend(["*", "->", "="].map(|sign| hints::repetition(&format!("{sign}{m}:$"))));
        all.extend([format!("[{m}]"), format!("[{m}:$]")].map(|after| hints::delay(&after)));
        all.extend([format!("{m}"), format!("[{m}:$]")].map(|it| hints::leading_delay(&it)));
        all.extend(["nexttime", "s_nexttime"].map(|word| hints::prefix(word, &m.to_string())));
        all.extend(["always", "s_eventually"].map(|word| hints::prefix(word, &format!("{m}:$"))));
        for n in m..=7 {
            let range = format!("{m}:{n}");
            all.extend(RANGED.map(|word| hints::prefix(word, &range)));
            all.push(hints::leading_delay(&format!("[{range}]")));
        }
        for n in m..m + 4 {
            all.extend(["->", "="].map(|sign| hints::repetition(&format!("{sign}{m}:{n}"))));
        }
    }
    for after in ["[+]", "[*]", "[*0:$]"] {
        all.extend([hints::delay(after), hints::leading_delay(after)]);
    }
    // [*1:$] is part of the notation
    let foreign = |(form, instead): &(String, String)| form != instead;
    let all = all
        .into_iter()
        .map(|hint| written(hint.clone()).unwrap_or_else(|| panic!("{hint}")));
    all.filter(foreign).collect()
}

const RANGED: [&str; 4] = ["always", "s_always", "eventually", "s_eventually"];

fn instead(hint: Hint) -> String {
    written(hint).unwrap().1
}

/// What is written for a repetition.
pub fn repetition(inside: &str) -> String {
    instead(hints::repetition(inside))
}

/// Whether a text is too large to be judged.
fn large(text: &str) -> bool {
    xistomar::rewrite(&table(text), &mut [0; 486]).is_err()
}

#[test]
fn the_numbers_are_the_ones_given() {
    let cases = [
        ("a[*3:$]", 2, "`a[*3:$]` is written `(a[*2] ##1 a[*1:$])`"),
        ("b[->2:$]", 2, "`b[->2:$]` is written `(b[->1] ##1 b[->1][*1:$])`"),
        ("b[->3:$]", 2, "`b[->3:$]` is written `(b[->2] ##1 b[->1][*1:$])`"),
        ("b[=0:$]", 2, "`b[=0:$]` is written `((b[*0] or b[->1][*1:$]) ##1 b[=0])`"),
        ("b[->2:2]", 2, "`b[->2:2]` is written `b[->2]`"),
        ("b[->3:1]", 2, "3 to 1 counts backwards: `b[->1:3]` is written `(b[->1] ##1 (b[*0] or ((!b)[*0] or (!b)[*1:$]) ##1 b)[*2])`"),
        ("b[=2:1]", 2, "2 to 1 counts backwards: `b[=1:2]` is written `(b[->1] ##1 (b[*0] or ((!b)[*0] or (!b)[*1:$]) ##1 b) ##1 b[=0])`"),
        ("b[->1:10]", 2, "`b[->1:10]` is written out to more than the 120 nodes of a table"),
        ("b[=1:16]", 2, "`b[=1:16]` is written out to more than the 120 nodes of a table"),
        ("a[*17:$]", 2, "`a[*17:$]` is written `(a[*15] ##1 a ##1 a[*1:$])`"),
        ("a[*99999999999999999999:$]", 2, "`a[*99999999999999999999:$]` is written out to more than the 120 nodes of a table"),
        ("a ##[3:$] b", 3, "`a ##[3:$] b` is written `(a ##2 1[*1:$] ##1 b)`"),
        ("a |=> ##2 b", 7, "`##2 b` is written `strong(1 ##2 b)` or `weak(1 ##2 b)`: strong must match in the record, weak must only not be ruled out"),
        ("a |=> ##[1:3] b", 7, "`##[1:3] b` is written `strong(1 ##[1:3] b)` or `weak(1 ##[1:3] b)`: strong must match in the record, weak must only not be ruled out"),
        ("a |=> ##[3:1] b", 7, "3 to 1 counts backwards: `##[1:3] b` is written `strong(1 ##[1:3] b)` or `weak(1 ##[1:3] b)`: strong must match in the record, weak must only not be ruled out"),
        ("##[0:2] b", 1, "`##[0:2] b` is written `1[*0:2] ##1 b`"),
        ("##0 b", 1, "`##0 b` is written `b`"),
        ("## b", 1, "a delay is written `R ##3 S` or `R ##[1:4] S`"),
        ("nexttime[0] strong(a)", 9, "`nexttime[0] strong(a)` is written `(1 |-> strong(a))`"),
        ("nexttime [ 2 ] strong(a)", 10, "`nexttime[2] strong(a)` is written `(1 ##2 1 |-> strong(a))`"),
        ("nexttime[16] strong(a)", 9, "`nexttime[16] strong(a)` is written `(1 ##15 1 ##1 1 |-> strong(a))`"),
        ("nexttime[a] strong(a)", 9, "`nexttime[2] strong(a)` is written `(1 ##2 1 |-> strong(a))`"),
        ("s_nexttime[1] strong(a)", 11, "`s_nexttime[1] strong(a)` is written `(1 ##1 1 #-# strong(a))`"),
        ("always [2:$] strong(a)", 8, "`always[2:$] strong(a)` is written `(1 ##2 1 |-> always strong(a))`"),
        ("always [3:1] strong(a)", 8, "3 to 1 counts backwards: `always[1:3] strong(a)` is written `(1 ##[1:3] 1 |-> strong(a))`"),
        ("s_eventually [1:3] strong(a)", 14, "`s_eventually[1:3] strong(a)` is written `(1 ##[1:3] 1 #-# strong(a))`"),
        ("eventually [1:3] strong(a)", 12, "`eventually[1:3] strong(a)` is written `((1 ##[1:2] 1 #-# strong(a)) or (1 ##3 1 |-> strong(a)))`"),
        ("eventually [2:$] strong(a)", 12, "eventually counts to a number and not to $: `s_eventually[2:$] strong(a)` is written `(1 ##2 1 #-# s_eventually strong(a))`"),
        ("s_always [1:2] strong(a)", 10, "`s_always[1:2] strong(a)` is written `((1 ##1 1 |-> strong(a)) and (1 ##2 1 #-# strong(a)))`"),
    ];
    for (text, column, words) in cases {
        assert_eq!(mistake(text), (2, column, words.to_string()), "{text}");
    }
}

/// `[1 0]` is not `[10]`, whatever stands between the two.
#[test]
fn two_numbers_are_not_joined() {
    let second = |number: &str, first: &str| {
        format!(
            "one number was expected, or two with a colon as in `2:5`, and here stands `{number}` after \
             `{first}`"
        )
    };
    let cases = [
        ("strong(a[*1 0])", 2, 13, "0", "1"),
        ("a ##[1:1 2] b", 2, 10, "2", "1"),
        ("b[->1 // twice\n1]", 3, 1, "1", "1"),
        ("b[=1\n\n0]", 4, 1, "0", "1"),
        ("nexttime[1 2] strong(a)", 2, 12, "2", "1"),
        ("a |-> ##[1 2] b", 2, 12, "2", "1"),
        ("a[*2x]", 2, 5, "x", "2"),
    ];
    for (text, line, column, number, first) in cases {
        assert_eq!(
            mistake(text),
            (line, column, second(number, first)),
            "{text}"
        );
    }
    // blanks elsewhere do no harm
    for (text, same) in [
        ("a[* 1 : 3 ]", "a[*1:3]"),
        ("a ## [ 1 :\n2 ] b", "a ##[1:2] b"),
        ("b[-> // once\n1]", "b[->1]"),
    ] {
        assert_eq!(table(text), table(same));
    }
    // a number after that of a delay is a constant
    assert_eq!(table("a ##1 1"), table("a ##1 (1)"));
    let words = "the constants are 0 and 1, and here stands `2`";
    assert_eq!(mistake("a ##1 2 b"), (2, 7, words.to_string()));
}

/// a is 1 at samples 1, 2 and 4 of five. From sample 0, two or more of them end after samples 2 and 4, which is
/// before samples 3 and 5; any stretch with two or more ends after samples 2, 3 and 4.
#[test]
fn two_or_more_are_not_two_by_two() {
    let (mut judge, samples) = (Judge::new(), [0, 1, 1, 0, 1]);
    let mut ends = |inside: &str| {
        let text = filled(&repetition(inside), &[('b', "a")]);
        judge.match_ends(&table(&text), &samples, 0).unwrap().mask
    };
    assert_eq!(ends("->2:$"), 1 << 3 | 1 << 5);
    assert_eq!(ends("->3:$"), 1 << 5);
    assert_eq!(ends("=2:$"), 1 << 3 | 1 << 4 | 1 << 5);
    assert_eq!(ends("->1:2"), 1 << 2 | 1 << 3);
}

/// Hints for R and S, each with the pairs of a start and an end that match by its definition.
fn definitions(r: &Matches, s: &Matches, samples: usize) -> Vec<(Hint, Matches)> {
    let power = |k| (0..k).fold(r.empty(), |row, _| row.then(0, r));
    let apart = |gap: usize| match gap {
        0 => r.fused(s),
        _ => r.then(gap - 1, s),
    };
    let from = |least: usize| {
        let all = (least..=least + samples + 1).map(apart);
        all.reduce(|one, more| one.or(&more)).unwrap()
    };
    let after = |m: usize, n: usize| {
        Matches::made(samples + 1, |start, end| {
            (m..=n).any(|k| r.has(start + k, end))
        })
    };
    let mut all = vec![
        (hints::delay("[+]"), from(1)),
        (hints::delay("[*]"), from(0)),
        (hints::leading_delay("[+]"), after(1, 9)),
        (hints::leading_delay("[*]"), after(0, 9)),
    ];
    for m in 0..=4 {
        let times = power(m).then(0, &r.empty().or(&r.repeated()));
        all.push((hints::repetition(&format!("*{m}:$")), times));
        all.push((hints::delay(&format!("[{m}:$]")), from(m)));
        all.push((hints::leading_delay(&m.to_string()), after(m, m)));
        all.push((hints::leading_delay(&format!("[{m}:$]")), after(m, 9)));
        for n in m..=7 {
            all.push((hints::leading_delay(&format!("[{m}:{n}]")), after(m, n)));
        }
    }
    all
}

#[test]
fn sequences_with_numbers_mean_what_they_stand_for() {
    let (mut judge, random) = (Judge::new(), &mut Random(13));
    let mut compared = 0;
    for _ in 0..150 {
        let samples = random.samples(6);
        let [r_text, s_text] = [0; 2].map(|_| random.pick(&SOME_SEQUENCES));
        let [r, s] = [r_text, s_text].map(|text| Matches::of(&mut judge, text, &samples));
        for (hint, wanted) in definitions(&r, &s, samples.len()) {
            let text = filled(&instead(hint), &[('R', r_text), ('S', s_text)]);
            if large(&text) {
                continue;
            }
            let given = Matches::of(&mut judge, &text, &samples);
            assert_eq!(given, wanted, "{text} on {samples:?}");
            compared += 1;
        }
    }
    assert!(compared > 3000, "{compared}");
}

impl Word {
    /// `nexttime[m] P` of source 000: P at position m, if the word goes so far.
    fn next(&self, m: usize) -> bool {
        m >= self.inside && !self.has_tail() || self.p[m.min(self.samples)]
    }

    /// `s_nexttime[m] P`: the word goes so far, and P there.
    fn strong_next(&self, m: usize) -> bool {
        (m < self.inside || self.has_tail()) && self.p[m.min(self.samples)]
    }

    fn has_tail(&self) -> bool {
        self.inside > self.samples
    }

    /// A word with a range.
    fn ranged(&self, word: &str, m: usize, n: usize) -> bool {
        match word {
            "always" => (m..=n).all(|k| self.next(k)),
            "eventually" => (m..=n).any(|k| self.next(k)),
            "s_always" => (m..=n).all(|k| self.strong_next(k)),
            _ => (m..=n).any(|k| self.strong_next(k)),
        }
    }
}

#[test]
fn properties_with_numbers_mean_what_they_stand_for() {
    let (mut judge, random) = (Judge::new(), &mut Random(14));
    for _ in 0..40 {
        let samples = random.samples(5);
        let p = random.pick(&SOME_PROPERTIES);
        let rows_p = rows(&mut judge, p, &samples);
        let words = [0, 1, 2].map(|kind| Word::new(kind, &rows_p, &rows_p));
        let mut compare = |hint: Hint, wanted: [bool; 3]| {
            let text = filled(&instead(hint), &[('P', p)]);
            let given = rows(&mut judge, &text, &samples)[0];
            assert_eq!(given, wanted, "{text} on {samples:?}");
        };
        let wanted = |holds: &dyn Fn(&Word) -> bool| [0, 1, 2].map(|kind| holds(&words[kind]));
        for m in 0..=3 {
            let number = m.to_string();
            compare(hints::prefix("nexttime", &number), wanted(&|w| w.next(m)));
            compare(
                hints::prefix("s_nexttime", &number),
                wanted(&|w| w.strong_next(m)),
            );
            for word in ["always", "s_eventually"] {
                let hint = hints::prefix(word, &format!("{m}:$"));
                compare(hint, wanted(&|w| w.ranged(word, m, 9)));
            }
            for (n, word) in (m..=7).flat_map(|n| RANGED.map(|word| (n, word))) {
                let hint = hints::prefix(word, &format!("{m}:{n}"));
                compare(hint, wanted(&|w| w.ranged(word, m, n)));
            }
        }
    }
}

/// A delay before a property that must match, or must not be ruled out: it goes inside strong or weak, and of any
/// property it asks it where the delay ends, so far as the record goes with strong and `#-#`.
#[test]
fn a_delay_before_a_property_means_what_its_forms_say() {
    let (mut judge, random) = (Judge::new(), &mut Random(16));
    for _ in 0..60 {
        let samples = random.samples(6);
        let r = random.pick(&["a", "a ##1 b", "a or b ##1 a", "a[*1:$] ##0 b", "@(c) a"]);
        for after in ["0", "1", "2", "[1:3]", "[0:2]", "[2:6]", "[1:$]"] {
            let inside = filled(&instead(hints::leading_delay(after)), &[('R', r)]);
            let ends = filled(&instead(hints::leading_delay(after)), &[('R', "1")]);
            let [strong, followed] = [
                format!("strong({inside})"),
                format!("{ends} #-# strong({r})"),
            ]
            .map(|text| rows(&mut judge, &text, &samples));
            assert_eq!(strong, followed, "##{after} {r} on {samples:?}");
            if after.starts_with('[') {
                continue;
            }
            let [weak, implied] = [format!("weak({inside})"), format!("{ends} |-> weak({r})")]
                .map(|text| rows(&mut judge, &text, &samples));
            assert_eq!(weak, implied, "##{after} {r} on {samples:?}");
        }
    }
}

/// a is 1 at each of 20 samples, and b at 17 and 18 alone.
#[test]
fn numbers_above_15_mean_what_they_say() {
    let (mut judge, mut samples) = (Judge::new(), [1; 20]);
    (samples[17], samples[18]) = (3, 3);
    let mut ends = |hint: Hint| {
        let text = filled(&instead(hint), &[('R', "a"), ('S', "b")]);
        judge.match_ends(&table(&text), &samples, 0).unwrap().mask
    };
    let range = |from: usize, to: usize| (from..=to).fold(0, |mask, end| mask | 1u64 << end);
    assert_eq!(ends(hints::repetition("*17")), 1 << 17);
    assert_eq!(ends(hints::repetition("*2:17")), range(2, 17));
    assert_eq!(ends(hints::repetition("*18:$")), range(18, 20));
    assert_eq!(ends(hints::delay("17")), 1 << 18);
    assert_eq!(ends(hints::delay("[16:17]")), 1 << 18);
    assert_eq!(ends(hints::delay("[0:18]")), 1 << 18 | 1 << 19);
    assert_eq!(ends(hints::delay("[18:$]")), 1 << 19);
    assert_eq!(ends(hints::leading_delay("17")), 1 << 18);
    assert_eq!(ends(hints::leading_delay("[2:17]")), range(3, 18));
}

/// What source 000 writes out for a word with a range, by nexttime, and, or and not.
fn unrolled(word: &str, m: usize, n: usize) -> String {
    let next = |k: usize, p: &str| format!("({}(1 |-> {p}))", "nexttime ".repeat(k));
    let all = |p: &str, join: &str| {
        let all: Vec<String> = (m..=n).map(|k| next(k, p)).collect();
        format!("({})", all.join(join))
    };
    match word {
        "always" => all("P", " and "),
        "eventually" => all("P", " or "),
        "s_eventually" => format!("(not {})", all("not P", " and ")),
        _ => format!("(not {})", all("not P", " or ")),
    }
}

/// Under a clock too, where samples are ticks.
#[test]
fn properties_with_numbers_go_by_ticks() {
    let (mut judge, random) = (Judge::new(), &mut Random(15));
    let mut compared = 0;
    for _ in 0..150 {
        let samples = random.samples(7);
        let p = random.pick(&[
            "strong(a)",
            "weak(a ##1 b)",
            "not strong(b)",
            "@(b) strong(a)",
        ]);
        let clock = random.pick(&["@(c) ", "@(!d) "]);
        let m = random.below(3);
        let n = m + random.below(3);
        for word in RANGED {
            let hint = instead(hints::prefix(word, &format!("{m}:{n}")));
            let texts = [hint, unrolled(word, m, n)]
                .map(|it| clock.to_string() + &filled(&it, &[('P', p)]));
            if texts.iter().any(|text| large(text)) {
                continue;
            }
            let [given, wanted] = texts.clone().map(|text| rows(&mut judge, &text, &samples));
            assert_eq!(given, wanted, "{texts:?} on {samples:?}");
            compared += 1;
        }
    }
    assert!(compared > 300, "{compared}");
}

/// Of the samples that are there, 2 is b. A weak one says yes where the record ends before its last sample.
#[test]
fn levels_of_properties_with_numbers() {
    let mut judge = Judge::new();
    let cases: [(&str, &[u64], u8); 12] = [
        ("eventually", &[0], 2),
        ("eventually", &[0, 0], 2),
        ("eventually", &[0, 0, 0], 0),
        ("eventually", &[0, 2], 3),
        ("s_eventually", &[0, 0], 1),
        ("s_eventually", &[0, 0, 0], 0),
        ("s_eventually", &[0, 0, 2], 3),
        ("always", &[0, 2], 2),
        ("always", &[0, 2, 2], 3),
        ("always", &[0, 0], 0),
        ("s_always", &[0, 2], 1),
        ("s_always", &[0, 2, 2], 3),
    ];
    for (word, samples, level) in cases {
        let text = filled(&instead(hints::prefix(word, "1:2")), &[('P', "strong(b)")]);
        let judged = judge.judge(&table(&text), samples).unwrap();
        assert_eq!(judged.level as u8, level, "{word} on {samples:?}");
    }
}

/// What hints in words name in quotes is part of the notation, but for what they say is not.
#[test]
fn what_is_quoted_in_words_is_read() {
    let texts = [('P', "strong(d)"), ('Q', "weak(e)"), ('R', "d"), ('S', "e")];
    let others = ["assert property (..);", "let busy = a & !b"];
    let hints = hints::FOREIGN.iter().map(|(_, hint)| hint.clone());
    let hints = hints.chain([
        hints::CONDITION,
        hints::ACTION,
        hints::repetition("*"),
        hints::repetition("x"),
        hints::delay(""),
    ]);
    for hint in hints {
        let Hint::Words(words) = hint else { continue };
        for quoted in words.split('`').skip(1).step_by(2) {
            if others.contains(&quoted) || quoted.starts_with("kit ") || quoted.starts_with("--") {
                continue;
            }
            let whole = match quoted.strip_prefix('@') {
                Some(_) => format!("{quoted} d"),
                None => filled(quoted, &texts),
            };
            table(&whole);
        }
    }
}
