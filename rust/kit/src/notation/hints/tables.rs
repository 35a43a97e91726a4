//! The words and signs that are not part of the notation, each with its hint.
use super::Hint::{self, Noted, Words, Written};

/// The hint for a function that has none of its own.
pub const FUNCTION: Hint = Words(
    "functions are not part of the notation, but for `rose(a)` and `fell(a)` of a signal, which \
     stand without $",
);
/// What action blocks call.
pub const TASKS: [&str; 8] = [
    "$error", "$fatal", "$warning", "$info", "$display", "$write", "$stop", "$finish",
];
/// The hint for what stands after `assert property (..)`.
pub const ACTION: Hint = Words(
    "action blocks are not part of the notation and are left out: the text ends with the assertion",
);
/// The hint for a condition that rises or falls.
pub const CONDITION: Hint = Words(
    "only a signal can rise or fall: of a condition b, `!(b) ##1 (b)` says over two samples that it becomes 1, \
     and `(b) ##1 !(b)` that it becomes 0",
);
/// The hint for a number in brackets after a signal.
pub const BIT: Hint = Words(
    "a repetition such as `R[*3]` was expected: a signal has one bit, so each bit of a bus is a signal \
     of its own",
);
/// The hint for a delay that is none of the notation.
pub const DELAY: Hint = Words("a delay is written `R ##3 S` or `R ##[1:4] S`");
const EQUAL: Hint = Noted(
    "a == b",
    "(((a) & (b)) | (!(a) & !(b)))",
    "; for `a == 1` write `a`, and for `a == 0` write `!a`",
);
const UNEQUAL: Hint = Written("a != b", "(((a) & !(b)) | (!(a) & (b)))");
const IMPLICATION: Hint = Words("the implication is written |->, or |=> for the next sample");
const SIZE: Hint = Words("a signal is 0 or 1, and is not compared by size");
const NUMBERS: Hint = Words("a signal is 0 or 1: there is nothing to count with here");
const COMMENT: Hint = Words("comments begin with // and reach to the end of the line");
const GROUP: Hint = Words("parts are held together by ( and )");
/// The hint for what SystemVerilog has around an assertion.
pub const SET_UP: Hint = Words(
    "the assertion stands alone, without `assert property (..);`, a name or an action block around it, and is \
     asked at the first sample only: `always P` asks P at every one",
);
const RESET: Hint = Words(
    "resets are not part of the notation and are left out: judge a record that begins after the reset, as `kit \
     record --from TIME` takes it, and ends before the next one, by its `--to TIME`",
);
const ABSENT: Hint = Words(
    "this operator is not part of the notation: kit table --help lists those that are, and docs/PATTERNS.md has what \
     is often asked, as that one holds until another comes",
);
const EDGE: Hint = Words(
    "an edge of a clock c is written `rose(c)`, `fell(c)` or `rose(c) | fell(c)`, as in `@(rose(c))`, which sees the \
     values after it; SystemVerilog sees those before it, as `kit record --on` samples them, and then the clock is \
     left out",
);
const JOINED: Hint = Words(
    "booleans are joined by &, which binds tighter than | (&& binds looser): parentheses help \
     where both stand",
);
const DECLARE: Hint = Words("signals are declared in lines that begin with the word signals");
const EVENTUALLY: Hint = Words("that P comes is said by `s_eventually P`");

/// Words and signs, each with its hint.
pub const FOREIGN: [(&str, Hint); 74] = [
    ("=>", IMPLICATION),
    ("==>", IMPLICATION),
    ("-->", IMPLICATION),
    ("|-", IMPLICATION),
    ("|--", IMPLICATION),
    ("|-->", IMPLICATION),
    (
        "->",
        Noted(
            "a -> b",
            "(!(a) | (b))",
            " of two booleans, and `R |-> P` where a property follows",
        ),
    ),
    (
        "=",
        Words("a signal stands for itself: `a` where it is 1, and `!a` where it is 0"),
    ),
    ("<->", EQUAL),
    ("&&", JOINED),
    ("||", Words("booleans are joined by |")),
    ("~", Words("a boolean is turned round by !")),
    ("==", EQUAL),
    ("===", EQUAL),
    ("!=", UNEQUAL),
    ("!==", UNEQUAL),
    ("^", UNEQUAL),
    ("xor", UNEQUAL),
    ("?", Written("c ? a : b", "(((c) & (a)) | (!(c) & (b)))")),
    ("<", SIZE),
    (">", SIZE),
    ("<=", SIZE),
    (">=", SIZE),
    ("+", NUMBERS),
    ("-", NUMBERS),
    ("%", NUMBERS),
    (
        "#",
        Words(
            "comments begin with //, delays are written ##1 and ##[1:3], and #-# and #=# are written \
             without blanks",
        ),
    ),
    ("/*", COMMENT),
    ("/", COMMENT),
    ("--", COMMENT),
    (
        ";",
        Words("leave ; out: a declaration ends with its line, and the assertion with the text"),
    ),
    ("{", GROUP),
    ("}", GROUP),
    ("true", Words("the constants are 1 and 0")),
    ("false", Words("the constants are 1 and 0")),
    ("s_always", Words("that P is so at every sample is said by `always P`")),
    ("never", Written("never P", "always not (P)")),
    ("eventually", EVENTUALLY),
    ("next", Words("the next sample is asked by `nexttime P`")),
    (
        "until_with",
        Written("P until_with Q", "(P) until ((P) and (Q))"),
    ),
    (
        "s_until_with",
        Written("P s_until_with Q", "(P) s_until ((P) and (Q))"),
    ),
    ("implies", Written("P implies Q", "(not (P)) or (Q)")),
    (
        "iff",
        Written("P iff Q", "((not (P)) or (Q)) and ((not (Q)) or (P))"),
    ),
    ("if", Written("if (b) P", "(b |-> P)")),
    (
        "else",
        Written("if (b) P else Q", "((b |-> P) and (!(b) |-> Q))"),
    ),
    ("case", ABSENT),
    ("intersect", ABSENT),
    ("within", ABSENT),
    ("throughout", ABSENT),
    ("first_match", ABSENT),
    ("disable", RESET),
    ("accept_on", RESET),
    ("reject_on", RESET),
    ("sync_accept_on", RESET),
    ("sync_reject_on", RESET),
    ("posedge", EDGE),
    ("negedge", EDGE),
    ("edge", EDGE),
    ("assert", SET_UP),
    ("assume", SET_UP),
    ("cover", SET_UP),
    ("expect", SET_UP),
    ("restrict", SET_UP),
    ("property", SET_UP),
    ("endproperty", SET_UP),
    ("sequence", SET_UP),
    ("endsequence", SET_UP),
    ("default", SET_UP),
    ("clocking", SET_UP),
    ("signal", DECLARE),
    ("wire", DECLARE),
    ("logic", DECLARE),
    ("input", DECLARE),
    (
        "define",
        Words("a boolean gets a name in a line such as `let busy = a & !b`"),
    ),
];

/// In SystemVerilog these go by the clock tick before.
const BY_SAMPLE: &str = ", and goes by the sample before, not by the clock tick before";

/// The functions of SystemVerilog that can be said of a signal a.
pub const FUNCTIONS: [(&str, Hint); 5] = [
    ("$rose", Noted("$rose(a)", "rose(a)", BY_SAMPLE)),
    ("$fell", Noted("$fell(a)", "fell(a)", BY_SAMPLE)),
    (
        "$changed",
        Noted("$changed(a)", "(rose(a) | fell(a))", BY_SAMPLE),
    ),
    (
        "$stable",
        Noted("$stable(a)", "!(rose(a) | fell(a))", BY_SAMPLE),
    ),
    (
        "$past",
        Noted("$past(a)", "(fell(a) | a & !rose(a))", BY_SAMPLE),
    ),
];

/// What may stand between `[` and `]`.
pub const REPETITIONS: [(&str, Hint); 2] = [
    ("+", Written("R[+]", "R[*1:$]")),
    ("*", Written("R[*]", "(R[*0] or R[*1:$])")),
];
