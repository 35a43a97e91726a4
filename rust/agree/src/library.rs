//! The library's side: a case goes to its entry point, with what the case lends.
use second::{lent_bytes, lent_samples, lent_workspace, Answer, Case};
use xistomar::raw;

/// What the library answers to a case, and all that was lent as it stands afterwards.
pub fn answer(case: &Case) -> Answer {
    match case {
        Case::Check { table } => Answer::Check(verdict(raw::check(table))),
        Case::Read { record, words } => read(record, lent_samples(*words)),
        Case::Expand { table, bytes } => expand(table, lent_bytes(*bytes)),
        Case::Rewrite { table, bytes } => rewrite(table, lent_bytes(*bytes)),
        Case::Judge {
            table,
            samples,
            words,
        } => judge(table, samples, lent_workspace(*words)),
        Case::Plain { table, samples } => {
            Answer::Plain(judgement(raw::plain_judge(table, samples)))
        }
        Case::Ends {
            table,
            samples,
            start,
            words,
        } => match_ends(table, samples, *start, lent_workspace(*words)),
        Case::Program { input } => Answer::Program(line(input)),
    }
}

fn verdict(raw::Verdict { number, node }: raw::Verdict) -> second::Verdict {
    second::Verdict { number, node }
}

fn read(record: &[u8], mut out: Vec<u64>) -> Answer {
    let reading = raw::read(record, &mut out);
    let answer = second::Reading {
        verdict: verdict(reading.verdict),
        count: reading.count,
    };
    Answer::Read(answer, out)
}

fn expand(table: &[u8], mut out: Vec<u8>) -> Answer {
    let expansion = raw::expand(table, &mut out);
    let answer = second::Expansion {
        verdict: verdict(expansion.verdict),
        count: expansion.count,
    };
    Answer::Expand(answer, out)
}

fn rewrite(table: &[u8], mut out: Vec<u8>) -> Answer {
    let rewriting = raw::rewrite(table, &mut out);
    let answer = second::Rewriting {
        verdict: verdict(rewriting.verdict),
        count: rewriting.count,
    };
    Answer::Rewrite(answer, out)
}

fn judge(table: &[u8], samples: &[u64], mut workspace: Vec<u64>) -> Answer {
    let answer = judgement(raw::judge(table, samples, &mut workspace));
    Answer::Judge(answer, workspace)
}

/// What either judge of the library answered.
fn judgement(judgement: raw::Judgement) -> second::Judgement {
    second::Judgement {
        verdict: verdict(judgement.verdict),
        level: judgement.level,
        tested: judgement.tested,
    }
}

fn match_ends(table: &[u8], samples: &[u64], start: usize, mut workspace: Vec<u64>) -> Answer {
    let ends = raw::match_ends(table, samples, start, &mut workspace);
    let answer = second::MatchEnds {
        verdict: verdict(ends.verdict),
        mask: ends.mask,
        top: ends.top,
    };
    Answer::Ends(answer, workspace)
}

/// The program's line. It must end with a newline, have no other, and leave the later bytes alone: anything else is answered as it stands, so that it differs.
fn line(input: &[u8]) -> String {
    let mut line = [UNTOUCHED; raw::LINE];
    let bytes = raw::line(input, &mut line);
    let (said, later) = line.split_at(bytes.min(raw::LINE));
    let said = String::from_utf8_lossy(said);
    match said.strip_suffix('\n') {
        Some(said) if later.iter().all(|&byte| byte == UNTOUCHED) => said.to_string(),
        _ => format!("{said:?}, and then {later:?}"),
    }
}

/// What each byte of a line holds before the call; no line has it.
const UNTOUCHED: u8 = 7;
