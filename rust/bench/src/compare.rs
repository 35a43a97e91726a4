//! Before anything is measured, the engines have to agree.
use crate::cases::{Case, Input};
use crate::engines::{naive_plain, workspace, Answer, Engine};

/// That all engines give the library's answers and leave its words on every input of the case, and that none is refused.
pub fn agree(case: &Case) -> Result<(), String> {
    for (k, input) in case.inputs.iter().enumerate() {
        let at = format!("{}, input {k}", case.name);
        let library = judged(Engine::Library, input);
        if library.0.number != 0 {
            return Err(format!("{at}: refused, {:?}", library.0));
        }
        for engine in Engine::ALL {
            same(&at, &library, engine, &judged(engine, input))?;
        }
    }
    Ok(())
}

/// An answer, and the workspace that was left.
type Judged = (Answer, Vec<u64>);

/// That an engine has answered as the library has, and left the same words where it leaves any.
fn same(at: &str, library: &Judged, engine: Engine, other: &Judged) -> Result<(), String> {
    let both = format!("{at}: library and {}", engine.name());
    if other.0 != library.0 {
        return Err(format!("{both} answer {:?} and {:?}", library.0, other.0));
    }
    if engine.leaves_rows() && other.1 != library.1 {
        return Err(format!("{both} leave different words"));
    }
    Ok(())
}

/// That the judge refuses every input of the case with 13, and that the plain one says of it what the naive program says.
pub fn past(case: &Case) -> Result<(), String> {
    for (k, input) in case.inputs.iter().enumerate() {
        let at = format!("{}, input {k}", case.name);
        let (refused, _) = judged(Engine::Library, input);
        if refused.number != 13 {
            return Err(format!("{at}: not refused with 13, {refused:?}"));
        }
        let (plain, _) = judged(Engine::Plain, input);
        let naive = naive_plain(&input.table, &input.samples);
        if plain.number != 0 || plain != naive {
            return Err(format!(
                "{at}: plain and second answer {plain:?} and {naive:?}"
            ));
        }
    }
    Ok(())
}

/// The answer and the workspace, which held no row's words before, so that a word left out shows.
fn judged(engine: Engine, input: &Input) -> Judged {
    let mut words = workspace();
    words.fill(0x5555_5555_5555_5555);
    let answer = engine.judge(&input.table, &input.samples, &mut words);
    (answer, words)
}

#[cfg(test)]
mod tests {
    use super::*;
    use crate::cases;

    /// What the library says of P1, to be made wrong.
    fn p1() -> Judged {
        judged(Engine::Library, &cases::all()[0].inputs[0])
    }

    #[test]
    fn the_same_answer_and_words() {
        assert_eq!(same("p1", &p1(), Engine::Rows, &p1()), Ok(()));
    }

    #[test]
    fn another_answer() {
        let mut wrong = p1();
        wrong.0.level += 1;
        let told = same("p1", &p1(), Engine::Plain, &wrong).unwrap_err();
        assert!(told.starts_with("p1: library and plain answer "), "{told}");
    }

    #[test]
    fn another_word() {
        let mut wrong = p1();
        wrong.1[64] ^= 1;
        let told = same("p1", &p1(), Engine::Rows, &wrong).unwrap_err();
        assert_eq!(told, "p1: library and rows leave different words");
    }

    #[test]
    fn an_input_that_is_refused() {
        let mut case = cases::all().remove(0);
        case.inputs[0].table[0] = 0;
        let told = agree(&case).unwrap_err();
        assert!(told.starts_with("p1, input 0: refused, "), "{told}");
    }
}
