//! A table with its derived operators written out.
use crate::assertion::Assertion;
use crate::names::Names;
use crate::notation;
use crate::source::Source;
use crate::words;
use xistomar::Refusal;

/// The expansion of a table, with its names, or the refusal.
pub fn of(source: &Source) -> Result<Source, Refusal> {
    let table = xistomar::expanded(&source.table)?;
    Ok(Source::made(table, source.names.clone()))
}

/// The text of an expansion, after comments that say how many nodes it has, and how many its text makes.
pub fn text(assertion: &Assertion, names: &Names) -> String {
    let [all, fewer] = [assertion.nodes().len(), assertion.tidy().nodes().len()];
    let mut text = format!("// written out, {}\n", words::count(all, "node"));
    if fewer < all {
        text.push_str(&format!(
            "// kit table makes {fewer} of this text: equal booleans become one, and unused ones go\n"
        ));
    }
    text + &notation::write(assertion, names)
}
