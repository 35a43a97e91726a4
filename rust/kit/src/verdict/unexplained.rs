//! What the plain engine alone leaves untold, in words.
use super::account::Account;
use crate::engine;

/// That the plain engine judged alone and why, and what is not told for that.
pub fn unexplained_words(account: &Account) -> String {
    let untold = match account.signs.as_str() {
        "" => "Which part was decisive is".to_string(),
        signs => format!("Which part was decisive and which {signs} were asked are"),
    };
    let alone = engine::alone(account.past);
    format!("{alone}{untold} read off the fast engine's rows, and not told.\n")
}
