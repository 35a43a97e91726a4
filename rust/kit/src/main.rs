//! The command `kit`: see `kit --help`.
use std::io::{self, IsTerminal};
use std::process::ExitCode;

fn main() -> ExitCode {
    let (mut out, mut err) = (io::stdout(), io::stderr());
    let live = err.is_terminal();
    let mut console = kit::Console {
        out: &mut out,
        err: &mut err,
        live,
    };
    ExitCode::from(kit::run(
        std::env::args_os().skip(1).collect(),
        &mut console,
    ))
}
