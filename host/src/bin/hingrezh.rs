//! The command: see `hingrezh --help`.
use std::process::ExitCode;

fn main() -> ExitCode {
    ExitCode::from(hingrezh::command::run(std::env::args_os().skip(1)))
}
