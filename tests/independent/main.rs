//! The independent cabinet as a program: `independent-cabinet FILE`.

#[path = "cabinet.rs"]
#[allow(dead_code)]
mod cabinet;

use std::io::Write;
use std::process::ExitCode;

fn main() -> ExitCode {
    let names: Vec<_> = std::env::args_os().skip(1).collect();
    let [name] = names.as_slice() else {
        eprintln!("one file name is wanted");
        return ExitCode::FAILURE;
    };
    let file = match std::fs::read(name) {
        Ok(file) => file,
        Err(error) => {
            eprintln!("{}: {error}", name.to_string_lossy());
            return ExitCode::FAILURE;
        }
    };
    match std::io::stdout().write_all(cabinet::print_session(&file).as_bytes()) {
        Ok(()) => ExitCode::SUCCESS,
        Err(error) => {
            eprintln!("{error}");
            ExitCode::FAILURE
        }
    }
}
