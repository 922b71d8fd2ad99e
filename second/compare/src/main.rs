//! `compare`: see the README of this workspace.
#![forbid(unsafe_code)]

use compare::options::HELP;
use compare::{run, Bridge, Options};
use std::process::ExitCode;

fn main() -> ExitCode {
    let arguments: Vec<String> = std::env::args().skip(1).collect();
    if arguments.iter().any(|argument| argument == "--help") {
        print!("{HELP}");
        return ExitCode::SUCCESS;
    }
    let options = match Options::of(&arguments) {
        Ok(options) => options,
        Err(fault) => {
            eprintln!("{fault}; compare --help tells the arguments");
            return ExitCode::from(2);
        }
    };
    let command = compare::bridge::command(options.bridge.as_deref());
    let mut bridge = match Bridge::start(command) {
        Ok(bridge) => bridge,
        Err(fault) => {
            eprintln!("{fault}");
            return ExitCode::from(2);
        }
    };
    match run(&mut bridge, &options, &mut std::io::stdout().lock()) {
        Ok(true) => ExitCode::SUCCESS,
        Ok(false) => ExitCode::FAILURE,
        Err(error) => {
            eprintln!("{error}");
            ExitCode::from(2)
        }
    }
}
