//! `store DIR`: writes the stored cases into a folder.
#![forbid(unsafe_code)]

use std::path::Path;
use std::process::ExitCode;

fn main() -> ExitCode {
    let Some(folder) = std::env::args_os().nth(1) else {
        eprintln!("usage: store DIR");
        return ExitCode::from(2);
    };
    for (name, bytes) in cases::stored::files() {
        let path = Path::new(&folder).join(name);
        if let Err(error) = std::fs::write(&path, &bytes) {
            eprintln!("{}: {error}", path.display());
            return ExitCode::FAILURE;
        }
        println!("{name}: {} bytes", bytes.len());
    }
    ExitCode::SUCCESS
}
