//! play [--csv] [JOURNAL]: plays a journal (standard input where none is named) and prints what
//! the program `station` has to print for it.

use std::io::{self, Read, Write};
use std::path::{Path, PathBuf};
use std::process::ExitCode;

use keldrava_second::player::{play, Stop};

fn main() -> ExitCode {
    let mut arguments: Vec<String> = std::env::args().skip(1).collect();
    let csv = arguments.first().is_some_and(|first| first == "--csv");
    if csv {
        arguments.remove(0);
    }
    let source = arguments.first().map_or("-", String::as_str);
    match run(source, csv) {
        Ok(()) => ExitCode::SUCCESS,
        Err(message) => {
            eprintln!("{message}");
            ExitCode::FAILURE
        }
    }
}

fn run(source: &str, csv: bool) -> Result<(), String> {
    let (journal, folder) = read(source).map_err(|error| format!("{source}: {error}"))?;
    let (printed, result) = play(&journal, &folder, csv);
    io::stdout().write_all(&printed).map_err(|error| error.to_string())?;
    result.map_err(|stop| match stop {
        Stop::NoCall => format!("{source}: no call in it"),
        Stop::Malformed { line, text, reason } => format!("{source}:{line}: {text}\n{reason}"),
    })
}

/// The journal's bytes and the folder that its files lie in.
fn read(source: &str) -> io::Result<(Vec<u8>, PathBuf)> {
    if source == "-" {
        let mut journal = Vec::new();
        io::stdin().read_to_end(&mut journal)?;
        return Ok((journal, PathBuf::new()));
    }
    let folder = Path::new(source).parent().unwrap_or(Path::new("")).to_path_buf();
    Ok((std::fs::read(source)?, folder))
}
