//! `program [--status] COMMAND..` runs COMMAND in a folder of its own for each
//! case, and compares what it prints with what the independent reader says.
//! With `--status` the exit status and standard error too; without, the status
//! has to be 0.

use std::env;
use std::ffi::OsString;
use std::fs;
use std::path::Path;
use std::process::ExitCode;

use cases::program::{all, run, Case, Seen};

/// After so many differences it is clear enough.
const MOST_SHOWN: usize = 10;

fn main() -> ExitCode {
    let mut words: Vec<OsString> = env::args_os().skip(1).collect();
    let with_status = words.first().is_some_and(|word| word == "--status");
    words.drain(..usize::from(with_status));
    if words.is_empty() {
        eprintln!("usage: program [--status] COMMAND..");
        return ExitCode::FAILURE;
    }
    let command: Vec<OsString> = words.into_iter().map(from_anywhere).collect();
    let mut seen = Seen::default();
    let mut differences = Vec::new();
    let cases = all();
    for case in &cases {
        if let Some(found) = difference(&command, case, with_status, &mut seen) {
            differences.push(format!("{}: {found}", case.name));
        }
    }
    for name in seen.missing() {
        differences.push(format!("no case printed {name}"));
    }
    for found in differences.iter().take(MOST_SHOWN) {
        eprintln!("{found}");
    }
    println!("{} cases, {} differences", cases.len(), differences.len());
    ExitCode::from(u8::from(!differences.is_empty()))
}

/// The command runs in another folder, so a file is named by its full path.
fn from_anywhere(word: OsString) -> OsString {
    let path = Path::new(&word);
    match path.components().count() > 1 && path.exists() {
        true => fs::canonicalize(path).map_or(word, OsString::from),
        false => word,
    }
}

fn difference(
    command: &[OsString],
    case: &Case,
    with_status: bool,
    seen: &mut Seen,
) -> Option<String> {
    let folder = env::temp_dir().join(format!("program-{}", std::process::id()));
    match run(command, case, &folder) {
        Ok(ran) => {
            seen.note(ran.printed.as_deref().unwrap_or_default());
            ran.difference(&case.expected(), with_status)
        }
        Err(error) => Some(error.to_string()),
    }
}
