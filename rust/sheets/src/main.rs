//! `sheets EXAMPLES` writes the table file class.gram into each folder of
//! EXAMPLES, and the long lines of meter-log. The same sources give the same
//! bytes every time.

use std::fs;
use std::io;
use std::path::Path;
use std::process::ExitCode;

fn main() -> ExitCode {
    let arguments: Vec<String> = std::env::args().skip(1).collect();
    let [examples] = arguments.as_slice() else {
        eprintln!("usage: sheets EXAMPLES");
        return ExitCode::FAILURE;
    };
    match write(Path::new(examples)) {
        Ok(()) => ExitCode::SUCCESS,
        Err(error) => {
            eprintln!("{error}");
            ExitCode::FAILURE
        }
    }
}

fn write(examples: &Path) -> io::Result<()> {
    for (folder, sheet) in sheets::all() {
        sheet.write(examples.join(folder).join("class.gram"))?;
    }
    let lines = sheets::meter_lines().into_iter().map(|line| line + "\n");
    let path = examples.join(sheets::METER_LOG).join("lines.txt");
    fs::write(path, lines.collect::<String>())
}
