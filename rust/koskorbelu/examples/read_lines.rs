//! Reads the lines of standard input by the sheet in a table file, each as a
//! whole, and prints what the classroom program prints. That program lends
//! every line the same; this one lends what a line of up to 4,000 bytes needs:
//!
//!     cargo run --release -p koskorbelu --features proved --example read_lines -- class.gram <lines.txt
//!
//! On standard error it says where a line went wrong.

use std::env;
use std::fs;
use std::io::{self, BufRead, Write};
use std::process::ExitCode;

use koskorbelu::{read_whole, report, Answer, Code};

const USAGE: &str = "usage: read_lines TABLE-FILE
Reads lines from standard input. By a sheet without left recursion no line is
refused for effort; by any other a line has 1,000,000 visits.";

/// The visits allowed where left recursion leaves no ceiling: many times what a
/// line should take, with 16 MB of working numbers and more.
const WITHOUT_CEILING: u64 = 1_000_000;

/// A line of fewer bytes is shown with marks; under a longer one nobody finds them.
const SCREEN: usize = 80;

/// The exit status is 1 without a sheet, 2 where lines cannot be read or answers
/// not be written.
fn main() -> ExitCode {
    let Some(path) = env::args_os().nth(1) else {
        eprintln!("{USAGE}");
        return ExitCode::from(2);
    };
    let Ok(table) = fs::read(path) else {
        println!("GRAMMAR");
        return ExitCode::from(1);
    };
    match read_lines(&table, io::stdin().lock(), io::stdout().lock()) {
        Ok(true) => ExitCode::SUCCESS,
        Ok(false) => ExitCode::from(1),
        Err(error) => {
            eprintln!("read_lines: {error}");
            ExitCode::from(2)
        }
    }
}

/// Prints one answer for each line; for a refused table why, and nothing more.
/// Gives whether there was a sheet.
fn read_lines(table: &[u8], lines: impl BufRead, mut out: impl Write) -> io::Result<bool> {
    let free = match report(table) {
        Ok(report) => report.is_free(),
        Err(refusal) => {
            // Code and place, and no visits.
            writeln!(out, "{refusal} 0")?;
            return Ok(false);
        }
    };
    // A line ends at LF; what comes after the last LF counts if it has a byte.
    for line in lines.split(b'\n') {
        let line = line?;
        // It lends the working numbers that the allowance asks for, and room for
        // every tree.
        let answer = read_whole(table, &line, allowance(table, free, line.len()));
        writeln!(out, "{answer}")?;
        show(&answer, &line);
    }
    Ok(true)
}

/// By a free sheet with N nodes a line of L bytes is never refused for effort if
/// 2 x N x (L + 1) + 1 visits are allowed.
fn allowance(table: &[u8], free: bool, line_length: usize) -> u64 {
    if !free {
        return WITHOUT_CEILING;
    }
    // The table is a sheet's: its bytes 3 and 4 count the nodes.
    let nodes = u16::from_be_bytes([table[3], table[4]]);
    2 * u64::from(nodes) * (line_length as u64 + 1) + 1
}

/// Says to a person where a line went wrong.
fn show(answer: &Answer<Vec<u8>>, line: &[u8]) {
    let code = answer.code();
    if code == Code::Read || !code.line_was_read() {
        return;
    }
    if line.len() < SCREEN {
        eprintln!("{}", answer.marked(line));
    } else {
        eprintln!("{answer}: look at byte {}", answer.furthest());
    }
}

#[cfg(test)]
mod tests {
    use super::{allowance, read_lines};
    use koskorbelu::{MOST_ALLOWANCE, MOST_LINE};
    use sheets::{log_of_length, meter_log, sheet_b, sum, Sheet};

    fn printed(sheet: &Sheet, lines: &str) -> String {
        let mut out = Vec::new();
        let read = read_lines(&sheet.bytes(), lines.as_bytes(), &mut out);
        assert_eq!(read.unwrap(), sheet.table().is_ok());
        String::from_utf8(out).unwrap()
    }

    #[test]
    fn as_the_classroom_program() {
        let three = "READ 3 8 3\nREST 1 7\nFAIL 0 5\n";
        assert_eq!(printed(&sheet_b(), "1,5\n1.5\n,5\n"), three);
        assert_eq!(printed(&sheet_b(), "1,5\n1.5\n,5"), three);
        assert_eq!(printed(&sheet_b(), ""), "");
        assert_eq!(
            printed(&sheet_b(), "\n\n1"),
            "FAIL 0 5\nFAIL 0 5\nREAD 1 7 2\n"
        );
        assert_eq!(printed(&sheet_b(), "1,5\r\n"), "REST 3 8\n");
    }

    #[test]
    fn a_refused_table_has_one_line() {
        let mut sheet = sheet_b();
        sheet.not(6);
        assert_eq!(printed(&sheet, "1,5\n1.5\n"), "FIELD 6 0\n");
        sheet.nodes[6] = (6, 6, 0);
        assert_eq!(printed(&sheet, ""), "FIELD 6 0\n");
    }

    #[test]
    fn long_lines_have_what_they_need() {
        let lines = [252, 256, 4_000, 4_001].map(log_of_length).join("\n");
        let answers = "READ 252 734 64\nREAD 256 742 64\nREAD 4000 11400 1000\nLINE 0 0\n";
        assert_eq!(printed(&meter_log(), &lines), answers);
        // More visits than the classroom program allows.
        assert_eq!(printed(&sum(), "(((7)))"), "READ 7 5272 13\n");
    }

    /// So the ceiling of every sheet without left recursion may be allowed.
    #[test]
    fn no_ceiling_is_too_high() {
        let largest = [1, 0, 0, 2, 0, 0, 1];
        assert_eq!(allowance(&largest, true, MOST_LINE), 4_097_025);
        assert!(allowance(&largest, true, MOST_LINE) <= MOST_ALLOWANCE);
    }
}
