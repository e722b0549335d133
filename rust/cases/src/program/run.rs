//! Running a command on a case, in a folder of its own.

use std::ffi::OsString;
use std::fs::{self, File};
use std::io::{self, ErrorKind, Write};
use std::path::Path;
use std::process::{Child, Command, Stdio};

use super::{Case, Ending, Expected, Grammar, Input};

/// What a run gave.
pub struct Ran {
    /// None where standard output takes nothing.
    pub printed: Option<Vec<u8>>,
    /// None for a run that was killed.
    pub status: Option<i32>,
    /// What stands on standard error.
    pub said: Vec<u8>,
}

/// Runs the command on the case. `folder` is not there yet, and is removed.
pub fn run(command: &[OsString], case: &Case, folder: &Path) -> io::Result<Ran> {
    let own = folder.join("own");
    fs::create_dir_all(&own)?;
    let ran = run_in(command, case, folder, &own);
    fs::remove_dir_all(folder)?;
    ran
}

fn run_in(command: &[OsString], case: &Case, folder: &Path, own: &Path) -> io::Result<Ran> {
    lay(&case.grammar, &own.join("class.gram"))?;
    let (printed, said) = (folder.join("printed"), folder.join("said"));
    let output = match case.is_full {
        true => File::options().write(true).open("/dev/full")?,
        false => File::create(&printed)?,
    };
    let mut child = Command::new(&command[0])
        .args(&command[1..])
        .current_dir(own)
        .stdin(input(&case.input, &folder.join("input"))?)
        .stdout(output)
        .stderr(File::create(&said)?)
        .spawn()?;
    feed(&mut child, &case.input)?;
    let status = child.wait()?.code();
    let printed = match case.is_full {
        true => None,
        false => Some(fs::read(printed)?),
    };
    Ok(Ran {
        printed,
        status,
        said: fs::read(said)?,
    })
}

fn lay(grammar: &Grammar, path: &Path) -> io::Result<()> {
    match grammar {
        Grammar::Table(table) => fs::write(path, table),
        Grammar::Missing => Ok(()),
        Grammar::Folder => fs::create_dir(path),
    }
}

fn input(input: &Input, path: &Path) -> io::Result<Stdio> {
    match input {
        Input::File(bytes) => fs::write(path, bytes)?,
        Input::Folder => fs::create_dir(path)?,
        Input::Pipe(..) => return Ok(Stdio::piped()),
    }
    Ok(File::open(path)?.into())
}

/// Puts the bytes of a pipe into it, and closes it.
fn feed(child: &mut Child, input: &Input) -> io::Result<()> {
    let (Input::Pipe(bytes, size), Some(mut pipe)) = (input, child.stdin.take()) else {
        return Ok(());
    };
    for piece in bytes.chunks(*size) {
        match pipe.write_all(piece) {
            // A program that refuses its table reads no input.
            Err(error) if error.kind() == ErrorKind::BrokenPipe => break,
            put => put?,
        }
    }
    Ok(())
}

impl Ran {
    /// What is not as expected. Without `with_status` the status has to be 0,
    /// and standard error may have anything.
    pub fn difference(&self, expected: &Expected, with_status: bool) -> Option<String> {
        let printed = self.printed.as_deref();
        if let Some(found) = printed.and_then(|given| other_line(given, &expected.printed)) {
            return Some(found);
        }
        let ending = match with_status {
            true => expected.ending,
            false => Ending::Done,
        };
        if self.status != Some(ending as i32) {
            return Some(format!("status {:?}, not {}", self.status, ending as i32));
        }
        let said = String::from_utf8_lossy(&self.said);
        let failed = &expected.failed;
        let is_said = said.matches('\n').count() == failed.len()
            && (said.is_empty() || said.ends_with('\n'))
            && failed.iter().all(|name| said.matches(name).count() == 1);
        (with_status && !is_said)
            .then(|| format!("standard error has {said:?} where {failed:?} is due"))
    }
}

/// The first line that is another.
fn other_line(given: &[u8], expected: &[u8]) -> Option<String> {
    if given == expected {
        return None;
    }
    let split = |printed: &[u8]| -> Vec<String> {
        let lines = printed.split_inclusive(|&byte| byte == super::LF);
        lines
            .map(|line| String::from_utf8_lossy(line).into())
            .collect()
    };
    let (given, expected) = (split(given), split(expected));
    let same = given
        .iter()
        .zip(&expected)
        .take_while(|(a, b)| a == b)
        .count();
    let at = |lines: &[String]| {
        lines
            .get(same)
            .map_or("the end".into(), |line| format!("{line:?}"))
    };
    let (given, expected) = (at(&given), at(&expected));
    Some(format!(
        "printed line {}: {given}, not {expected}",
        same + 1
    ))
}

#[cfg(test)]
mod tests {
    use super::*;
    use crate::program::{all, Seen};

    fn ran(printed: &str, status: i32, said: &str) -> Ran {
        Ran {
            printed: Some(printed.into()),
            status: Some(status),
            said: said.into(),
        }
    }

    fn due(printed: &str, ending: Ending, failed: &[&'static str]) -> Expected {
        Expected {
            printed: printed.into(),
            ending,
            failed: failed.to_vec(),
        }
    }

    #[test]
    fn what_is_printed_is_compared_byte_by_byte() {
        let due = due("DEEP 1 5\nFAIL 0 5\n", Ending::Done, &[]);
        assert_eq!(
            ran("DEEP 1 5\nFAIL 0 5\n", 0, "").difference(&due, true),
            None
        );
        for other in [
            "DEEP 1 5\nFAIL 0 5",
            "DEEP 1 5\n",
            "EFFORT 1 5\nFAIL 0 5\n",
            "",
        ] {
            assert!(
                ran(other, 0, "").difference(&due, false).is_some(),
                "{other}"
            );
        }
    }

    #[test]
    fn statuses() {
        let refused = due("SHORT 0 0\n", Ending::Refused, &[]);
        let gives = |status, said: &str, with| {
            let found = ran("SHORT 0 0\n", status, said).difference(&refused, with);
            found.is_none()
        };
        assert!(gives(1, "", true) && gives(0, "", false) && gives(0, "x", false));
        assert!(!gives(0, "", true) && !gives(1, "", false) && !gives(1, "x\n", true));
    }

    #[test]
    fn one_line_names_each_failure() {
        let failed = due("", Ending::Failed, &["input"]);
        let gives = |said| ran("", 2, said).difference(&failed, true).is_none();
        assert!(gives("no input\n"));
        assert!(!gives("") && !gives("no input") && !gives("no\ninput\n") && !gives("no output\n"));
        let both = due("", Ending::Failed, &["input", "output"]);
        let gives = |said| ran("", 2, said).difference(&both, true).is_none();
        assert!(gives("no output\nno input\n") && !gives("no input\n"));
    }

    fn folder(name: &str) -> std::path::PathBuf {
        let own = format!("cases-run-{name}-{}", std::process::id());
        std::env::temp_dir().join(own)
    }

    fn shell(script: &str) -> Vec<OsString> {
        ["sh", "-c", script].map(OsString::from).to_vec()
    }

    /// A stand-in that prints one thing always is found out.
    #[test]
    fn a_stand_in_differs() {
        let stand_in = shell("echo GRAMMAR");
        let mut seen = Seen::default();
        let mut same = 0;
        let some: Vec<Case> = all().into_iter().step_by(9).collect();
        for case in &some {
            let ran = run(&stand_in, case, &folder("stand-in")).unwrap();
            seen.note(ran.printed.as_deref().unwrap_or_default());
            same += usize::from(ran.difference(&case.expected(), true).is_none());
        }
        assert!(same < some.len() / 10, "{same} of {}", some.len());
        assert!(!seen.missing().is_empty());
    }

    /// The command finds the case in its folder and on its input.
    #[test]
    fn a_case_is_laid_out() {
        let case = |grammar, input| Case {
            name: String::new(),
            grammar,
            input,
            is_full: false,
        };
        let script = shell("cat class.gram - 2>&1; ls; exit 1");
        let table = Grammar::Table(b"table ".to_vec());
        let inputs = [
            Input::File(b"12345".to_vec()),
            Input::Pipe(b"12345".to_vec(), 2),
        ];
        for input in inputs {
            let ran = run(&script, &case(table.clone(), input), &folder("laid")).unwrap();
            assert_eq!(
                ran.printed.as_deref(),
                Some(b"table 12345class.gram\n".as_slice())
            );
            assert_eq!(ran.status, Some(1));
        }
        let is_folder = shell("test -d class.gram || test ! -e class.gram");
        for grammar in [Grammar::Folder, Grammar::Missing] {
            let ran = run(&is_folder, &case(grammar, Input::Folder), &folder("none")).unwrap();
            assert_eq!(ran.status, Some(0));
        }
        assert!(!folder("laid").exists() && !folder("none").exists());
    }
}
