//! The program under test, in a folder with its files.

use std::ffi::OsStr;
use std::io::Write;
use std::path::PathBuf;
use std::process::{Child, Command, Stdio};

pub struct Program {
    pub path: PathBuf,
    pub folder: PathBuf,
}

impl Program {
    pub fn write(&self, name: impl AsRef<OsStr>, bytes: &[u8]) {
        std::fs::write(self.folder.join(name.as_ref()), bytes).expect("a file that can be written");
    }

    /// Whether it prints this line for two names.
    pub fn prints(&self, first: impl AsRef<OsStr>, second: impl AsRef<OsStr>, line: &str) -> Result<(), String> {
        held(self.started(first, second, Stdio::null())?, line)
    }

    /// The same where standard input is a pipe that hands over some pieces, with a pause after each.
    pub fn prints_from_pieces(&self, names: [&str; 2], pieces: &[&[u8]], line: &str) -> Result<(), String> {
        let mut child = self.started(names[0], names[1], Stdio::piped())?;
        let mut input = child.stdin.take().expect("its standard input");
        for piece in pieces {
            // a program that has ended takes no more; what it printed decides
            let _ = input.write_all(piece);
            std::thread::sleep(std::time::Duration::from_millis(50));
        }
        drop(input);
        held(child, line)
    }

    fn started(&self, first: impl AsRef<OsStr>, second: impl AsRef<OsStr>, input: Stdio) -> Result<Child, String> {
        Command::new(&self.path)
            .current_dir(&self.folder)
            .args([first.as_ref(), second.as_ref()])
            .stdin(input)
            .stdout(Stdio::piped())
            .stderr(Stdio::piped())
            .spawn()
            .map_err(|error| format!("it can't be started: {error}"))
    }
}

/// Holds all that a program printed, and how it ended, to the line.
fn held(child: Child, line: &str) -> Result<(), String> {
    let output = child.wait_with_output().map_err(|error| error.to_string())?;
    let [printed, said] = [&output.stdout, &output.stderr].map(|bytes| String::from_utf8_lossy(bytes));
    if output.stdout != format!("{line}\n").as_bytes() {
        return Err(format!("it printed {printed:?} and not {:?}; {}", format!("{line}\n"), output.status));
    }
    if !output.status.success() {
        return Err(format!("{}", output.status));
    }
    if !said.is_empty() {
        return Err(format!("it said on standard error {said:?}"));
    }
    Ok(())
}
