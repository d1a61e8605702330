//! GNU's binutils, where they are at hand.

use std::fs;
use std::io::{self, Write};
use std::path::{Path, PathBuf};
use std::process::{Command, Output, Stdio};

/// Whether some programs are at hand; where one is not, a sentence says what is passed over.
pub fn are_at_hand(programs: &[&str], what: &str) -> bool {
    let missing = programs.iter().find(|program| !runs(program));
    if let Some(program) = missing {
        // On standard error itself: what a test prints is shown only where it fails.
        let _ = writeln!(
            io::stderr(),
            "passed over: {what}, for {program} is not at hand"
        );
    }
    missing.is_none()
}

fn runs(program: &str) -> bool {
    let mut asked = Command::new(program);
    asked.arg("--version").stdin(Stdio::null());
    asked.stdout(Stdio::null()).stderr(Stdio::null());
    asked.status().is_ok_and(|status| status.success())
}

/// A folder of its own for each test, in which programs run.
pub struct Folder(PathBuf);

impl Folder {
    pub fn new(name: &str) -> Self {
        let folder = PathBuf::from(env!("CARGO_TARGET_TMPDIR")).join(name);
        let _ = fs::remove_dir_all(&folder);
        fs::create_dir_all(&folder).unwrap();
        Self(folder)
    }

    pub fn path(&self) -> &Path {
        &self.0
    }

    pub fn write(&self, name: &str, content: impl AsRef<[u8]>) {
        fs::write(self.0.join(name), content).unwrap();
    }

    pub fn read(&self, name: &str) -> Vec<u8> {
        fs::read(self.0.join(name)).unwrap()
    }

    /// What a program prints that has nothing to complain of.
    pub fn printed(&self, command: &str) -> String {
        let output = self.run(command);
        let errors = String::from_utf8_lossy(&output.stderr);
        assert_eq!(errors, "", "{command}");
        assert!(output.status.success(), "{command}");
        String::from_utf8(output.stdout).unwrap()
    }

    /// Runs a program, a file of the folder if its name starts with `./`.
    pub fn run(&self, command: &str) -> Output {
        let mut words = command.split(' ');
        let program = words.next().unwrap();
        let program = match program.strip_prefix("./") {
            Some(file) => self.0.join(file),
            None => program.into(),
        };
        let mut started = Command::new(program);
        started.args(words).current_dir(&self.0);
        started.output().unwrap()
    }
}
