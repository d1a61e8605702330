//! Pages of `--picture`: what stands in them, and what a browser makes of them where one is at hand.

mod browser;
mod in_browser;
mod joined;
mod pages;
#[path = "../host/random.rs"]
mod random;

use std::fs;
use std::io::Write;
use std::path::{Path, PathBuf};
use std::process::{Command, Output, Stdio};

/// The names and texts of the sheets for users.
fn sheets() -> Vec<(String, String)> {
    let folder = Path::new(env!("CARGO_MANIFEST_DIR")).join("../sheets");
    let mut sheets: Vec<(String, String)> = fs::read_dir(folder)
        .unwrap()
        .map(|entry| {
            let path = entry.unwrap().path();
            let name = path.file_stem().unwrap().to_str().unwrap().into();
            (name, fs::read_to_string(path).unwrap())
        })
        .collect();
    sheets.sort_unstable();
    assert!(sheets.len() >= 10);
    sheets
}

/// The text of a sheet for users.
fn sheet(name: &str) -> String {
    let (_, text) = sheets().into_iter().find(|sheet| sheet.0 == name).unwrap();
    text
}

/// What the command does with a text as standard input.
fn run(arguments: &[&str], text: &str) -> Output {
    let mut child = Command::new(env!("CARGO_BIN_EXE_wargnifla"))
        .args(arguments)
        .arg("-")
        .stdin(Stdio::piped())
        .stdout(Stdio::piped())
        .stderr(Stdio::piped())
        .spawn()
        .unwrap();
    let text = text.to_owned();
    let mut input = child.stdin.take().unwrap();
    // Written aside, since a long page fills the pipe that is read here.
    let writer = std::thread::spawn(move || {
        let _ = input.write_all(text.as_bytes());
    });
    let output = child.wait_with_output().unwrap();
    writer.join().unwrap();
    output
}

/// What the command prints of a text that finishes.
fn printed(arguments: &[&str], text: &str) -> String {
    let output = run(arguments, text);
    let errors = String::from_utf8_lossy(&output.stderr);
    assert!(output.status.success(), "{errors}");
    String::from_utf8(output.stdout).unwrap()
}

fn page(text: &str) -> String {
    printed(&["--picture", "-"], text)
}

/// The page of texts that are joined, the last of them as standard input.
fn joined_page(texts: &[(&str, &str)]) -> String {
    let ((_, last), others) = texts.split_last().unwrap();
    let files = others.iter().map(|(name, text)| {
        let file = path(name);
        fs::write(&file, text).unwrap();
        file.to_str().unwrap().to_owned()
    });
    let files: Vec<String> = files.collect();
    let mut arguments = vec!["--join", "--picture", "-"];
    arguments.extend(files.iter().map(String::as_str));
    printed(&arguments, last)
}

/// Jumps of which each crosses the next alone, so that one grows in every round, from the last to the first.
fn chain(jumps: usize) -> String {
    let mut text = String::from("jmp t1\nzeros 70\n");
    for i in 2..=jumps {
        text += &format!("jmp t{i}\nzeros 55\nt{}: zeros 15\n", i - 1);
    }
    text + &format!("zeros 58\nt{jumps}:\n")
}

/// Jumps both ways and padding that changes.
const MIXED: &str = "start: bytes 48 85 C0; jne far; align 16; again: zeros 100; je start; zeros 12; jmp again; align 32; zeros 40; jmp start
jle middle; zeros 60; middle: align 8; zeros 33; far: bytes C3";

/// A path of its own for each test's file.
fn path(name: &str) -> PathBuf {
    let path = PathBuf::from(env!("CARGO_TARGET_TMPDIR")).join(name);
    let _ = fs::remove_file(&path);
    path
}
