//! README.md: what it shows of the command, the text and the wrapper is run and compared.

use std::fs;
use std::path::{Path, PathBuf};
use std::process::Command;

use wargnifla::{Arch, CodeBuffer, Error, read_text};

const README: &str = include_str!("../README.md");

/// The blocks that are indented by four spaces, without these.
fn blocks() -> Vec<String> {
    let mut blocks = Vec::new();
    let (mut block, mut is_fenced) = (String::new(), false);
    for line in README.lines().chain(["end"]) {
        is_fenced ^= line.starts_with("```");
        match line.strip_prefix("    ") {
            Some(line) if !is_fenced => block += &format!("{line}\n"),
            None if line.is_empty() && !block.is_empty() => block.push('\n'),
            _ if !block.is_empty() => blocks.push(std::mem::take(&mut block)),
            _ => {}
        }
    }
    blocks
}

/// Each command, and what it is said to print.
fn commands() -> Vec<(String, String)> {
    let mut commands: Vec<(String, String)> = Vec::new();
    for block in blocks().iter().filter(|block| block.starts_with("$ ")) {
        for line in block.trim_end().lines() {
            match (line.strip_prefix("$ "), commands.last_mut()) {
                (Some(command), _) => commands.push((command.into(), String::new())),
                (None, Some((_, printed))) => *printed += &format!("{line}\n"),
                (None, None) => unreachable!("the block starts with a command"),
            }
        }
    }
    commands
}

/// A folder with the sheets, to run commands in.
fn folder() -> PathBuf {
    let folder = PathBuf::from(env!("CARGO_TARGET_TMPDIR")).join("readme");
    fs::create_dir_all(folder.join("sheets")).unwrap();
    let sheets = Path::new(env!("CARGO_MANIFEST_DIR")).join("../sheets");
    for sheet in fs::read_dir(sheets).unwrap() {
        let sheet = sheet.unwrap();
        fs::copy(sheet.path(), folder.join("sheets").join(sheet.file_name())).unwrap();
    }
    folder
}

/// What a command prints, errors too.
fn printed(command: &str, folder: &Path) -> String {
    let own = Path::new(env!("CARGO_BIN_EXE_wargnifla")).parent().unwrap();
    let path = format!("{}:{}", own.display(), std::env::var("PATH").unwrap());
    let output = Command::new("sh")
        .args(["-c", &format!("exec 2>&1; {command}")])
        .env("PATH", path)
        .current_dir(folder)
        .output()
        .unwrap();
    String::from_utf8(output.stdout).unwrap()
}

/// Compares what is shown, where a line of dots stands for any lines.
fn compare(command: &str, shown: &str, printed: &str) {
    let mut rest = Some(printed);
    let mut skips = false;
    for part in shown.split_inclusive('\n').chain([""]) {
        rest = match part {
            "...\n" => rest,
            "" if skips => Some(""),
            line if skips => rest.and_then(|rest| after_line(rest, line)),
            line => rest.and_then(|rest| rest.strip_prefix(line)),
        };
        assert!(rest.is_some(), "{command}: no {part:?} in\n{printed}");
        skips = part == "...\n";
    }
    assert_eq!(rest, Some(""), "{command}");
}

fn after_line<'a>(text: &'a str, line: &str) -> Option<&'a str> {
    let mut rest = text;
    while !rest.is_empty() {
        if let Some(after) = rest.strip_prefix(line) {
            return Some(after);
        }
        rest = rest.split_once('\n')?.1;
    }
    None
}

#[test]
fn commands_print_what_is_shown() {
    let folder = folder();
    let runs_objects = cfg!(all(target_arch = "x86_64", target_os = "linux"));
    let commands = commands();
    for (command, shown) in &commands {
        if runs_objects || command.contains("wargnifla") {
            compare(command, shown, &printed(command, &folder));
        }
    }
    assert_eq!(commands.len(), 11);
}

#[test]
fn lines_are_compared_in_order() {
    compare("", "a\n...\nd\n", "a\nb\nc\nd\n");
    compare("", "...\nb\n...\n", "a\nb\nc\n");
    for wrong in ["a\n", "...\nc\nb\n", "a\n...\nd\n", "b\n...\n", "...\nb\n"] {
        let compared = std::panic::catch_unwind(|| compare("", wrong, "a\nb\nc\n"));
        assert!(compared.is_err(), "{wrong:?}");
    }
}

#[test]
fn the_text_is_that_of_the_sheet() {
    let blocks = blocks();
    let mut texts = blocks.iter().filter(|block| block.starts_with("start:"));
    let calls = |text: &str| read_text(text).unwrap().calls;
    let sheet = include_str!("../../sheets/loop.txt");
    assert_eq!(calls(texts.next().unwrap()), calls(sheet));
}

#[rustfmt::skip]
fn forward_jump() -> Result<Vec<u8>, Error> {
    let mut buffer = CodeBuffer::new(Arch::X64);        // with_symbols, if relocations name some
    let end = buffer.get_label()?;
    buffer.put_jump(end, None)?;                        // jmp end, or Some(Condition) for a jcc
    buffer.put_bytes(&[0x90; 100])?;
    buffer.try_bind_label(end)?;
    Ok(buffer.finish()?.data().to_vec())                // EB 64, then 100 times 90
}

#[test]
fn the_program_is_the_one_above() {
    let (_, program) = README.split_once("```rust\n").unwrap();
    let (program, _) = program.split_once("```").unwrap();
    let (_, function) = program.split_once("\n\n").unwrap();
    assert!(include_str!("readme.rs").contains(function), "{function}");
    let code = forward_jump().unwrap();
    assert_eq!((code.len(), &code[..2]), (102, &[0xEB, 0x64][..]));
    assert!(code[2..].iter().all(|byte| *byte == 0x90));
}
