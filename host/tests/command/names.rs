//! The name by which messages call the command.

use std::fs;
use std::os::unix::fs::symlink;
use std::process::{Command, Output};

use super::{command, err, out, path};

/// The script `run` beside this command, in a folder where there is nothing to build.
fn run_script(arguments: &[&str]) -> Output {
    let top = path("run-script");
    let _ = fs::remove_dir_all(&top);
    let link = |original: &str, name: &str| {
        let place = top.join(name);
        fs::create_dir_all(place.parent().unwrap()).unwrap();
        symlink(original, place).unwrap();
    };
    link(concat!(env!("CARGO_MANIFEST_DIR"), "/../run"), "run");
    link("/bin/true", "host/build");
    let command = env!("CARGO_BIN_EXE_wargnifla");
    link(command, "target/host/release/wargnifla");
    Command::new("sh")
        .args(["-c", "./run \"$@\"", "sh"])
        .args(arguments)
        .current_dir(&top)
        .output()
        .unwrap()
}

#[test]
fn the_script_goes_by_the_name_that_was_typed() {
    let output = run_script(&["--help"]);
    assert!(
        out(&output).starts_with("usage: ./run [OPTIONS] FILE ..\n"),
        "{}",
        err(&output)
    );
    let output = run_script(&["--fast"]);
    assert_eq!(output.status.code(), Some(2));
    assert_eq!(
        err(&output),
        "error: there is no option --fast; see ./run --help\n"
    );
}

#[test]
fn the_command_goes_by_its_own_name() {
    for name in [None, Some("")] {
        let mut command = command(&["--fast"]);
        command.env_remove("WARGNIFLA_COMMAND");
        command.envs(name.map(|name| ("WARGNIFLA_COMMAND", name)));
        let output = command.output().unwrap();
        assert_eq!(
            err(&output),
            "error: there is no option --fast; see wargnifla --help\n"
        );
    }
    let mut other = command(&["--help"]);
    let output = other.env("WARGNIFLA_COMMAND", "a\x1bb").output().unwrap();
    assert!(out(&output).starts_with("usage: a\\u{1b}b [OPTIONS]"));
}
