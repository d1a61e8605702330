//! What the command says of an object that it writes.

use std::process::Command;

use crate::binutils::Folder;

/// What is said on standard error of some texts, in files `0.txt`, `1.txt` and so on; the status is 0.
fn said(folder: &str, arguments: &[&str], texts: &[&str]) -> String {
    let folder = Folder::new(folder);
    let names: Vec<String> = (0..texts.len()).map(|i| format!("{i}.txt")).collect();
    for (name, text) in names.iter().zip(texts) {
        folder.write(name, text);
    }
    let mut command = Command::new(env!("CARGO_BIN_EXE_wargnifla"));
    command
        .args(arguments)
        .args(names)
        .current_dir(folder.path());
    let output = command.output().unwrap();
    assert!(output.status.success());
    String::from_utf8(output.stderr).unwrap()
}

/// Label `never` is bound nowhere.
const UNBOUND: &str =
    "label never; label here\nbytes C3; here:\ndefine sort never; define heap here\ndefine s7 0\n";

#[test]
fn definitions_that_an_object_leaves_out_are_named_with_their_lines() {
    let expected = "\
0.txt:3:13: note: the definition of symbol sort is left out of the object, since label never is bound nowhere
    define sort never; define heap here
                ^^^^^
0.txt:4:11: note: the definition of symbol 7 is left out of the object, since label never is bound nowhere
    define s7 0
              ^
";
    let object = ["--object", "rule.o"];
    assert_eq!(said("object-unbound", &object, &[UNBOUND]), expected);
    let joined = said("object-unbound-joined", &object, &["bytes 90", UNBOUND]);
    assert_eq!(joined, expected.replace("0.txt", "1.txt"));
    assert_eq!(said("object-unbound-none", &["-o", "code"], &[UNBOUND]), "");
    let bound = format!("{UNBOUND}bind never");
    assert_eq!(said("object-bound", &object, &[&bound]), "");
}
