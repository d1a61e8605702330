//! What `--json` prints: read, checked against host/json-schema.json, and compared with the library.

mod reader;
mod schema;

use std::fs;
use std::path::{Path, PathBuf};
use std::process::{Command, Output};

use reader::Value;
use wargnifla::{read_text, write_sheet};

const SCHEMA: &str = include_str!("../../json-schema.json");

fn run(arguments: &[&str]) -> Output {
    Command::new(env!("CARGO_BIN_EXE_wargnifla"))
        .args(arguments)
        .output()
        .unwrap()
}

/// The object that is printed, and the exit status; the object is as the schema says.
fn printed(arguments: &[&str]) -> (Value, i32) {
    let output = run(&[&["--json"], arguments].concat());
    let text = String::from_utf8(output.stdout).unwrap();
    let value = reader::read(&text).unwrap_or_else(|wrong| panic!("{wrong} in\n{text}"));
    let schema = reader::read(SCHEMA).unwrap();
    if let Err(wrong) = schema::validate(&schema, &value) {
        panic!("{arguments:?}{wrong}");
    }
    let status = output.status.code().unwrap();
    assert_eq!(value["errors"].list().is_empty(), status == 0);
    (value, status)
}

/// A file of its own for each test.
fn file(name: &str, bytes: impl AsRef<[u8]>) -> String {
    let path = PathBuf::from(env!("CARGO_TARGET_TMPDIR")).join(format!("json-{name}"));
    fs::write(&path, bytes).unwrap();
    path.to_str().unwrap().into()
}

fn sheets() -> Vec<String> {
    let folder = Path::new(env!("CARGO_MANIFEST_DIR")).join("../sheets");
    let sheets = fs::read_dir(folder).unwrap();
    let mut sheets: Vec<String> = sheets
        .map(|sheet| sheet.unwrap().path().to_str().unwrap().into())
        .collect();
    sheets.sort_unstable();
    assert!(sheets.len() >= 10);
    sheets
}

fn hex(bytes: &[u8]) -> String {
    bytes.iter().map(|byte| format!("{byte:02X}")).collect()
}

#[test]
fn every_sheet_for_users_is_printed_with_its_code() {
    for sheet in sheets() {
        let (value, status) = printed(&[&sheet]);
        assert_eq!(status, 0, "{sheet}");
        let code = run(&["-o", "-", &sheet]).stdout;
        assert_eq!(value["code"], hex(&code).as_str(), "{sheet}");
        assert_eq!(value["format"], 1);
        assert_eq!(value["version"], env!("CARGO_PKG_VERSION"));
        let layouts = value["rounds"].list().len() as i128;
        assert_eq!(value["layouts"], layouts, "{sheet}");
        for open in value["open"]["labels"].list() {
            let Value::Number(label) = open else {
                panic!("{open:?}");
            };
            let label = &value["labels"][*label as usize];
            assert_eq!(label["recorded"], Value::Null, "{sheet}");
        }
    }
}

#[test]
fn jumps_alignments_labels_and_rounds() {
    let text = "jmp far; je near; align 16 3\nnear: zeros 200\nalign 8\nfar: bytes C3\n";
    let (value, _) = printed(&[&file("events.txt", text)]);
    let jump = &value["events"][0];
    assert_eq!(jump["event"], "jump");
    assert_eq!(jump["form"], "long");
    assert_eq!(jump["mnemonic"], "jmp");
    assert_eq!(jump["line"], 1);
    assert_eq!(jump["call"], 2);
    assert_eq!(jump["final_size"], 5);
    assert_eq!(value["events"][1]["form"], "short");
    let skipped = &value["events"][2];
    assert_eq!(skipped["form"], "skipped");
    assert_eq!(skipped["most"], 3);
    let padding = &value["events"][3];
    assert_eq!(padding["form"], "padding");
    assert_eq!(padding["line"], 3);
    assert_eq!(padding["multiple"], 8);
    assert_eq!(padding["final_size"], 1);
    let far = &value["labels"][0];
    assert_eq!(far["name"], "far");
    assert_eq!(far["recorded"], 216);
    assert_eq!(far["final"], 208);
    let first = &value["rounds"][0]["lengthened"];
    assert_eq!(first.list().len(), 1);
    assert_eq!(first[0]["event"], 0);
    assert_eq!(value["rounds"][1]["lengthened"].list().len(), 0);
    assert_eq!(value["rounds"][1]["bytes"], 209);
}

#[test]
fn addends_of_64_bits_are_exact() {
    let text = "symbols a\nzeros 16\nrelocation 0 Abs8 a 9223372036854775807\n\
                relocation 8 Abs8 s0 -9223372036854775808\n";
    let (value, _) = printed(&[&file("addends.txt", text)]);
    assert_eq!(value["relocations"][0]["addend"], i128::from(i64::MAX));
    assert_eq!(value["relocations"][1]["addend"], i128::from(i64::MIN));
    assert_eq!(value["relocations"][0]["elf_type"], "R_X86_64_64");
    assert_eq!(value["relocations"][0]["name"], "a");
}

#[test]
fn what_finish_does_not_write_is_there() {
    let text = "arch x86; bytes E9 00 00 00 00\njump 0 5 end\nend:";
    let (value, status) = printed(&[&file("unwritten.txt", text)]);
    assert_eq!(status, 0);
    let entry = &value["unwritten"][0];
    assert_eq!(entry["entry"], "jump");
    assert_eq!(entry["line"], 2);
    assert_eq!(entry["filled"], Value::Bool(false));
    assert_eq!(value["notes"][0]["line"], 2);
    assert_eq!(value["notes"][0]["column"], 1);
}

#[test]
fn a_refused_sheet_has_its_error_and_what_was_recorded() {
    let name = file("refused.txt", "bytes 90; jmp ende\nend:\n  align 16\n");
    let (value, status) = printed(&[&name]);
    assert_eq!(status, 1);
    let error = &value["errors"][0];
    assert_eq!(error["number"], 15);
    assert_eq!(error["file"], name.as_str());
    assert_eq!(
        (&error["line"], &error["column"]),
        (&Value::Number(1), &Value::Number(15))
    );
    assert_eq!(error["end_column"], 19);
    assert!(
        error["sentence"]
            .text()
            .starts_with("finish: UnboundLabel: ")
    );
    assert_eq!(error["notes"][0]["sentence"], "did you mean 'end'?");
    assert_eq!(value["arch"], "X64");
    assert_eq!(value["code"], Value::Null);
    assert_eq!(value["labels"].list().len(), 2);
    assert_eq!(value["events"][1]["recorded_size"], 10);
    assert_eq!(value["events"][1]["form"], Value::Null);
    assert_eq!(value["open"]["number"], 1);
    assert_eq!(value["open"]["labels"], Value::List(vec![Value::Number(0)]));
    let name = file("refused-call.txt", "bytes 90\nbind 3\n");
    let (value, status) = printed(&[&name]);
    assert_eq!(
        (status, &value["errors"][0]["number"]),
        (1, &Value::Number(8))
    );
}

#[test]
fn a_malformed_sheet_has_its_error() {
    let name = file(
        "malformed.txt",
        "bytes 90\n# \u{6f22}\n  bytes \"\\\u{7}\u{e9}",
    );
    let (value, status) = printed(&[&name]);
    assert_eq!(status, 2);
    let error = &value["errors"][0];
    assert_eq!(error["number"], Value::Null);
    assert_eq!(
        (&error["line"], &error["column"]),
        (&Value::Number(3), &Value::Number(9))
    );
    assert!(error["sentence"].text().contains("is no hexadecimal digit"));
    assert_eq!(
        (&value["arch"], &value["code"]),
        (&Value::Text("X64".into()), &Value::Null)
    );
    let (value, status) = printed(&[&file("half-typed.txt", "jmp end\nbyt")]);
    assert_eq!(status, 2);
    assert_eq!(value["open"]["number"], 1);
    let (value, status) = printed(&["no/such/\u{1b}\"file"]);
    assert_eq!(status, 2);
    assert_eq!(value["errors"][0]["file"], "no/such/\\u{1b}\"file");
    let (_, status) = printed(&[&file("no-text.txt", b"n\n\xFF")]);
    assert_eq!(status, 2);
}

#[test]
fn a_binary_sheet_has_calls_and_no_lines() {
    let sheet = |text| write_sheet(&read_text(text).unwrap().calls).unwrap();
    let (value, _) = printed(&[&file("binary", sheet("n; z 5; j 0 5 0; l 0"))]);
    assert_eq!(value["events"][0]["call"], 2);
    assert_eq!(value["events"][0]["line"], Value::Null);
    let (value, status) = printed(&[&file("refused-binary", sheet("n; l 0; l 0"))]);
    assert_eq!(status, 1);
    assert_eq!(value["errors"][0]["call"], 2);
    assert_eq!(value["errors"][0]["line"], Value::Null);
    assert!(value["errors"][0]["sentence"].text().starts_with("bind: "));
    let (_, status) = printed(&["--binary", &file("broken-binary", [2, 0, 0, 0, 1])]);
    assert_eq!(status, 1);
}

#[test]
fn joined_sheets_have_the_whole_and_each_piece() {
    let caller = file(
        "caller.txt",
        "symbols sort\nb E8; z 4\no 1 X86CallPLTRel4 sort -4\n",
    );
    let callee = file(
        "callee.txt",
        "define sort entry\nb 90\nentry: b C3; z 8; o 2 Abs8 entry\n",
    );
    let (value, status) = printed(&[&caller, &callee]);
    assert_eq!(status, 0);
    let code = run(&["-o", "-", &caller, &callee]).stdout;
    assert_eq!(value["code"], hex(&code).as_str());
    assert_eq!(value["filled"][0]["value"], 28);
    assert_eq!(value["filled"][0]["label"], 0);
    assert_eq!(value["relocations"][0]["piece"], 1);
    assert_eq!(value["relocations"][0]["final"], 34);
    assert_eq!(value["labels"][0]["piece"], 1);
    assert_eq!(value["pieces"][1]["offset"], 32);
    assert_eq!(value["pieces"][1]["file"], callee.as_str());
    assert_eq!(value["pieces"][0]["code"], "E800000000");
}

#[test]
fn joined_sheets_that_are_refused_have_all_errors() {
    let caller = file(
        "undefined.txt",
        "symbols sort\nb E8; z 4\no 1 X86CallPLTRel4 sort -4\n",
    );
    let (value, status) = printed(&["--join", &caller]);
    assert_eq!(
        (status, &value["errors"][0]["number"]),
        (1, &Value::Number(29))
    );
    assert_eq!(value["code"], Value::Null);
    assert_eq!(value["pieces"][0]["code"], "E800000000");
    let refused = file("piece-refused.txt", "n; jmp 0");
    let malformed = file("piece-malformed.txt", "labl");
    let (value, status) = printed(&[&refused, &caller, &malformed]);
    assert_eq!(status, 1);
    assert_eq!(value["errors"][0]["file"], refused.as_str());
    assert_eq!(value["errors"][1]["file"], malformed.as_str());
    assert_eq!(value["pieces"].list().len(), 3);
}

#[test]
fn files_are_written_beside_it() {
    let sheet = file("beside.txt", "z 4\no 0 X86SecRel s0");
    let code = file("beside.bin", "");
    let (_, status) = printed(&["-o", &code, &sheet]);
    assert_eq!((status, fs::read(&code).unwrap()), (0, vec![0; 4]));
    let (value, status) = printed(&["--object", &code, &sheet]);
    assert_eq!(
        (status, &value["errors"][0]["number"]),
        (1, &Value::Number(24))
    );
    assert_eq!(value["code"], "00000000");
}

#[test]
fn standard_error_is_the_same_as_without() {
    let refused = file("same-refused.txt", "jmp end");
    let noted = file("same-noted.txt", "n; l 0; z 4; r 0 0 0");
    for arguments in [&[&refused][..], &[&noted], &[&noted, &noted]] {
        let plain: Vec<&str> = arguments.iter().map(|name| name.as_str()).collect();
        let json = [&["--json"], &plain[..]].concat();
        assert_eq!(run(&json).stderr, run(&plain).stderr);
        assert_eq!(run(&json).status, run(&plain).status);
    }
}

#[test]
fn what_takes_the_same_place_is_an_error() {
    let sheet = file("place.txt", "b 90");
    for (option, value) in [
        ("-o", "-"),
        ("--object", "-"),
        ("--hex", ""),
        ("--rounds", ""),
    ] {
        let mut arguments = vec!["--json", option, &sheet];
        if !value.is_empty() {
            arguments.insert(2, value);
        }
        let output = run(&arguments);
        assert_eq!(output.status.code(), Some(2), "{option}");
        assert!(output.stdout.is_empty());
    }
}

#[cfg(target_os = "linux")]
#[test]
fn an_object_that_cannot_be_printed_hides_no_refusal() {
    let sheet = file("unprinted.txt", "jmp end");
    let full = fs::OpenOptions::new().write(true).open("/dev/full");
    let output = Command::new(env!("CARGO_BIN_EXE_wargnifla"))
        .args(["--json", &sheet])
        .stdout(full.unwrap())
        .output()
        .unwrap();
    assert_eq!(output.status.code(), Some(1));
    let said = String::from_utf8(output.stderr).unwrap();
    assert!(said.contains("error[15]: finish: "), "{said}");
    assert!(
        said.contains("error: standard output can't be written"),
        "{said}"
    );
}
