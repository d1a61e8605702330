//! The sheets for users and the example programs, run.

use std::path::{Path, PathBuf};
use std::process::{Command, Output};

fn stdout(output: &Output) -> String {
    let errors = String::from_utf8_lossy(&output.stderr);
    assert!(output.status.success(), "{errors}");
    String::from_utf8(output.stdout.clone()).unwrap()
}

/// What the command prints of a sheet, its rounds too.
fn shown(sheet: &str) -> String {
    shown_with("--rounds", sheet)
}

fn shown_with(option: &str, sheet: &str) -> String {
    let path = Path::new(env!("CARGO_MANIFEST_DIR"))
        .join("../sheets")
        .join(sheet);
    let output = Command::new(env!("CARGO_BIN_EXE_wargnifla"))
        .arg(option)
        .arg(path)
        .output()
        .unwrap();
    stdout(&output)
}

/// Checks the record and some lines of what a sheet shows.
fn shows(sheet: &str, record: &str, lines: &[&str]) {
    let text = shown(sheet);
    assert!(
        text.ends_with(&format!("finished for {record}\n")),
        "{text}"
    );
    for line in lines {
        assert!(text.contains(line), "{line} is missing in\n{text}");
    }
}

#[test]
fn sheets_of_document_01() {
    let record = |bytes, layouts, long, of| {
        format!("X64: {bytes} bytes, alignment 32, layouts {layouts}, long jumps {long} of {of}")
    };
    shows("case-a.txt", &record(129, 1, 0, 1), &["       0  EB 7F  "]);
    shows(
        "case-b.txt",
        &record(133, 2, 1, 1),
        &["       0  E9 80 00 00 00  "],
    );
    shows(
        "case-c.txt",
        &record(138, 3, 2, 2),
        &["is 128, outside", "is 130, outside"],
    );
    shows(
        "case-d.txt",
        &record(16, 1, 0, 1),
        &["       0  EB 0E  ", "14 bytes of padding, 11 recorded"],
    );
    shows("case-e.txt", &record(128, 1, 0, 1), &["     126  EB 80  "]);
    shows(
        "case-f.txt",
        &record(132, 2, 1, 1),
        &["     127  E9 7C FF FF FF  "],
    );
}

#[test]
fn sheets_of_fields_and_constants() {
    shows(
        "aarch64.txt",
        "AArch64: 4388 bytes, alignment 32, layouts 0, long jumps 0 of 0",
        &[
            "A64Adrp21 in B0000001",
            "A64AddAbsLo12 in 91048C21",
            "A64Branch26 in 17FFFFFD",
        ],
    );
    shows(
        "add-template.txt",
        "AArch64: 56 bytes, alignment 32, layouts 0, long jumps 0 of 0",
        &[
            "A64AddAbsLo12 in 9100A000: label copies at 40, low 12 bits 40",
            "A64AddAbsLo12 in 9100C021: label least at 48, low 12 bits 48",
        ],
    );
    shows(
        "pooled-constant.txt",
        "X64: 32 bytes, alignment 32, layouts 1, long jumps 0 of 1, open until pooled 2",
        &[
            "je short to label 0 at 18",
            "9  0B 00 00 00",
            "constant 0, label 1",
            "X86CallPLTRel4: symbol 0",
        ],
    );
    shows(
        "wide-constant.txt",
        "X64: 136 bytes, alignment 64, layouts 1, long jumps 0 of 2, open until pooled 2",
        &[
            "11  31 00 00 00                 X86JmpRel32: label weights at 64, distance 49",
            "21  67 00 00 00                 X86JmpRel32: label bias at 128, distance 103",
            "62  66 90                       align 64 for constant 0: 2 bytes of padding, 58 recorded",
            "64  00 00 00 00 00 00 F0 3F     constant 0, label weights",
            "128                              align 8 for constant 1: no padding",
        ],
    );
}

#[test]
fn a_sheet_with_ceilings() {
    shows(
        "ceiling.txt",
        "X64: 183 bytes, alignment 32, layouts 3, long jumps 2 of 5",
        &[
            "align 32 skipped: 24 needed, at most 10\n",
            "align 32, at most 10: 6 bytes of padding, skipped when recorded\n",
        ],
    );
}

#[test]
fn sheets_for_the_linker() {
    shows(
        "hello.txt",
        "X64: 46 bytes, alignment 32, layouts 0, long jumps 0 of 0, open until pooled 1",
        &[
            "       7  X86PCRel4 (R_X86_64_PC32): label .hello, addend -4",
            "      12  X86CallPLTRel4 (R_X86_64_PLT32): symbol puts, addend -4",
            "      32  48 65 6C 6C 6F 2C 20 6C     constant 0, label .hello",
        ],
    );
    shows(
        "hello-aarch64.txt",
        "AArch64: 46 bytes, alignment 32, layouts 0, long jumps 0 of 0, open until pooled 2",
        &[
            "Aarch64AdrPrelPgHi21 (R_AARCH64_ADR_PREL_PG_HI21): label .hello",
            "Aarch64AddAbsLo12Nc (R_AARCH64_ADD_ABS_LO12_NC): label .hello",
            "Arm64Call (R_AARCH64_CALL26): symbol puts",
        ],
    );
}

#[test]
fn a_sheet_with_names() {
    shows(
        "loop.txt",
        "X64: 11 bytes, alignment 32, layouts 1, long jumps 0 of 2",
        &[
            "je short to label end at 10, distance 5",
            "jmp short to label start at 0, distance -10",
            "       1        17        10  end",
        ],
    );
}

#[test]
fn sheets_that_are_joined() {
    let text = shown_joined(&["join-caller.txt", "join-callee.txt"]);
    for line in [
        "       5  37 00 00 00                 relocation X86CallPLTRel4: symbol greet at 64, addend -4, filled with 55\n",
        "      69  C7 FF FF FF                 relocation X86CallPCRel4: symbol line at 16, addend -4, filled with -57\n",
        "      16  symbol line: label .line\n",
        "       1        14        78  X86GOTPCRel4 (R_X86_64_GOTPCREL): symbol puts, addend -4\n",
    ] {
        assert!(text.contains(line), "{line} is missing in\n{text}");
    }
    let record =
        "joined for X64: 87 bytes, alignment 32, pieces 2, relocations filled 2, remaining 1\n";
    assert!(text.ends_with(record), "{text}");
}

/// What the command prints of several sheets, run where their names are as they stand here.
fn shown_joined(sheets: &[&str]) -> String {
    let folder = Path::new(env!("CARGO_MANIFEST_DIR")).join("..");
    let sheets = sheets.iter().map(|sheet| format!("sheets/{sheet}"));
    let output = Command::new(env!("CARGO_BIN_EXE_wargnifla"))
        .args(sheets)
        .current_dir(folder)
        .output()
        .unwrap();
    stdout(&output)
}

/// What is open after each call of a sheet.
fn shown_open(sheet: &str) -> String {
    let text = shown_with("--open", sheet);
    let (_, after) = text.split_once("\nopen\n").expect("the table's title");
    let (table, _) = after.split_once("\n\n").expect("the table's end");
    table.to_owned()
}

#[test]
fn a_sheet_of_what_is_still_open() {
    shows(
        "still-open.txt",
        "X64: 40 bytes, alignment 32, layouts 1, long jumps 0 of 1, open until pooled 1",
        &["       6  16 00 00 00                 X86JmpRel32: label factor at 32, distance 22"],
    );
    let sheet = include_str!("../../sheets/still-open.txt");
    let table = shown_open("still-open.txt");
    // Where the sheet's comments have a number, the line's last call leaves it.
    let commented = (1..).zip(sheet.lines()).filter_map(|(line, text)| {
        let (_, comment) = text.split_once("# ")?;
        let digits = comment.split(':').next()?;
        Some((line, digits.parse::<u32>().ok()?))
    });
    let mut found = 0;
    for (line, number) in commented {
        let start = format!("{line:>8}  ");
        let row = table.lines().rfind(|row| row.starts_with(&start)).unwrap();
        assert_eq!(row[26..32].trim().parse(), Ok(number), "{row}");
        found += 1;
    }
    assert_eq!(found, 5);
}

/// What an example program prints. Cargo builds the examples with the tests, into a folder beside the command.
fn printed(example: &str) -> String {
    let mut program = PathBuf::from(env!("CARGO_BIN_EXE_wargnifla"));
    program.set_file_name("examples");
    program.push(example);
    assert!(program.exists(), "cargo build --examples builds {example}");
    stdout(&Command::new(program).output().unwrap())
}

#[test]
fn forward_jump() {
    assert_eq!(
        printed("forward_jump"),
        "a run of 127: 129 bytes, layouts 1, first byte EB\n\
         a run of 128: 133 bytes, layouts 2, first byte E9\n"
    );
}

#[test]
fn loop_heads() {
    assert_eq!(
        printed("loop_heads"),
        "recorded at 24: 8 bytes of padding; finished at 24: 8 bytes of padding\n\
         recorded at 58: 6 bytes of padding; finished at 54: 10 bytes of padding\n\
         recorded at 100: skipped, 28 needed; finished at 96: no padding\n\
         recorded at 117: skipped, 11 needed; finished at 109: skipped, 19 needed\n\
         151 bytes\n"
    );
}

#[test]
fn pooled_constant() {
    assert_eq!(
        printed("pooled_constant"),
        "24 bytes, constant at 16\nX86CallPLTRel4 at 9: symbol 0\n"
    );
}

#[test]
fn join_rules() {
    assert_eq!(
        printed("join_rules"),
        "2 rules: 34 bytes, at 0 and 32\n\
         symbol sort at 33, filled with 28 at 1\n\
         29 SymbolUndefined: relocation 0 of piece 0, at 1 there, names symbol sort, which no piece defines\n"
    );
}

#[test]
fn run_sheet() {
    let text = printed("run_sheet");
    assert!(text.starts_with("a sheet of 123 bytes\n"), "{text}");
    assert!(text.contains("75 0E                       jne short to label 0 at 16, distance 14\n"));
}
