//! The lines that objects say their code comes from.

use std::ops::Range;
use std::process::{Command, Output};

use wargnifla::{
    Arch, Call, CodeBuffer, ObjectError, SourceLine, SourceLines, read_relas, read_text,
    write_sheet,
};

use crate::Rule;
use crate::binutils::{Folder, are_at_hand};
use crate::random::Random;
use crate::reader::Object;

/// Relaxed jumps, one of which comes from two lines, alignments that change, and a repeated group.
const RELAXED: &str = "\
start:
jmp end             # long
bytes 90
align 16
bytes E9            # short in the end
zeros 4
jump 16 5 start
align 8; align 8    # from 3 bytes to 6
zeros 200
end: je start
2 ( bytes 90
    bytes 91 )
constant 01; constant-label 0
";

/// The lines of the same, and where their code starts; and where it ends.
const RELAXED_LINES: [(u32, u32); 12] = [
    (2, 0),
    (3, 5),
    (4, 6),
    (5, 16),
    (6, 17),
    (8, 18),
    (9, 24),
    (10, 224),
    (11, 230),
    (12, 231),
    (11, 232),
    (12, 233),
];
const RELAXED_END: u32 = 234;

/// Runs the command in a folder.
fn run(folder: &Folder, arguments: &[&str]) -> Output {
    let mut command = Command::new(env!("CARGO_BIN_EXE_wargnifla"));
    command.args(arguments).current_dir(folder.path());
    command.output().unwrap()
}

/// Writes an object with lines of some sheets.
fn write_object(folder: &Folder, object: &str, sheets: &[&str]) {
    let arguments = [&["--debug", "--object", object], sheets].concat();
    let output = run(folder, &arguments);
    assert_eq!(String::from_utf8_lossy(&output.stderr), "");
    assert!(output.status.success());
}

/// The rows that a program shows of a file's table of lines: file, line if it is no end, and address.
fn rows(folder: &Folder, readelf: &str, file: &str) -> Vec<(String, Option<u32>, u32)> {
    let printed = folder.printed(&format!("{readelf} --wide --debug-dump=decodedline {file}"));
    let rows = printed.lines().filter_map(|line| {
        let mut words = line.split_whitespace();
        let (file, line, address) = (words.next()?, words.next()?, words.next()?);
        let address = match address.strip_prefix("0x") {
            Some(digits) => u32::from_str_radix(digits, 16).ok()?,
            None => address.parse().ok()?,
        };
        Some((file.into(), line.parse().ok(), address))
    });
    rows.collect()
}

#[test]
fn readelf_shows_the_lines_of_relaxed_code() {
    if !are_at_hand(&["readelf"], "lines of an object shown by readelf") {
        return;
    }
    let folder = Folder::new("object-lines");
    folder.write("relaxed.txt", RELAXED);
    write_object(&folder, "relaxed.o", &["relaxed.txt"]);
    let row = |line, address| ("relaxed.txt".to_owned(), line, address);
    let lines = RELAXED_LINES.map(|(line, address)| row(Some(line), address));
    let expected = [&lines[..], &[row(None, RELAXED_END)]].concat();
    assert_eq!(rows(&folder, "readelf", "relaxed.o"), expected);
}

#[test]
fn joined_sheets_have_their_lines_where_they_are_linked() {
    let linkers = [(Arch::X64, ""), (Arch::AArch64, "aarch64-linux-gnu-")];
    let folder = Folder::new("object-lines-linked");
    for (arch, prefix) in linkers {
        let [linker, readelf, addr2line] =
            ["ld", "readelf", "addr2line"].map(|program| format!("{prefix}{program}"));
        let programs = [&linker, &readelf, &addr2line].map(String::as_str);
        if !are_at_hand(&programs, &format!("lines of linked {arch} code")) {
            continue;
        }
        let name = arch.to_string().to_lowercase();
        let text = |calls| format!("arch {name}\n\n{calls}");
        folder.write("first.txt", text("bytes 00000000\nalign 8\nbytes 00000000"));
        folder.write(
            "second.txt",
            text("bytes 00000000; constant 01; constant-label 0"),
        );
        write_object(&folder, "joined.o", &["first.txt", "second.txt"]);
        write_object(&folder, "alone.o", &["second.txt"]);
        let (first, second) = ("first.txt".to_owned(), "second.txt".to_owned());
        let base = match arch {
            Arch::AArch64 => 4096,
            _ => 32,
        };
        let row = |file: &String, line, address| (file.clone(), line, address);
        let place = 0x10000;
        let alone = place + base + 32;
        let expected = [
            row(&first, Some(3), place),
            row(&first, Some(4), place + 4),
            row(&first, Some(5), place + 8),
            row(&first, None, place + 12),
            row(&second, Some(3), place + base),
            row(&second, None, place + base + 4),
            row(&second, Some(3), alone),
            row(&second, None, alone + 4),
        ];
        folder.printed(&format!(
            "{linker} -e 0 -Ttext={place:#x} -o program joined.o alone.o"
        ));
        assert_eq!(rows(&folder, &readelf, "program"), expected);
        let found = folder.printed(&format!("{addr2line} -s -e program {:x}", place + base));
        assert_eq!(found, "second.txt:3\n");
        let found = folder.printed(&format!("{addr2line} -s -e program {:x}", alone));
        assert_eq!(found, "second.txt:3\n");
    }
}

#[test]
fn an_object_with_lines_has_its_sections() {
    for (arch, addresses) in [(Arch::X64, [1, 10]), (Arch::AArch64, [257, 258])] {
        let mut rule = Rule::new(arch, &[]);
        rule.bytes(&[0; 4]);
        let object = rule
            .finish()
            .object_with_lines(&lines(&[0..2, 3..4]))
            .unwrap();
        let object = Object::read(&object);
        let relas = |section: &str| -> Vec<(u32, u32, u32, i64)> {
            let relas = read_relas(&object.section(section).bytes).unwrap();
            let relas = relas.iter();
            relas
                .map(|rela| {
                    (
                        rela.offset,
                        rela.elf_type.number(),
                        rela.symbol,
                        rela.addend,
                    )
                })
                .collect()
        };
        let [wide, narrow] = addresses;
        // Symbols 1 to 3 are the sections of code, lines and abbreviations.
        let unit = [(6, narrow, 3, 0), (12, narrow, 2, 0), (16, wide, 1, 0)];
        assert_eq!(relas(".rela.debug_info"), unit);
        let table = relas(".rela.debug_line");
        let sequences: Vec<_> = table.iter().map(|rela| (rela.1, rela.2, rela.3)).collect();
        assert_eq!(sequences, [(wide, 1, 0), (wide, 1, 3)]);
        let numbers = [".debug_line", ".debug_info"].map(|name| {
            let mut sections = object.sections.iter();
            1 + sections.position(|section| section.name == name).unwrap() as u32
        });
        let targets =
            [".rela.debug_line", ".rela.debug_info"].map(|name| object.section(name).sh_info);
        assert_eq!(targets, numbers);
    }
}

/// Lines 1, 2 and so on of one file.
fn lines(ranges: &[Range<u32>]) -> SourceLines {
    let line = |(line, code): (u32, &Range<u32>)| SourceLine {
        code: code.clone(),
        file: 0,
        line,
    };
    SourceLines {
        folder: "/rules".into(),
        files: vec!["sort.rule".into()],
        lines: (1..).zip(ranges).map(line).collect(),
    }
}

#[test]
fn unfit_lines_are_refused() {
    let mut rule = Rule::new(Arch::X64, &[]);
    rule.bytes(&[0x90; 4]);
    let code = rule.finish();
    assert!(code.object_with_lines(&lines(&[])).is_ok());
    assert!(code.object_with_lines(&lines(&[0..1, 1..4])).is_ok());
    let refused = |lines: SourceLines, part: &str| {
        let Err(ObjectError::Lines(sentence)) = code.object_with_lines(&lines) else {
            panic!("{lines:?}");
        };
        assert!(sentence.contains(part), "{sentence}");
    };
    for ranges in [[0..1, 0..2], [0..1, 2..2], [0..1, 3..5], [2..3, 0..1]] {
        refused(lines(&ranges), "entry 1 of the lines is unfit");
    }
    let mut other_file = lines(&[0..1, 1..2]);
    other_file.lines[0].file = 1;
    refused(
        other_file,
        "0..1 of file 1, behind 0 in code of 4 bytes from 1 files",
    );
    let named = |folder: &str, files: &[&str]| SourceLines {
        folder: folder.into(),
        files: files.iter().map(|file| (*file).into()).collect(),
        lines: Vec::new(),
    };
    refused(named("", &[]), "of no file");
    refused(named("", &["a", ""]), "the name of file 1");
    refused(named("", &["a\0"]), "the name of file 0");
    refused(named("\0", &["a"]), "the folder");
}

#[test]
fn a_binary_sheet_has_no_lines() {
    let folder = Folder::new("object-lines-binary");
    let calls = read_text("bytes C3").unwrap().calls;
    folder.write("rule.sheet", write_sheet(&calls).unwrap());
    folder.write("rule.txt", "bytes C3");
    for sheets in [&["rule.sheet"][..], &["rule.txt", "rule.sheet"]] {
        let arguments = [&["--debug", "--object", "rule.o"], sheets].concat();
        let output = run(&folder, &arguments);
        let said = String::from_utf8(output.stderr).unwrap();
        assert_eq!(
            said,
            "rule.sheet: error: --debug is about the lines of a text, and this is a binary sheet\n"
        );
        assert_eq!(output.status.code(), Some(2));
        assert!(!folder.path().join("rule.o").exists());
    }
}

/// Calls that a recording with four labels accepts, but for a label that is bound twice; a jump's bytes come from two calls.
fn drawn(random: &mut Random, at: u32) -> Vec<Call> {
    let label = random.below(4);
    let bytes = |count: u32| Call::Bytes(vec![0x90; count as usize].into());
    match random.below(6) {
        0 => vec![bytes(100)],
        1 => vec![bytes(random.below(9))],
        2 => vec![Call::Bind(label)],
        3 | 4 => vec![Call::Align {
            multiple: 1 << random.below(6),
            most: random.below(20),
        }],
        _ => {
            let (first, second, before) = (random.below(6), 2 + random.below(6), random.below(2));
            let jump = Call::Jump {
                start: at + before,
                length: first + second,
                label,
                condition: random.below(17),
            };
            vec![bytes(before + first), bytes(second), jump]
        }
    }
}

#[test]
fn the_ranges_of_calls_make_up_the_code() {
    let mut random = Random(11);
    let mut relaxed = 0;
    for _ in 0..500 {
        let arch = [Arch::X64, Arch::AArch64][random.below(2) as usize];
        let mut buffer = CodeBuffer::new(arch);
        let mut calls = vec![Call::NewLabel; 4];
        for call in &calls {
            buffer.call(call).unwrap();
        }
        for _ in 0..40 {
            let more = drawn(&mut random, buffer.cur_offset()).into_iter();
            calls.extend(more.filter(|call| buffer.call(call).is_ok()));
        }
        let binds = (0..4).map(Call::Bind);
        calls.extend(binds.filter(|bind| buffer.call(bind).is_ok()));
        let code = buffer.finish().unwrap();
        let ranges = code.call_ranges(&calls).into_iter();
        let ends = ranges.filter(|range| !range.is_empty());
        let end = ends.fold(0, |end, range| {
            assert_eq!(range.start, end, "{calls:?}");
            range.end
        });
        assert_eq!(end as usize, code.total_size(), "{calls:?}");
        relaxed += u32::from(code.layouts() > 0);
    }
    assert!(relaxed > 100, "{relaxed}");
}
