//! What stands in a page, without a browser.

use std::collections::HashMap;
use std::fs;

use wargnifla::{Arch, CodeBuffer, Picture};

use crate::{MIXED, chain, page, path, printed, run, sheet, sheets};

#[test]
fn every_sheet_gives_a_page_that_takes_nothing_from_elsewhere() {
    for (name, text) in sheets() {
        let page = page(&text);
        assert!(
            page.starts_with("<!DOCTYPE html>\n<html lang=\"en\">"),
            "{name}"
        );
        for part in [
            "<meta charset=\"utf-8\">",
            "<meta name=\"viewport\"",
            "<title>",
            "<noscript>",
            "<svg class=\"still\"",
        ] {
            assert!(page.contains(part), "{name} lacks {part}");
        }
        let icon = "<link rel=\"icon\" href=\"data:,\">";
        assert!(page.contains(icon), "{name}: a browser would ask for one");
        assert!(page.contains("content=\"default-src 'none'; "), "{name}");
        let page = page.replace(icon, "");
        for outside in ["http:", "https:", "src=", "href=", "@import", "//cdn"] {
            assert!(!page.contains(outside), "{name} has {outside}");
        }
        let taken = page.matches("url(").count();
        assert_eq!(taken, page.matches("url(#hatch)").count(), "{name}");
        assert_eq!(page.matches("</html>").count(), 1, "{name}");
    }
}

/// The lines of the rounds that `--rounds` shows: number and sentence.
fn rounds(text: &str) -> Vec<(String, String)> {
    let shown = printed(&["--rounds", "--full"], text);
    let (_, rounds) = shown.split_once("\nrounds\n").unwrap();
    let lines = rounds.lines().take_while(|line| !line.is_empty());
    lines
        .filter_map(|line| {
            let (number, sentence) = line.trim_start().split_once("  ")?;
            number.parse::<u32>().ok()?;
            Some((number.into(), sentence.into()))
        })
        .collect()
}

#[test]
fn the_data_has_the_rounds_that_are_shown_as_text() {
    let sheets = sheets().into_iter().map(|(_, text)| text);
    for text in sheets.chain([MIXED.into(), chain(40)]) {
        let page = page(&text);
        for (number, sentence) in rounds(&text) {
            let entry = format!("[{number},\"{sentence}\",");
            assert!(page.contains(&entry), "{entry} is missing for\n{text}");
        }
    }
    let page = page(&sheet("case-c"));
    let data = "\"first\":[2,2],\"rounds\":[[1,\"132 bytes; 1 jump becomes long\",[],[1]],\
                [2,\"135 bytes; 1 jump becomes long\",[1,3],[0]],[3,\"138 bytes; every short jump reaches: settled\",[0,3],[]]],\"of\":3";
    assert!(page.contains(data), "{page}");
}

#[test]
fn recorded_and_finished_bytes_stand_next_to_each_other() {
    let page = page("jmp end; align 16; end: bytes C3");
    let rows = [
        "<tr class=\"jump\" data-pick=\"event0\"><td>0</td><td>E9 00 00 00 00</td><td>0</td><td>EB 0E</td>\
         <td>jmp short to label end at 16, distance 14</td></tr>",
        "<td>align 16: 14 bytes of padding, 11 recorded</td></tr>",
        "<tr class=\"label\" data-pick=\"label0\"><td>16</td><td></td><td>16</td><td></td><td>label end</td></tr>",
    ];
    for row in rows {
        assert!(page.contains(row), "{row} is missing in\n{page}");
    }
    let filled = crate::page("arch x86; end: jmp end");
    assert!(
        filled.contains("<td>E9 00 00 00 00</td><td>0</td><td>E9 <b>FB</b> <b>FF</b>"),
        "{filled}"
    );
    let pooled = crate::page("constant 0102; constant-label 0 c; bytes C3");
    let row = "<tr class=\"constant\"><td></td><td>pooled</td><td>8</td><td>01 02</td><td>constant 0</td></tr>";
    assert!(pooled.contains(row), "{pooled}");
}

#[test]
fn alignments_have_their_multiple_and_the_most_that_they_spend() {
    let page = page("jmp end; align 16; bytes 90; align 8 6; end:");
    let events = "\"events\":[[\"jmp\",0,5,0,\"line 1\"],[\"align 16\",5,11,-1,\"line 1\",16,4095],\
                  [\"align 8 6\",17,0,-1,\"line 1\",8,6]]";
    assert!(page.contains(events), "{page}");
    let row = "<tr class=\"padding\" data-pick=\"event2\"><td>17</td><td></td><td>17</td><td></td>\
               <td>align 8 skipped: 7 needed, at most 6</td></tr>";
    assert!(page.contains(row), "{page}");
}

#[test]
fn fields_have_their_kinds_places_and_targets() {
    let with_jump = page("jmp end; bytes 90 90 90 90; ref 6 end X86JmpRel32 3; end: zeros 4");
    let data = "\"kinds\":[[\"X86JmpRel32\",4,4]],\"fields\":[[1,1,0,0,3]]";
    assert!(with_jump.contains(data), "{with_jump}");
    let linked = page(&sheet("hello-aarch64"));
    let data = "\"kinds\":[[\"relocation Aarch64AdrPrelPgHi21\",4,\"linker\"],[\"relocation Aarch64AddAbsLo12Nc\",4,\"linker\"],\
                [\"relocation Arm64Call\",4,\"linker\"]],\"fields\":[[0,4,0,0,0],[0,8,1,0,0],[0,12,2,-1,0,\"symbol puts\"]]";
    assert!(linked.contains(data), "{linked}");
    let without = page("bytes 90 90; end: ref 0 end X86BranchRel8; use 1 end X86BranchRel8");
    assert!(without.contains("\"fields\":[[0,1,0,0,0]]"), "{without}");
    let past = page("symbols puts; bytes 90; relocation 7 Abs8 puts; relocation 0 Abs4 puts");
    assert!(past.contains("\"fields\":[]"), "{past}");
    assert!(past.contains("2 relocations pass the end of the code, and are not drawn."));
}

#[test]
fn without_a_jump_the_page_says_that_nothing_was_relaxed() {
    for text in ["", "bytes 90", "arch aarch64; align 8; zeros 4", "arch x86"] {
        let page = page(text);
        assert!(page.contains("Nothing was relaxed: there is no jump to relax."));
        assert!(page.contains("\"rounds\":[],\"of\":0"), "{page}");
    }
    let page = page("arch x86; label; bind 0; zeros 5; jump 0 5 0");
    assert!(page.contains("1 jump or field was recorded and is not in the code."));
}

#[test]
fn offsets_are_hexadecimal_where_that_is_asked_for() {
    let page = printed(&["--hex", "--picture", "-"], "zeros 26; end: bytes 90");
    assert!(page.contains("<td>0x1A</td>") && page.contains("{\"hex\":true,"));
}

#[test]
fn names_can_do_no_harm() {
    let mut buffer = CodeBuffer::new(Arch::X64);
    let end = buffer.get_label().unwrap();
    buffer.name_label(end, "</script><i>\"'&\\\u{2028}");
    buffer.put_jump(end, None).unwrap();
    buffer.try_bind_label(end).unwrap();
    let finished = buffer.finish_with_recording().unwrap();
    let page = Picture::new("</title><script>", &finished)
        .places(&["</script>".into()])
        .page();
    assert_eq!(page.matches("<script").count(), 2);
    assert_eq!(page.matches("</script>").count(), 2);
    assert!(!page.contains("<i>") && !page.contains('\u{2028}'));
    assert!(page.contains("<title>&lt;/title&gt;&lt;script&gt;: rounds of relaxation</title>"));
    assert!(page.contains("\\u003c/script\\u003e\\u003ci\\u003e"));
}

/// The colours of the style sheet by name: those on white, and with them those on black.
fn colours() -> [HashMap<&'static str, &'static str>; 2] {
    let style = include_str!("../../src/picture/page.css");
    let (light, rest) = style.split_once("@media screen").unwrap();
    let (dark, _) = rest.split_once("box-sizing").unwrap();
    let named = |text: &'static str| {
        let lines = text
            .lines()
            .filter_map(|line| line.trim().strip_prefix("--"));
        lines.filter_map(|line| line.trim_end_matches(';').split_once(": #"))
    };
    [
        named(light).collect(),
        named(light).chain(named(dark)).collect(),
    ]
}

/// How far two colours are apart, by WCAG 2: from 1 to 21.
fn contrast(a: &str, b: &str) -> f64 {
    let light = |colour: &str| {
        let part = |i: usize| {
            let part = f64::from(u8::from_str_radix(&colour[i..i + 2], 16).unwrap()) / 255.0;
            match part <= 0.03928 {
                true => part / 12.92,
                false => ((part + 0.055) / 1.055).powf(2.4),
            }
        };
        0.2126 * part(0) + 0.7152 * part(2) + 0.0722 * part(4) + 0.05
    };
    let (a, b) = (light(a), light(b));
    (a / b).max(b / a)
}

#[test]
fn texts_and_shapes_stand_out_from_what_is_behind_them() {
    let texts = [
        ("ink", "paper panel field-ground padding-ground"),
        ("quiet", "paper panel run"),
        ("grown", "paper"),
        ("paper", "constant short grown recorded"),
    ];
    let shapes = [
        ("short", "paper run"),
        ("grown", "paper run"),
        ("long", "paper run"),
        ("recorded", "paper run"),
        ("field", "paper run"),
        ("padding", "paper run padding-ground"),
        ("constant", "paper run"),
        ("edge", "paper panel"),
    ];
    for colours in colours() {
        for (pairs, least) in [(&texts[..], 4.5), (&shapes[..], 3.0)] {
            for (before, grounds) in pairs {
                for ground in grounds.split(' ') {
                    let found = contrast(colours[before], colours[ground]);
                    assert!(found >= least, "{before} on {ground}: {found:.2}");
                }
            }
        }
    }
}

#[test]
fn pages_of_many_jumps_are_of_modest_size() {
    let page = page(&chain(2000));
    assert!(page.len() < 600_000, "{}", page.len());
    assert!(page.contains("… 7799 more rows"), "the table is cut");
    assert!(page.contains("[2001,\"150058 bytes; every short jump reaches: settled\","));
}

#[test]
fn too_many_rounds_are_left_out_and_their_changes_added_up() {
    let page = page(&chain(4200));
    assert!(page.contains("[4096,\"") && !page.contains("[4097,\""));
    let (_, last) = page.split_once("[4201,\"").unwrap();
    let (sentence, changes) = last.split_once("\",[").unwrap();
    assert_eq!(sentence, "315058 bytes; every short jump reaches: settled");
    // The jumps that grew in rounds 4096 to 4200 are the first 105.
    let changes = changes.split_once("],[").unwrap().0;
    let expected: Vec<String> = (0..105).map(|event| format!("{event},3")).collect();
    assert_eq!(changes, expected.join(","));
}

#[test]
fn the_page_is_written_by_the_rules_of_all_outputs() {
    let (page, sheet) = (path("page.html"), path("sheet.txt"));
    let name = page.to_str().unwrap();
    let listing = printed(&["--picture", name], "bytes 90");
    assert!(listing.starts_with("  offset  bytes"), "{listing}");
    assert!(
        fs::read_to_string(&page)
            .unwrap()
            .contains("<h1>standard input</h1>")
    );

    fs::remove_file(&page).unwrap();
    let refused = run(&["--picture", name], "label; jump 0 5 0");
    assert_eq!(refused.status.code(), Some(1));
    assert!(!page.exists());

    let fails = |arguments: &[&str], sentence: &str| {
        let output = run(arguments, "bytes 90");
        assert_eq!(output.status.code(), Some(2));
        let said = String::from_utf8(output.stderr).unwrap();
        assert_eq!(said, format!("error: {sentence}; nothing is written\n"));
        assert!(!page.exists());
    };
    fails(
        &["-o", name, "--picture", name],
        &format!("-o and --picture both name {name}"),
    );
    fails(
        &["--picture", "-", "--write-sheet", "-"],
        "--write-sheet and --picture both name -",
    );
    fs::write(&sheet, "bytes 90").unwrap();
    let sheet = sheet.to_str().unwrap();
    let output = std::process::Command::new(env!("CARGO_BIN_EXE_wargnifla"))
        .args(["--picture", sheet, sheet])
        .output()
        .unwrap();
    let said = String::from_utf8(output.stderr).unwrap();
    let sentence = "which is the sheet itself; nothing is written\n";
    assert_eq!(said, format!("error: --picture names {sheet}, {sentence}"));
    assert_eq!(fs::read(sheet).unwrap(), b"bytes 90");
}
