//! Pages of joined sheets: the pieces where they stand, and the calls that join filled.

use crate::browser::{find, lines};
use crate::{joined_page, page, run, sheet};

/// Two rules that call each other, and one with jumps and padding, of which the alignment counts from the start of its piece.
fn three_pieces() -> String {
    joined_page(&[
        ("picture-caller.txt", &sheet("join-caller")),
        ("picture-callee.txt", &sheet("join-callee")),
        (
            "",
            "zeros 3; jne far; align 64; zeros 1; align 32 9; zeros 130; far: jmp far; constant 0102; constant-label 0 two",
        ),
    ])
}

#[test]
fn the_data_has_pieces_calls_and_what_each_was_finished_to() {
    let page = three_pieces();
    let labels = "\"labels\":[[1,0,\".words\"],[0,0,\"main\"],[0,16,\".line\"],[1,32,\"greet\"],[4,130,\"far\"],[6,0,\"two\"]]";
    let data = [
        "\"recorded\":\"as joined: 298 bytes, 3 pieces, 2 jumps, 2 alignments\"",
        "\"events\":[[\"align 16 for constant 0\",24,8,-1,\"\",16,4095],[\"jne\",99,6,4,\"line 1\"],[\"align 64\",105,55,-1,\"line 1\",64,4095],\
         [\"align 32 9\",161,0,-1,\"line 1\",32,9],[\"jmp\",291,2,4,\"line 1\"],[\"align 8 for constant 0\",293,3,-1,\"\",8,4095]]",
        labels,
        "\"constants\":[[1,0,0,18],[6,0,5,2]]",
        "\"kinds\":[[\"X86JmpRel32\",4,4],[\"relocation X86CallPLTRel4\",4,\"join\"],[\"relocation X86CallPCRel4\",4,\"join\"],\
         [\"relocation X86GOTPCRel4\",4,\"linker\"]]",
        "\"fields\":[[0,19,0,0,0],[0,5,1,3,-4,\"symbol greet\"],[1,37,2,2,-4,\"symbol line\"],[1,46,3,-1,-4,\"symbol puts\"]]",
        "\"rounds\":[],\"of\":0,\"pieces\":[[0,50,0,\"",
        ",[96,298,1,\"standard input\",\"finished for X64: 202 bytes, alignment 32, layouts 2, long jumps 1 of 2\"]]}",
    ];
    for part in data {
        assert!(page.contains(part), "{part} is missing in\n{page}");
    }
    assert!(page.contains("<h1>picture-caller.txt, picture-callee.txt, standard input</h1>"));
    assert!(
        page.contains("relocation X86CallPLTRel4: symbol greet at 64, addend -4, filled with 55\n")
    );
}

#[test]
fn one_sheet_may_be_joined_and_many_lines_are_cut() {
    let one = joined_page(&[("", "bytes C3")]);
    assert!(one.contains("as joined: 1 byte, 1 piece, 0 jumps, 0 alignments"));
    let many = joined_page(&[("", &"align 2; bytes C3\n".repeat(300))]);
    assert!(many.contains("\n… 402 more lines</pre>"), "{many}");
}

#[test]
fn a_relocation_past_the_end_of_its_piece_is_not_drawn() {
    let past = (
        "picture-past.txt",
        "symbols far; bytes 90; relocation 30 Abs8 far; relocation 32 Abs4 far",
    );
    let page = joined_page(&[past, ("", "zeros 8")]);
    assert!(page.contains("\"fields\":[]"), "{page}");
    assert!(page.contains("2 relocations pass the end of the code, and are not drawn."));
}

#[test]
fn nothing_is_written_where_the_join_is_refused() {
    let output = run(
        &["--join", "--picture", "-"],
        "symbols a; bytes E8; zeros 4; relocation 1 X86PCRel4 a -4",
    );
    assert_eq!(output.status.code(), Some(1));
    assert!(output.stdout.is_empty());
}

#[test]
fn pieces_and_calls_are_drawn_and_explained() {
    let Some(browser) = find() else { return };
    let script = "
        const by = selector => [...document.querySelectorAll(selector)];
        const on = () => by('#strip .choice.on').map(choice => choice.dataset.pick).sort().join(' ');
        const detail = () => document.getElementById('detail').textContent;
        const pick = name => {
            document.querySelector(`#strip [data-pick='${name}']`).dispatchEvent(new MouseEvent('click', { bubbles: true }));
            note(`${on()}: ${detail()}`);
        };
        note(document.getElementById('sentence').textContent);
        note(by('#strip .bracket').length);
        note(by('#strip .piece-name').map(name => name.textContent).slice(1).join(' | '));
        note(by('#strip .block.run').length);
        note(['joined', 'filled', 'left', 'short', 'long', 'grown', 'recorded'].map(kind => by(`#strip .arc.${kind}`).length).join(' '));
        note(by('.with-steps').every(element => element.hidden));
        note(by('.legend li').filter(entry => !entry.hidden).map(entry => entry.textContent).join(' | '));
        note(detail());
        for (const name of ['piece2', 'field1', 'event1', 'event2', 'event3']) pick(name);
        document.body.dispatchEvent(new KeyboardEvent('keydown', { key: 'ArrowRight', bubbles: true }));
        dispatchEvent(new Event('beforeprint'));
        note(by('#printed figure').length);";
    let noted = lines(&browser, &three_pieces(), "", script);
    let crossed =
        "Crossed by jne at 99 (piece 2, line 1); what it grows by is added to their distance.";
    let expected = [
        "as joined: 298 bytes, 3 pieces, 2 jumps, 2 alignments",
        "3",
        "piece 1 | piece 2: standard input",
        "3",
        "2 1 0 1 1 0 0",
        "true",
        "short jump | long jump | padding | skipped alignment: more is needed than it may spend | other bytes | field and its label | \
         call that the join filled | relocation, left for the linker | constant",
        "Each piece was finished alone. The join set it behind the one before, and filled calls of symbols that a piece defines.\
         align 32 9 at 161 (piece 2, line 1): skipped, 31 needed",
        "event1 event2 event3 event4 event5 piece2: piece 2: standard input\
         From 96 to 298; finished for X64: 202 bytes, alignment 32, layouts 2, long jumps 1 of 2.",
        "field1 label3: relocation X86CallPLTRel4, 4 bytes\
         relocation X86CallPLTRel4 at 5: symbol greet, label greet at 64, addend -4, filled with 55.The join filled it.",
        "event1 event2 event3 label4: jne at 99 (piece 2, line 1), to label far\
         label far at 291 less its own end at 105 is 186; it is long, 6 bytes, and reaches every label.\
         It crosses 0 jumps and 2 alignments, marked above.No jump crosses it.",
        &format!(
            "event1 event2: align 64 at 105 (piece 2, line 1)55 bytes of padding, from 105 to 160.{crossed}"
        ),
        &format!(
            "event1 event3: align 32 9 at 161 (piece 2, line 1)skipped at 161: 31 needed, at most 9.{crossed}"
        ),
        "1",
    ];
    assert_eq!(noted, expected);
    let alone = page("bytes C3");
    assert!(alone.contains("\"pieces\":[]"));
}
