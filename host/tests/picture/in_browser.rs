//! What a browser makes of a page: its buttons and keys, what stands out, and what is said. What is expected is reckoned here from the rounds.

use std::iter::repeat_with;

use wargnifla::{
    Arch, Change, CodeBuffer, Lengthened, Recording, Round, RoundChanges, Rounds, Turn, read_text,
    symbols_named,
};

use crate::browser::{find, lines, lines_of_all};
use crate::random::Random;
use crate::{MIXED, chain, page, sheet, sheets};

/// The width of a page on a desk and on a phone, in pixels.
const WIDE: u32 = 1200;
const NARROW: u32 = 360;

/// What scripts of these tests share.
const TOOLS: &str = "
const by = selector => [...document.querySelectorAll(selector)];
const press = key => document.body.dispatchEvent(new KeyboardEvent('keydown', { key, bubbles: true }));
const button = id => document.getElementById(id).click();
const picked = pick => document.querySelector(`#strip [data-pick='${pick}']`);
const said = () => document.getElementById('sentence').textContent;
const detail = () => document.getElementById('detail').textContent;
const on = () => by('#strip .choice.on').map(choice => choice.dataset.pick).sort().join(' ');
const arcs = kind => by(`#strip .arc.${kind}`).length;
const seen = () => `${said()} | ${arcs('recorded')} ${arcs('short')} ${arcs('grown')} ${arcs('long')} | ${by('#strip .padding.changed').length}`;
";

/// Walks forward by the button and back by the key, and notes what stands in each step.
const WALK: &str = "
button('fit');
note(seen());
while (!document.getElementById('forward').disabled) {
    button('forward');
    note(seen());
    for (const item of by('#detail > ul > li')) {
        note(`why: ${item.firstChild.textContent}`);
        for (const reason of item.querySelectorAll('p, li')) note(`why: ${reason.textContent}`);
    }
}
const last = seen();
press('Home');
press('ArrowLeft');
note(`first: ${seen()}`);
press('End');
if (seen() !== last) note('End leads elsewhere');
const back = [];
while (!document.getElementById('back').disabled) {
    back.unshift(said());
    press('ArrowLeft');
}
note(`back: ${back.join(' / ')}`);
dispatchEvent(new Event('beforeprint'));
note(`printed: ${by('#printed figure svg').length}`);
";

/// A recorded text and its rounds.
struct Expected {
    recording: Recording,
    rounds: Rounds,
    finished: usize,
}

impl Expected {
    fn new(text: &str) -> Self {
        let script = read_text(text).unwrap();
        let symbols = script.symbols.unwrap_or(symbols_named(&script.calls));
        let mut buffer = CodeBuffer::with_symbols(script.arch.unwrap_or(Arch::X64), symbols);
        for call in &script.calls {
            buffer.call(call).unwrap();
        }
        for (label, name) in &script.names {
            buffer.name_label(wargnifla::Label::from_id(*label), name);
        }
        let finished = buffer.finish_with_recording().unwrap();
        finished.rounds().check(finished.code()).unwrap();
        Self {
            recording: finished.recording().clone(),
            rounds: finished.rounds().clone(),
            finished: finished.code().total_size(),
        }
    }

    fn is_padding(&self, event: usize) -> bool {
        self.recording.pooled().events[event].alignment().is_some()
    }

    /// How much padding a round changes, from the one before or from what was recorded.
    fn changed(&self, round: usize) -> usize {
        if round > 1 {
            let changes = self.rounds.changes();
            let of_round = changes.filter(|change| change.round as usize == round);
            return of_round
                .filter(|change| self.is_padding(change.event))
                .count();
        }
        let first = self.rounds.first().iter().enumerate();
        let changed = first.filter(|(event, segment)| {
            let recorded = segment.old_end - segment.old_start;
            self.is_padding(*event) && segment.new_end - segment.new_start != recorded
        });
        changed.count()
    }

    /// Why an event starts elsewhere in a round than in the step before.
    fn moved(&self, event: usize, round: usize) -> Vec<String> {
        let by_round = self.rounds.by_round();
        let causes = by_round[round - 1].in_front_of(event);
        if causes.is_empty() {
            return Vec::new();
        }
        let moved = |round: &RoundChanges| round.moved(event);
        let recorded = i64::from(self.recording.pooled().events[event].start());
        let from = recorded + by_round[..round - 1].iter().map(moved).sum::<i64>();
        let to = from + moved(&by_round[round - 1]);
        let before = match round {
            1 => "as recorded".into(),
            _ => format!("in round {}", round - 1),
        };
        let head = format!("Its start moved from {from} {before} to {to} in round {round}, since");
        let cause = |change: &Change| {
            let verb = if change.by < 0 { "shrank" } else { "grew" };
            format!(" {verb} by {}", change.by.unsigned_abs())
        };
        [head].into_iter().chain(causes.iter().map(cause)).collect()
    }

    /// The sentence of each step, the first one cut, with the arcs of each state and the padding that changed.
    fn walk(&self) -> Vec<String> {
        let jumps = self.recording.jumps().count();
        let of = self.rounds.rounds().len();
        let recorded = format!("as recorded: {jumps} 0 0 0 | 0");
        let (mut lines, mut long) = (vec![recorded], 0);
        for (number, round) in (1..).zip(self.rounds.rounds()) {
            let grown = round.lengthened.len();
            lines.push(format!(
                "round {number} of {of}: {round} | 0 {} {grown} {long} | {}",
                jumps - long - grown,
                self.changed(number)
            ));
            for turn in &round.turns {
                lines.push(turned(turn, number));
                lines.extend(self.moved(turn.event, number));
            }
            for step in &round.lengthened {
                lines.push(format!(
                    "{} at {} less its own end at {} is {}, outside -128..127: it becomes long.",
                    self.recording.names.text(step.label),
                    step.target,
                    step.from,
                    step.distance()
                ));
                lines.extend(history(step));
            }
            long += grown;
        }
        let finished = match self.finished {
            1 => "1 byte".into(),
            many => format!("{many} bytes"),
        };
        lines.push(format!(
            "finished: {finished} | 0 {} 0 {long} | 0",
            jumps - long
        ));
        lines
    }
}

/// What an alignment comes to that is skipped in a round and was not in the one before, or the reverse.
fn turned(turn: &Turn, round: usize) -> String {
    let before = turn.before.map_or(String::new(), |before| {
        format!("; in round {}: {before}", round - 1)
    });
    format!("): {}{before}", turn.padding)
}

/// Why the distance of a jump is another than in round 1.
fn history(step: &Lengthened) -> Vec<String> {
    if step.crossed.is_empty() {
        return Vec::new();
    }
    let first = step.first_distance;
    let head = format!("{first} in round 1; since then, between the jump and its label,");
    let change = |change: &Change| {
        let verb = if change.by < 0 { "shrank" } else { "grew" };
        let by = change.by.unsigned_abs();
        format!(" {verb} by {by} after round {}", change.round - 1)
    };
    let changes = step.crossed.iter().map(change);
    [head].into_iter().chain(changes).collect()
}

/// A drawn text, short enough for every arc to have pixels of its own.
fn drawn(random: &mut Random) -> String {
    let mut unbound = vec!["a", "b", "c", "d"];
    let mut text = String::new();
    for _ in 0..20 + random.below(30) {
        let label = ["a", "b", "c", "d"][random.below(4) as usize];
        text += &match random.below(11) {
            0..=2 => format!("jmp {label}\n"),
            3 | 4 => format!("jne {label}\n"),
            5 => format!("align {}\n", 1 << random.below(6)),
            6 => format!(
                "zeros 5\nalign {} {}\n",
                8 << random.below(3),
                1 + random.below(12)
            ),
            7 if !unbound.is_empty() => {
                let next = random.below(unbound.len() as u32) as usize;
                format!("{}:\n", unbound.swap_remove(next))
            }
            _ => format!("zeros {}\n", random.below(40)),
        };
    }
    let rest: String = unbound.iter().map(|label| format!("{label}: ")).collect();
    text + &rest
}

/// Whether some jump grows because of another, and no list of the page is cut.
fn is_worth_it(text: &str) -> bool {
    const MOST_SAID: usize = 13;
    let expected = Expected::new(text);
    let rounds = &expected.rounds;
    let mut steps = rounds.rounds().iter().flat_map(|round| &round.lengthened);
    let is_cut = |(number, round): (usize, &Round)| {
        let mut histories = round.lengthened.iter().map(|step| step.crossed.len());
        let turns = round.turns.iter();
        let mut moves = turns.map(|turn| expected.moved(turn.event, number).len());
        round.lengthened.len() > MOST_SAID
            || round.turns.len() > MOST_SAID
            || histories.any(|changes| changes > MOST_SAID)
            || moves.any(|lines| lines > 1 + MOST_SAID)
    };
    let mut numbered = (1..).zip(rounds.rounds());
    steps.any(|step| !step.crossed.is_empty()) && !numbered.any(is_cut)
}

/// Compares what was noted on a walk with what is expected of it.
fn compare(name: &str, noted: &[String], expected: &Expected) {
    let walk = expected.walk();
    let steps = expected.rounds.rounds().len() + 2;
    assert_eq!(noted.len(), walk.len() + 3, "{name}: {noted:#?}");
    let (recorded, rest) = noted.split_first().unwrap();
    let counts = walk[0].strip_prefix("as recorded: ").unwrap();
    assert!(recorded.starts_with("as recorded: "), "{name}: {recorded}");
    assert!(recorded.ends_with(&format!("| {counts}")), "{recorded}");
    for (noted, expected) in rest.iter().zip(&walk[1..]) {
        match noted.strip_prefix("why: ") {
            Some(why) => assert!(why.ends_with(expected), "{name}: {why}"),
            None => assert_eq!(noted, expected, "{name}"),
        }
    }
    let [first, back, printed] = &rest[walk.len() - 1..] else {
        unreachable!()
    };
    assert_eq!(*first, format!("first: {recorded}"), "{name}");
    assert_eq!(back.split(" / ").count(), steps - 1, "{name}: {back}");
    assert_eq!(*printed, format!("printed: {steps}"), "{name}");
}

#[test]
fn steps_show_what_the_rounds_did() {
    let Some(browser) = find() else { return };
    let script = format!("{TOOLS}{WALK}");
    let mut sheets = sheets();
    sheets.push(("mixed".into(), MIXED.into()));
    sheets.push(("chain".into(), chain(9)));
    let mut random = Random(0x5EED);
    let drawn = repeat_with(|| drawn(&mut random)).filter(|text| is_worth_it(text));
    sheets.extend(
        (0..16)
            .zip(drawn)
            .map(|(i, text)| (format!("drawn {i}"), text)),
    );
    let pages: Vec<String> = sheets.iter().map(|(_, text)| page(text)).collect();
    let noted = lines_of_all(&browser, &pages, WIDE, &script);
    assert_eq!(noted.len(), sheets.len());
    for ((name, text), noted) in sheets.iter().zip(noted) {
        compare(name, &noted, &Expected::new(text));
    }
}

#[test]
fn what_is_chosen_stands_out_and_is_explained() {
    let Some(browser) = find() else { return };
    let script = format!(
        "{TOOLS}
        note(`${{said()}} / ${{on()}}`);
        note(detail());
        note(by('#strip .reach').length);
        press('Escape');
        note(`nothing: ${{on()}}`);
        picked('label1').dispatchEvent(new PointerEvent('pointerover', {{ bubbles: true, pointerType: 'mouse' }}));
        note(`hovered: ${{on()}}`);
        note(detail());
        document.body.dispatchEvent(new PointerEvent('pointerover', {{ bubbles: true, pointerType: 'mouse' }}));
        note(`left: ${{on()}}`);
        picked('event1').focus();
        note(`focused: ${{on()}}`);
        document.activeElement.blur();
        picked('event1').dispatchEvent(new MouseEvent('click', {{ bubbles: true }}));
        note(`tapped: ${{on()}}`);
        note(by('tr.on').map(row => row.dataset.pick).join(' '));
        document.querySelector('tr[data-pick=label0]').click();
        note(`in the table: ${{on()}}`);"
    );
    let noted = lines(
        &browser,
        &page(&sheet("case-c")),
        "step=2&pick=event0",
        &script,
    );
    let expected = [
        "round 2 of 3: 135 bytes; 1 jump becomes long / event0 event1 label0",
        "jmp recorded at 0 (line 9), to label 0label 0 at 132 less its own end at 2 is 130, outside -128..127: it becomes long.\
         127 in round 1; since then, between the jump and its label,jmp recorded at 5 (line 11) grew by 3 after round 1\
         It crosses 1 jump and 0 alignments, marked above.No jump crosses it.",
        "1",
        "nothing: ",
        "hovered: event1 label1",
        "label 1 at 135, pushed by 3 since the step before1 jump to it:jmp recorded at 5 (line 11): distance 128, long",
        "left: ",
        "focused: event1 label1",
        "tapped: event1 label1",
        "event1",
        "in the table: event0 label0",
    ];
    assert_eq!(noted, expected);
}

#[test]
fn padding_and_label_of_a_constant_are_explained() {
    let Some(browser) = find() else { return };
    let script = format!(
        "{TOOLS}
        note(detail());
        picked('event2').dispatchEvent(new PointerEvent('pointerover', {{ bubbles: true, pointerType: 'mouse' }}));
        note(detail());"
    );
    let page = page(&sheet("wide-constant"));
    let noted = lines(&browser, &page, "step=2&pick=label0", &script);
    let expected = [
        "label weights at 64Constant 0 stands here, 64 bytes.No jump goes to it.\
         Named by 1 field:X86JmpRel32 at 11: label weights at 64, distance 49",
        "align 64 for constant 02 bytes of padding, from 62 to 64; 58 recorded.Its start moved from 70 as recorded to 62 in round 1, since\
         je recorded at 3 (line 13) shrank by 4jne recorded at 60 (line 25) shrank by 4No jump crosses it.",
    ];
    assert_eq!(noted, expected);
}

#[test]
fn an_alignment_that_is_skipped_is_explained() {
    let Some(browser) = find() else { return };
    let script = format!(
        "{TOOLS}
        note(by('#strip .skipped').length);
        note(detail());
        press('ArrowRight');
        note(by('#strip .skipped').length);
        note(detail());
        note(document.getElementById('with-skipped').hidden);"
    );
    let page = page(&sheet("ceiling"));
    let noted = lines(&browser, &page, "step=1&pick=event2", &script);
    let crossed = "Crossed by je recorded at 0 (line 12), jle recorded at 6 (line 13); \
                   what it grows by is added to their distance.";
    let shrank = "Its start moved from 26 as recorded to 18 in round 1, since\
                  je recorded at 0 (line 12) shrank by 4jle recorded at 6 (line 13) shrank by 4";
    let expected = [
        "2",
        &format!(
            "align 32 10 recorded at 26 (line 15)skipped at 18: 14 needed, at most 10; 6 recorded.{shrank}{crossed}"
        ),
        "1",
        &format!(
            "align 32 10 recorded at 26 (line 15)10 bytes of padding, from 22 to 32; 0 in round 1, 6 recorded.\
             {shrank}Its start moved from 18 in round 1 to 22 in round 2, sinceje recorded at 0 (line 12) grew by 4{crossed}"
        ),
        "false",
    ];
    assert_eq!(noted, expected);
}

#[test]
fn padding_names_what_moved_it_and_nothing_in_front_of_what_stays() {
    let Some(browser) = find() else { return };
    let script = format!(
        "{TOOLS}
        const moved = () => by('#detail p, #detail ul li').map(line => line.textContent).filter(line => !/rossed by|No jump/.test(line)).join(' / ');
        note(moved());
        note(on());
        location.hash = 'step=1&pick=event1';
        fromAddress();
        note(moved());"
    );
    // What the first alignment ends on stays where it is, so that jmp, in front of it, has no part in what moves the second.
    let text = "jmp far; zeros 3; align 16; jne far; zeros 5; align 8; zeros 128; far:";
    let noted = lines(&browser, &page(text), "step=2&pick=event3", &script);
    let expected = [
        "5 bytes of padding, from 27 to 32; 1 in round 1, 5 recorded. / Its start moved from 27 as recorded to 23 in round 1, since / \
         jne recorded at 16 (line 1) shrank by 4 / Its start moved from 23 in round 1 to 27 in round 2, since / jne recorded at 16 (line 1) grew by 4",
        "event0 event2 event3",
        "11 bytes of padding, from 5 to 16; 8 recorded. / Its start moved from 8 as recorded to 5 in round 1, since / \
         jmp recorded at 0 (line 1) shrank by 3",
    ];
    assert_eq!(noted, expected);
}

#[test]
fn the_panel_has_room_for_all_that_it_says_and_rows_of_buttons_have_gaps() {
    let Some(browser) = find() else { return };
    let script = format!(
        "{TOOLS}
        press('ArrowRight');
        press('ArrowRight');
        const panel = document.getElementById('detail');
        note(panel.scrollHeight <= panel.clientHeight);
        const boxes = by('.bar button').map(button => button.getBoundingClientRect());
        const rows = [...new Set(boxes.map(box => box.top))];
        note(rows.length);
        note(rows.every((top, i) => i === 0 || top - rows[i - 1] >= boxes[0].height + 4));"
    );
    let pages = [page(&sheet("ceiling"))];
    let narrow = lines_of_all(&browser, &pages, NARROW, &script);
    assert_eq!(narrow, [["true", "3", "true"]]);
    let wide = lines_of_all(&browser, &pages, WIDE, &script);
    assert_eq!(wide, [["true", "1", "true"]]);
}

#[test]
fn all_of_many_labels_can_be_chosen() {
    let Some(browser) = find() else { return };
    let script = format!(
        "{TOOLS}
        note(by('#strip .label').length);
        const choosable = new Set(by('#strip .label').map(label => label.dataset.pick));
        note([...Array(100).keys()].every(label => choosable.has(`label${{label}}`)));
        const finder = document.getElementById('find');
        const look = name => {{
            finder.value = name;
            finder.dispatchEvent(new Event('input'));
            finder.dispatchEvent(new Event('change'));
        }};
        look('l77');
        note(by('#detail h2')[0].textContent);
        note(on());
        note(by('#found option').map(option => option.value).join(' '));
        look('none');
        note(finder.validationMessage);
        look('l1');
        note(by('#found option').length);
        note(finder.validationMessage);
        finder.dispatchEvent(new KeyboardEvent('keydown', {{ key: 'ArrowRight', bubbles: true }}));
        note(said());"
    );
    let labels: String = (0..100).map(|i| format!("l{i}: zeros 10\n")).collect();
    let noted = lines(&browser, &page(&labels), "", &script);
    let expected = [
        "100",
        "true",
        "label l77 at 770",
        "label77",
        "l77",
        "No bound label is called none.",
        "11",
        "",
        "as recorded: 1000 bytes, 0 jumps, 0 alignments",
    ];
    assert_eq!(noted, expected);
}

#[test]
fn further_labels_at_one_place_are_named_and_can_be_chosen() {
    let Some(browser) = find() else { return };
    let script = format!(
        "{TOOLS}
        note(by('#strip .label .name').map(name => name.textContent).join(' | '));
        note(by('#strip .label').map(label => label.getAttribute('aria-label')).join(' | '));
        picked('label0').dispatchEvent(new MouseEvent('click', {{ bubbles: true }}));
        const further = by('#detail button');
        note(further.map(button => button.textContent).join(' | '));
        further[1].dispatchEvent(new PointerEvent('pointerover', {{ bubbles: true, pointerType: 'mouse' }}));
        note(by('#detail h2')[0].textContent);
        further[1].click();
        note(by('#detail h2')[0].textContent);
        note(document.activeElement.id);
        note(on());
        note(by('#strip .label.chosen').length);
        location.hash = 'step=1&pick=label17';
        fromAddress();
        note(by('#detail li').map(item => item.textContent).join(' | '));"
    );
    let many: String = (0..20).map(|i| format!("m{i}: ")).collect();
    let text = format!("a: b: c: jmp c\nzeros 100\n{many} bytes C3");
    let noted = lines(&browser, &page(&text), "step=1", &script);
    let names = "a, b, c | m0, m1, m2, m3, m4, m5 +14";
    let further: String = (0..12).map(|i| format!("label m{i} at 102 | ")).collect();
    let expected = [
        names,
        "label a at 0 and 2 further labels | label m0 at 102 and 19 further labels",
        "label b at 0 | label c at 0",
        "label a at 0",
        "label c at 0",
        "detail",
        "event0 label0",
        "1",
        &format!("{further}… 7 more labels"),
    ];
    assert_eq!(noted, expected);
}

#[test]
fn fields_have_arcs_to_their_labels_and_say_what_they_hold() {
    let Some(browser) = find() else { return };
    let script = format!(
        "{TOOLS}
        note(`${{arcs('filled')}} filled, ${{arcs('left')}} left, ${{by('#strip .block.field').length}} fields`);
        note(by('.legend li').filter(entry => !entry.hidden).map(entry => entry.textContent).join(' | '));
        for (const field of by('#strip .field')) if (field.dataset.pick) note(field.getAttribute('aria-label'));
        picked('field0').dispatchEvent(new MouseEvent('click', {{ bubbles: true }}));
        note(`${{on()}}: ${{detail()}}`);
        press('Escape');
        picked('label0').dispatchEvent(new MouseEvent('click', {{ bubbles: true }}));
        note(`${{on()}}: ${{detail()}}`);"
    );
    let noted = lines_of_all(
        &browser,
        &[page(&sheet("aarch64")), page(&sheet("hello-aarch64"))],
        WIDE,
        &script,
    );
    let aarch64 = [
        "4 filled, 0 left, 4 fields",
        "padding | other bytes | field and its label",
        "A64Adrp21 at 0: label 1 at 4387, distance 1 page",
        "A64AddAbsLo12 at 4: label 1 at 4387, low 12 bits 291",
        "A64Branch19 at 8: label 2 at 16, distance 8",
        "A64Branch26 at 12: label 0 at 0, distance -12",
        "field0: A64Adrp21, 4 bytesA64Adrp21 at 0: label 1 at 4387, distance 1 page.Finish fills it where the code comes to stand.",
        "field3 label0: label 0 at 0No jump goes to it.Named by 1 field:A64Branch26 at 12: label 0 at 0, distance -12",
    ];
    let adrp = "relocation Aarch64AdrPrelPgHi21 at 4: label .hello at 32, left for the linker";
    let add = "relocation Aarch64AddAbsLo12Nc at 8: label .hello at 32, left for the linker";
    let of_field = format!(
        "field0 label0: relocation Aarch64AdrPrelPgHi21, 4 bytes{adrp}.The system linker fills it."
    );
    let of_label = format!(
        "field0 field1 label0: label .hello at 32Constant 0 stands here, 14 bytes.No jump goes to it.Named by 2 fields:{adrp}{add}"
    );
    let hello = [
        "0 filled, 2 left, 3 fields",
        "padding | other bytes | relocation, left for the linker | constant",
        adrp,
        add,
        "relocation Arm64Call at 12: symbol puts, left for the linker",
        &of_field,
        &of_label,
    ];
    assert_eq!(noted[0], aarch64);
    assert_eq!(noted[1], hello);
}

#[test]
fn all_can_be_reached_by_keyboard_and_has_a_name() {
    let Some(browser) = find() else { return };
    let script = format!(
        "{TOOLS}
        const type = key => document.activeElement.dispatchEvent(new KeyboardEvent('keydown', {{ key, bubbles: true }}));
        const entries = () => by('#strip [tabindex=\"0\"]').map(choice => choice.dataset.pick).join(' ');
        note(entries());
        by('#strip [tabindex=\"0\"]')[0].focus();
        const order = [document.activeElement.dataset.pick];
        for (let i = 0; i < 20; i++) {{
            type('ArrowDown');
            if (document.activeElement.dataset.pick !== order.at(-1)) order.push(document.activeElement.dataset.pick);
        }}
        note(order.join(' '));
        type('ArrowUp');
        note(entries());
        type('Enter');
        note(by('#strip .chosen').map(choice => choice.dataset.pick).join(' '));
        type('ArrowRight');
        note(`${{document.activeElement.dataset.pick}} in ${{said().split(':')[0]}}`);
        type('Escape');
        const inTable = document.querySelector('tr[data-pick=event1] button');
        inTable.focus();
        inTable.click();
        note(`${{on()}} / ${{inTable.textContent}}`);
        dispatchEvent(new Event('beforeprint'));
        const isNamed = element => (element.getAttribute('aria-label') ?? element.labels?.[0]?.textContent ?? element.textContent).trim() !== '';
        note(by('button, input, [role]').filter(element => !isNamed(element)).length);
        note(by('svg').filter(svg => !svg.hasAttribute('role') && !svg.hasAttribute('aria-hidden')).length);"
    );
    let noted = lines(&browser, &page(&sheet("ceiling")), "step=1", &script);
    let expected = [
        "event0",
        "event0 event1 label2 event2 event3 event4 label1 event5 label3 event6 event7 label0",
        "event7",
        "event7",
        "event7 in round 2 of 3",
        "event1 event2 event3 event4 label1 / jle near to label second at 136, distance 124",
        "0",
        "0",
    ];
    assert_eq!(noted, expected);
}

#[test]
fn two_thousand_jumps_stay_within_bounds() {
    let Some(browser) = find() else { return };
    let script = format!(
        "{TOOLS}
        const size = () => by('#strip *').length;
        const most = [];
        for (let i = 0; i < 200; i++) {{
            button('forward');
            most.push(size());
            if (arcs('grown') !== 1) note(`${{said()}}: ${{arcs('grown')}} grown`);
        }}
        note(said());
        document.getElementById('at').value = 1000;
        document.getElementById('at').dispatchEvent(new Event('input'));
        note(seen().split(' | ')[0]);
        note(Math.max(...most) < 1000);
        button('fit');
        note(size() < 20000);
        button('last');
        note(seen().split(' | ')[0]);
        for (let i = 0; i < 40; i++) button('larger');
        note(arcs('long') > 0 && arcs('short') === 0);
        dispatchEvent(new Event('beforeprint'));
        note(by('#printed figure').length);
        note(by('#printed figure > p').map(p => p.textContent).join(' '));"
    );
    let noted = lines(&browser, &page(&chain(2000)), "", &script);
    let expected = [
        "round 200 of 2001: 144655 bytes; 1 jump becomes long",
        "round 1000 of 2001: 147055 bytes; 1 jump becomes long",
        "true",
        "true",
        "finished: 150058 bytes",
        "true",
        "12",
        "1991 steps between are not printed.",
    ];
    assert_eq!(noted, expected);
}
