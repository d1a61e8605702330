//! Labels and relocations of joined sheets, with the pieces that they come from.

use wargnifla::{Joined, Label, Style};

use crate::command::report::{label_offsets, name_column, name_head, relocation, table};
use crate::command::rule::Rule;

/// Every label by its number in the whole: its piece, where it was recorded there, and where it came to stand.
pub fn labels(rules: &[Rule], whole: &Joined, style: Style) -> String {
    let code = whole.code();
    let all = rules.iter().enumerate().flat_map(|(piece, rule)| {
        let recorded = (0..).map(Label::from_id).zip(&rule.recording().labels);
        recorded.filter_map(move |(label, recorded)| {
            let label = whole.label(piece, label)?;
            Some((piece, label, *recorded))
        })
    });
    let lines: Vec<String> = all
        .map(|(piece, label, recorded)| {
            let offsets = label_offsets(recorded, code.label_offsets()[label.id() as usize], style);
            let name = name_column(code.names().get(label));
            format!("{:>8}  {piece:>8}  {offsets}{name}", label.id())
        })
        .collect();
    let name = name_head(rules.iter().map(Rule::recording));
    let head = format!("   label     piece  recorded     final{name}");
    table("labels", &head, &lines, style.extent)
}

/// The relocations that remain: the piece of each, where it was recorded there, and where it came to stand.
pub fn relocations(rules: &[Rule], whole: &Joined, style: Style) -> String {
    let code = whole.code();
    let lines: Vec<String> = whole
        .remaining()
        .iter()
        .zip(code.relocs())
        .map(|(origin, settled)| {
            let recorded = rules[origin.piece].recording().relocs[origin.relocation].offset;
            let what = relocation(recorded, settled, code, style);
            format!("{:>8}  {what}", origin.piece)
        })
        .collect();
    let head = "   piece  recorded     final  what";
    table("relocations that remain", head, &lines, style.extent)
}
