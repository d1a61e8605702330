//! What is printed beside the listing: labels and relocations.

use std::fmt::Write;

use sheet_text::shown;
use wargnifla::{AsmReloc, CodeBufferFinalized, ElfType, Extent, Label, Recording, Style, UNBOUND};

/// Lines that a table may have before it is cut.
pub const MOST_LINES: usize = 32;

/// A table under its title; nothing if it is empty.
pub fn table(title: &str, head: &str, lines: &[String], extent: Extent) -> String {
    if lines.is_empty() {
        return String::new();
    }
    let shown = match extent {
        Extent::Brief if lines.len() > MOST_LINES => &lines[..MOST_LINES / 2],
        _ => lines,
    };
    let mut out = format!("\n{title}\n{head}\n");
    for line in shown {
        let _ = writeln!(out, "{line}");
    }
    if shown.len() < lines.len() {
        let _ = writeln!(out, "          ... {} more", lines.len() - shown.len());
    }
    out
}

/// Where each label was recorded and where it came to stand.
pub fn labels(recording: &Recording, finished: &CodeBufferFinalized, style: Style) -> String {
    let pairs = recording.labels.iter().zip(finished.label_offsets());
    let lines: Vec<String> = (0..)
        .zip(pairs)
        .map(|(label, (recorded, settled))| {
            let offsets = label_offsets(*recorded, *settled, style);
            let name = recording.names.get(Label::from_id(label));
            format!("{label:>8}  {offsets}{}", name_column(name))
        })
        .collect();
    let head = format!("   label  recorded     final{}", name_head([recording]));
    table("labels", &head, &lines, style.extent)
}

/// Where a label was recorded and where it came to stand.
pub fn label_offsets(recorded: u32, settled: u32, style: Style) -> String {
    let offset = |offset: u32| style.offsets.text(offset);
    let (before, after) = match (recorded, settled) {
        (UNBOUND, UNBOUND) => ("unbound".into(), "unbound".into()),
        // The label of a pooled constant: finish has bound it.
        (UNBOUND, settled) => ("pooled".into(), offset(settled)),
        (recorded, settled) => (offset(recorded), offset(settled)),
    };
    format!("{before:>8}  {after:>8}")
}

/// A label's name behind its offsets.
pub fn name_column(name: Option<&str>) -> String {
    name.map_or(String::new(), |name| format!("  {}", shown(name)))
}

/// What stands above the labels' names, where there are any.
pub fn name_head<'a>(recordings: impl IntoIterator<Item = &'a Recording>) -> &'static str {
    let mut recordings = recordings.into_iter();
    match recordings.any(|recording| recording.names.labels().next().is_some()) {
        true => "  name",
        false => "",
    }
}

/// The symbols that labels define, and where these came to stand.
pub fn definitions(finished: &CodeBufferFinalized, style: Style) -> String {
    let lines: Vec<String> = finished
        .definitions()
        .iter()
        .map(|(symbol, label)| {
            let offset = match finished.label_offset(*label) {
                None => "unbound".into(),
                Some(offset) => style.offsets.text(offset),
            };
            format!("{offset:>8}  {symbol}: {}", finished.names().text(*label))
        })
        .collect();
    table(
        "definitions",
        "   final  symbol and label",
        &lines,
        style.extent,
    )
}

/// Where each relocation was recorded and where it came to stand, and its ELF type if it has one.
pub fn relocations(recording: &Recording, finished: &CodeBufferFinalized, style: Style) -> String {
    let pairs = recording.relocs.iter().zip(finished.relocs());
    let lines: Vec<String> = pairs
        .map(|(recorded, settled)| relocation(recorded.offset, settled, finished, style))
        .collect();
    let head = "recorded     final  what";
    table("relocations", head, &lines, style.extent)
}

/// Where a relocation was recorded, where it came to stand, and what it is.
pub fn relocation(
    recorded: u32,
    settled: &AsmReloc,
    finished: &CodeBufferFinalized,
    style: Style,
) -> String {
    let elf_type = ElfType::of(finished.arch(), settled.kind);
    let elf_type = elf_type.map_or(String::new(), |ty| format!(" ({ty})"));
    format!(
        "{:>8}  {:>8}  {}{elf_type}: {}, addend {}",
        style.offsets.text(recorded),
        style.offsets.text(settled.offset),
        settled.kind,
        finished.names().text(settled.target),
        settled.addend
    )
}
