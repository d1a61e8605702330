//! Fields that name labels or symbols, as the scripts have them: those that finish or join fills, and those that are left for the system linker.

use super::markup::{array, string};
use crate::recording::{AsmReloc, Label, Names, Recording, RelocTarget};
use crate::{CodeOffset, LabelUse, Reloc};

/// A field.
#[derive(Clone)]
pub struct Field {
    pub offset: CodeOffset,
    pub kind: Kind,
    /// The label that it names, or that defines its symbol.
    pub label: Option<Label>,
    pub addend: i64,
    /// The symbol that it names, as messages have it.
    pub symbol: Option<String>,
}

/// A field with its place: how many events stand before it, and how many bytes behind them it starts.
pub type PlacedField = (usize, u32, Field);

/// What fills a field, and how.
#[derive(Clone, Copy, PartialEq, Eq)]
pub enum Kind {
    Finish(LabelUse),
    Join(Reloc),
    Linker(Reloc),
}

impl Kind {
    fn name(self) -> String {
        match self {
            Self::Finish(kind) => kind.to_string(),
            Self::Join(kind) | Self::Linker(kind) => format!("relocation {kind}"),
        }
    }

    pub fn size(self) -> u32 {
        match self {
            Self::Finish(kind) => kind.patch_size(),
            Self::Join(kind) | Self::Linker(kind) => kind.field_size(),
        }
    }

    /// What it holds of its target, as JSON: how many bytes behind its start distances count from, or a word for what is no distance.
    fn holds(self) -> String {
        match self {
            Self::Finish(kind) => match (kind.reach(), kind) {
                (Some(reach), _) => reach.bias.to_string(),
                (None, LabelUse::A64Adrp21) => string("pages"),
                (None, _) => string("low bits"),
            },
            Self::Join(_) => string("join"),
            Self::Linker(_) => string("linker"),
        }
    }
}

impl Field {
    /// A relocation that nothing has filled.
    pub fn left(reloc: &AsmReloc, names: &Names) -> Self {
        let (label, symbol) = match reloc.target {
            RelocTarget::Label(label) => (Some(label), None),
            RelocTarget::Sym(symbol) => (None, Some(names.text(symbol))),
        };
        Self {
            offset: reloc.offset,
            kind: Kind::Linker(reloc.kind),
            label,
            addend: reloc.addend,
            symbol,
        }
    }

    /// Whether all of it stands in code of a length.
    pub fn is_within(&self, len: u32) -> bool {
        u64::from(self.offset) + u64::from(self.kind.size()) <= u64::from(len)
    }
}

/// How many of some fields are left for the system linker.
pub fn left(fields: &[PlacedField]) -> usize {
    let left = fields.iter();
    left.filter(|(_, _, field)| matches!(field.kind, Kind::Linker(_)))
        .count()
}

/// The fields that finish fills: refs with a jump, uses without.
pub fn filled(recording: &Recording) -> Vec<Field> {
    let field = |offset, kind, label, addend: i32| Field {
        offset,
        kind: Kind::Finish(kind),
        label: Some(label),
        addend: addend.into(),
        symbol: None,
    };
    if recording.has_jump() {
        let refs = recording.refs.iter();
        refs.map(|entry| field(entry.offset, entry.kind, entry.label, entry.addend))
            .collect()
    } else {
        let uses = recording.uses.iter();
        uses.map(|entry| field(entry.offset, entry.kind, entry.label, 0))
            .collect()
    }
}

/// The entries `kinds` and `fields`: `[name, size, what it holds]`, and
/// `[events before, bytes behind them, kind, label or -1, addend, symbol]`, without a symbol if it names none.
pub fn entries(fields: &[PlacedField]) -> [(&'static str, String); 2] {
    let mut kinds: Vec<Kind> = Vec::new();
    let mut number = |kind: Kind| {
        let known = kinds.iter().position(|known| *known == kind);
        known.unwrap_or_else(|| {
            kinds.push(kind);
            kinds.len() - 1
        })
    };
    let entries = array(fields.iter().map(|(before, past, field)| {
        let label = field.label.map(|label| label.id().to_string());
        let mut entries = vec![
            before.to_string(),
            past.to_string(),
            number(field.kind).to_string(),
            label.unwrap_or("-1".into()),
            field.addend.to_string(),
        ];
        entries.extend(field.symbol.as_deref().map(string));
        array(entries)
    }));
    let kinds = kinds.iter().map(|kind| {
        let entries = [string(&kind.name()), kind.size().to_string(), kind.holds()];
        array(entries)
    });
    [("kinds", array(kinds)), ("fields", entries)]
}
