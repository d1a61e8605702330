//! asmkit's linker: finished records to one image, and the image loaded.

use std::collections::HashMap;
use std::fmt;

use smallvec::SmallVec;

use crate::core::buffer::{
    AsmReloc, CodeBufferFinalized, ExternalName, RelocDistance, RelocTarget, SymData,
    relocation_patch_size,
};
use crate::core::linker::{LinkError, Linker};
use crate::core::operand::{Label, Sym};
use crate::core::relax::OffsetMap;
use crate::core::section::FinalizedSection;
use crate::recording::{arch_of, reloc_of, relocations_of};
use crate::{AsmError, Error, Finished, LABEL_TARGET, Relocation, UNBOUND};

/// Where an image is loaded: far from the first address and from the last.
const LOADED_AT: usize = 1 << 40;

/// A finished record, its tables and what it defines.
#[derive(Clone, Debug, Default)]
pub struct Piece {
    pub arch: u32,
    /// The record's.
    pub alignment: u32,
    /// What the piece's start is to be a multiple of. `add_buffer` takes the
    /// record's alignment, a section has a number of its own.
    pub multiple: u32,
    pub code: Vec<u8>,
    /// So many zeros follow the code; where there is no other, they are the
    /// system's and not written.
    pub zeros: usize,
    /// Final offsets, 0xFFFFFFFF where unbound.
    pub labels: Vec<u32>,
    pub relocations: Vec<Relocation>,
    /// Symbols, and the labels that define them.
    pub definitions: Vec<(u32, u32)>,
    /// The symbols from 0 on that the piece has; nothing if it has those that
    /// it names.
    pub symbols: Option<u32>,
}

impl Piece {
    /// The section that the linker takes, or nothing for a number that asmkit's
    /// types do not hold.
    ///
    /// A definition by an unknown label is handed over as one by an unbound
    /// label: asmkit's `bind_symbol` refuses it before.
    fn section(self) -> Option<FinalizedSection> {
        let mut symbols = Symbols::new(self.symbols);
        let relocs: Option<SmallVec<_>> = self
            .relocations
            .iter()
            .map(|one| {
                Some(AsmReloc {
                    offset: one.offset,
                    kind: reloc_of(one.kind)?,
                    addend: one.addend,
                    target: match one.target.checked_sub(LABEL_TARGET) {
                        Some(label) => RelocTarget::Label(Label::from_id(label)),
                        None => RelocTarget::Sym(Sym::from_id(symbols.id(one.target))),
                    },
                })
            })
            .collect();
        let definitions = self.definitions.iter().map(|(symbol, label)| {
            let offset = self.labels.get(*label as usize);
            (name(*symbol), *offset.unwrap_or(&UNBOUND))
        });
        let mut code = self.code;
        match code.is_empty() {
            true => code = vec![0; self.zeros],
            false => code.resize(code.len() + self.zeros, 0),
        }
        Some(FinalizedSection {
            name: "piece".into(),
            align: self.multiple,
            code: CodeBufferFinalized {
                relocs: relocs?,
                symbols: symbols.data(),
                defined_symbols: definitions.collect(),
                label_offsets: SmallVec::from_slice(&self.labels),
                data: SmallVec::from_vec(code),
                alignment: self.alignment,
                arch: arch_of(self.arch)?,
                section_bases: smallvec::smallvec![0],
                layout_maps: smallvec::smallvec![OffsetMap::default()],
            },
        })
    }
}

/// A symbol is a name to the linker, and its id the place of that name in the
/// piece's own list.
struct Symbols {
    numbers: Vec<u32>,
    ids: HashMap<u32, u32>,
    grows: bool,
}

impl Symbols {
    /// Symbols from 0 on, or those that are asked for.
    fn new(count: Option<u32>) -> Self {
        Self {
            numbers: (0..count.unwrap_or(0)).collect(),
            ids: HashMap::new(),
            grows: count.is_none(),
        }
    }

    fn id(&mut self, number: u32) -> u32 {
        if !self.grows {
            return number;
        }
        let numbers = &mut self.numbers;
        *self.ids.entry(number).or_insert_with(|| {
            numbers.push(number);
            numbers.len() as u32 - 1
        })
    }

    fn data(self) -> SmallVec<[SymData; 16]> {
        let numbers = self.numbers.into_iter();
        let data = numbers.map(|number| SymData {
            name: name(number),
            distance: RelocDistance::Near,
        });
        data.collect()
    }
}

pub(crate) fn name(symbol: u32) -> ExternalName {
    ExternalName::user(0, symbol)
}

fn number_of(name: &ExternalName) -> u32 {
    match name {
        ExternalName::User(name) => name.index,
        ExternalName::Symbol(_) => unreachable!("every name is made of a number"),
    }
}

/// The bytes of a relocation's field, by its kind; nothing where the linker
/// knows none.
pub fn field_size(kind: u32) -> Option<usize> {
    relocation_patch_size(reloc_of(kind)?).ok()
}

/// Pieces as the linker holds them.
pub struct Link(Linker);

impl Link {
    /// Nothing for a number that asmkit's types do not hold.
    pub fn new(pieces: Vec<Piece>) -> Option<Self> {
        let mut linker = Linker::new();
        for piece in pieces {
            linker.add_section(piece.section()?);
        }
        Some(Self(linker))
    }

    /// Finished recordings, by `Linker::add_buffer`.
    pub fn of_recordings(finished: Vec<Finished>) -> Self {
        let mut linker = Linker::new();
        for one in finished {
            linker.add_buffer(one.into_finalized());
        }
        Self(linker)
    }

    /// `Linker::link`.
    pub fn link(self) -> Result<Image, Unlinked> {
        match self.0.link() {
            Ok(image) => Ok(Image(image)),
            Err(error) => Err(error.into()),
        }
    }
}

/// Why the linker made no image.
#[derive(Clone, Copy, Debug, PartialEq, Eq)]
pub enum Unlinked {
    NoCodeGenerated,
    IncompatibleArch,
    DuplicateSymbol(u32),
    UnboundSymbol(u32),
    InvalidRelocation(&'static str),
    Error(Error),
}

impl From<AsmError> for Unlinked {
    fn from(error: AsmError) -> Self {
        match error {
            AsmError::NoCodeGenerated => Self::NoCodeGenerated,
            AsmError::Link(LinkError::IncompatibleArch { .. }) => Self::IncompatibleArch,
            AsmError::Link(LinkError::DuplicateSymbol { name, .. }) => {
                Self::DuplicateSymbol(number_of(&name))
            }
            AsmError::Link(LinkError::UnboundSymbol { name, .. }) => {
                Self::UnboundSymbol(number_of(&name))
            }
            AsmError::Link(LinkError::InvalidRelocation { reason, .. }) => {
                Self::InvalidRelocation(reason)
            }
            error => Self::Error(error.into()),
        }
    }
}

impl fmt::Display for Unlinked {
    fn fmt(&self, f: &mut fmt::Formatter<'_>) -> fmt::Result {
        match self {
            Self::DuplicateSymbol(symbol) => write!(f, "DuplicateSymbol {symbol}"),
            Self::UnboundSymbol(symbol) => write!(f, "UnboundSymbol {symbol}"),
            Self::InvalidRelocation(reason) => write!(f, "InvalidRelocation: {reason}"),
            Self::Error(error) => write!(f, "{error}"),
            named => write!(f, "{named:?}"),
        }
    }
}

/// What the linker made of some pieces.
pub struct Image(CodeBufferFinalized);

impl Image {
    pub fn code(&self) -> &[u8] {
        self.0.data()
    }

    /// The labels of all pieces, then one for each definition.
    pub fn labels(&self) -> &[u32] {
        &self.0.label_offsets
    }

    pub fn alignment(&self) -> u32 {
        self.0.alignment()
    }

    /// Where each piece starts.
    pub fn bases(&self) -> &[u32] {
        &self.0.section_bases
    }

    /// The symbols of all pieces, each once, as the image lists them.
    pub fn symbols(&self) -> impl ExactSizeIterator<Item = u32> + '_ {
        self.0.symbols.iter().map(|symbol| number_of(&symbol.name))
    }

    /// Relocations, whose symbols are the pieces' numbers again.
    pub fn relocations(&self) -> impl ExactSizeIterator<Item = Relocation> + '_ {
        relocations_of(&self.0).map(|one| match one.target {
            label @ LABEL_TARGET.. => Relocation {
                target: label,
                ..one
            },
            id => {
                let name = self.0.symbol_name(Sym::from_id(id));
                let target = number_of(name.expect("an image has the symbols that it names"));
                Relocation { target, ..one }
            }
        })
    }

    /// `relocate_to_base` with some of the relocations alone, and so
    /// `perform_relocations`: the code, its fields filled. A symbol that no piece
    /// defines has no address.
    pub fn load(&mut self, is_chosen: impl Fn(usize) -> bool) -> Result<Vec<u8>, Error> {
        let relocs = std::mem::take(&mut self.0.relocs);
        let chosen = relocs.iter().enumerate();
        let chosen = chosen.filter(|(number, _)| is_chosen(*number));
        self.0.relocs = chosen.map(|(_, reloc)| reloc.clone()).collect();
        let mut loaded = vec![0; self.0.loaded_size()];
        let none = |_: &ExternalName| std::ptr::null();
        let filled = self.0.relocate_to_base(&mut loaded, LOADED_AT, none);
        self.0.relocs = relocs;
        filled?;
        loaded.truncate(self.0.total_size());
        Ok(loaded)
    }
}
