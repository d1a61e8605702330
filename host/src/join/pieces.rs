//! Pieces to be joined: where each comes to stand, and its tables with the numbers of symbols that all share.

use std::collections::HashMap;

use super::Origin;
use super::symbols::{Symbols, by_name, given, left_to_labels};
use crate::recording::{AsmReloc, Label, Names, RelocTarget, Sym};
use crate::tables::{label_entries, reloc_entries};
use crate::verified::Lent;
use crate::{Arch, CodeBufferFinalized, ExternalName, Reloc};

/// The last offset that a whole may have.
pub(crate) const LAST_OFFSET: u64 = 4_294_967_294;

/// A page of AArch64: its code moves by whole pages.
const PAGE: u64 = 4096;

/// Finished buffers to be joined.
pub(crate) struct Pieces<'a> {
    pub all: Vec<Piece<'a>>,
    symbols: Symbols,
    /// The first definition of each symbol: its piece, and its index there.
    first_definitions: HashMap<Sym, (usize, usize)>,
}

/// A finished buffer, and where it comes to stand.
pub(crate) struct Piece<'a> {
    pub code: &'a CodeBufferFinalized,
    /// In 64 bits, since what is refused may pass 32.
    pub base: u64,
    /// The labels of the pieces before it.
    pub labels_before: usize,
    /// Its relocations, with the shared numbers of symbols.
    pub relocs: Vec<AsmReloc>,
    pub definitions: Vec<Defined>,
}

/// A definition, with the symbol's shared number.
pub(crate) struct Defined {
    pub symbol: Sym,
    pub label: Label,
    /// Its index among those that the piece was given; nothing where the label defines the symbol by its name.
    pub given: Option<usize>,
}

impl Piece<'_> {
    pub fn end(&self) -> u64 {
        self.base + self.code.total_size() as u64
    }

    /// The number that a label has in the whole, if it is known.
    pub fn label_in_whole(&self, label: Label) -> Option<Label> {
        let id = label.id() as usize;
        let number = u32::try_from(self.labels_before + id).ok()?;
        (id < self.code.label_offsets.len()).then_some(Label::from_id(number))
    }

    /// Where a label comes to stand, if it is known and bound.
    pub fn place_of(&self, label: Label) -> Option<u64> {
        let offset = self.code.label_offset(label)?;
        Some(self.base + u64::from(offset))
    }
}

impl<'a> Pieces<'a> {
    pub fn new(codes: Vec<&'a CodeBufferFinalized>) -> Self {
        let symbols = Symbols::new(&codes);
        let left = left_to_labels(&codes);
        let (mut end, mut labels_before) = (0, 0);
        let all: Vec<Piece<'a>> = codes
            .into_iter()
            .map(|code| {
                let given = given(code).enumerate().map(|(i, given)| (given, Some(i)));
                let named = by_name(code, &left).map(|named| (named, None));
                let definitions = given.chain(named).map(|((symbol, label), given)| Defined {
                    symbol: symbols.number(&symbol),
                    label,
                    given,
                });
                let piece = Piece {
                    code,
                    base: u64::next_multiple_of(end, multiple(code)),
                    labels_before,
                    relocs: shared_relocs(code, &symbols),
                    definitions: definitions.collect(),
                };
                end = piece.end();
                labels_before += code.label_offsets.len();
                piece
            })
            .collect();
        Self {
            first_definitions: first_definitions(&all),
            all,
            symbols,
        }
    }

    /// The end of the last piece.
    pub fn end(&self) -> u64 {
        self.all.last().map_or(0, Piece::end)
    }

    /// The bytes that the whole needs; none where it is too long to be accepted.
    pub fn room(&self) -> usize {
        match self.end() {
            end @ ..=LAST_OFFSET => end as usize,
            _ => 0,
        }
    }

    /// What the pieces lend.
    pub fn lent(&self) -> Lent {
        let mut lent = Lent::default();
        for piece in &self.all {
            let count = piece.definitions.len() as u32;
            lent.pieces.extend(piece.code.record.bytes());
            lent.pieces.extend(count.to_le_bytes());
            lent.code.extend(piece.code.data());
            lent.labels.extend(label_entries(&piece.code.label_offsets));
            lent.relocs.extend(reloc_entries(&piece.relocs));
            for definition in &piece.definitions {
                let words = [definition.symbol.id(), definition.label.id()];
                lent.definitions
                    .extend(words.map(u32::to_le_bytes).concat());
            }
        }
        lent
    }

    /// Every relocation, in order.
    pub fn relocs(&self) -> impl Iterator<Item = (Origin, &Piece<'a>, &AsmReloc)> {
        self.all.iter().enumerate().flat_map(|(index, piece)| {
            let relocs = piece.relocs.iter().enumerate();
            relocs.map(move |(relocation, reloc)| {
                let origin = Origin {
                    piece: index,
                    relocation,
                };
                (origin, piece, reloc)
            })
        })
    }

    /// The relocations that are to be filled, in order, and their symbols.
    pub fn fields(&self) -> impl Iterator<Item = (Origin, &Piece<'a>, &AsmReloc, Sym)> {
        self.relocs().filter_map(|(origin, piece, reloc)| {
            let symbol = reloc.target.symbol()?;
            is_filled(piece.code.arch, reloc).then_some((origin, piece, reloc, symbol))
        })
    }

    /// The relocations that remain, in order.
    pub fn remaining(&self) -> impl Iterator<Item = (Origin, &Piece<'a>, &AsmReloc)> {
        self.relocs()
            .filter(|(_, piece, reloc)| !is_filled(piece.code.arch, reloc))
    }

    /// The first definition of a symbol, and the piece that has it, with its index.
    pub fn definition(&self, symbol: Sym) -> Option<(usize, &Piece<'a>, &Defined)> {
        let &(piece, index) = self.first_definitions.get(&symbol)?;
        let found = &self.all[piece];
        Some((piece, found, &found.definitions[index]))
    }

    /// Where a symbol comes to stand, if a label that is known and bound defines it.
    pub fn place_of(&self, symbol: Sym) -> Option<u64> {
        let (_, piece, definition) = self.definition(symbol)?;
        piece.place_of(definition.label)
    }

    /// What a field is to be filled with. It takes more than 64 bits where an addend is large.
    pub fn value(&self, piece: &Piece<'_>, reloc: &AsmReloc, symbol: Sym) -> Option<i128> {
        let place = piece.base + u64::from(reloc.offset);
        let target = self.place_of(symbol)?;
        Some(i128::from(target) + i128::from(reloc.addend) - i128::from(place))
    }

    /// The names of labels and symbols, by their numbers in the whole.
    pub fn names(&self) -> Names {
        let mut names = Names::default();
        for piece in &self.all {
            for (label, name) in piece.code.names.labels() {
                if let Some(label) = piece.label_in_whole(label) {
                    names.insert(label, name);
                }
            }
        }
        for (symbol, name) in self.symbols.named() {
            names.insert(symbol, name);
        }
        names
    }

    /// A symbol as messages have it.
    pub fn symbol_text(&self, symbol: Sym) -> String {
        let mut named = self.symbols.named();
        match named.find(|(number, _)| *number == symbol) {
            Some((_, name)) => ExternalName::from(name).to_string(),
            None => RelocTarget::from(symbol).to_string(),
        }
    }

    /// The definitions of all pieces by labels that are known, with the numbers of the whole.
    pub fn definitions(&self) -> Vec<(ExternalName, Label)> {
        let names = self.names();
        let definitions = self.all.iter().flat_map(|piece| {
            let definitions = piece.definitions.iter();
            definitions.filter_map(|found| Some((found.symbol, piece.label_in_whole(found.label)?)))
        });
        definitions
            .map(|(symbol, label)| (names.external_name(symbol), label))
            .collect()
    }
}

/// What a piece starts on a multiple of.
fn multiple(code: &CodeBufferFinalized) -> u64 {
    match code.arch {
        Arch::AArch64 => PAGE,
        Arch::X86 | Arch::X64 => code.alignment().into(),
    }
}

/// Whether join fills a relocation of a piece for an architecture.
fn is_filled(arch: Arch, reloc: &AsmReloc) -> bool {
    let is_relative = matches!(
        reloc.kind,
        Reloc::X86PCRel4 | Reloc::X86CallPCRel4 | Reloc::X86CallPLTRel4
    );
    arch == Arch::X64 && is_relative && reloc.target.symbol().is_some()
}

fn shared_relocs(code: &CodeBufferFinalized, symbols: &Symbols) -> Vec<AsmReloc> {
    let mut shared = HashMap::new();
    let mut number = |symbol: Sym| {
        let of_symbol = || symbols.number(&code.names.external_name(symbol));
        *shared.entry(symbol).or_insert_with(of_symbol)
    };
    let relocs = code.relocs.iter().map(|reloc| AsmReloc {
        target: match reloc.target {
            RelocTarget::Sym(symbol) => number(symbol).into(),
            label @ RelocTarget::Label(_) => label,
        },
        ..*reloc
    });
    relocs.collect()
}

fn first_definitions(pieces: &[Piece<'_>]) -> HashMap<Sym, (usize, usize)> {
    let mut first = HashMap::new();
    for (piece, found) in pieces.iter().enumerate() {
        for (index, definition) in found.definitions.iter().enumerate() {
            first.entry(definition.symbol).or_insert((piece, index));
        }
    }
    first
}
