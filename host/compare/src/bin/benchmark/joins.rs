//! Finished records joined: by the C function, and by the Rust's linker, which fills no field.

use compare::{
    LABEL_TARGET, Lending, Lent, MOST_CODE, MOST_ENTRIES, Ours, Part, Piece, Random, Vast, X64,
    pieces,
};
use reference::{Image, Link, Relocation, is_filled, run_sheet};

use crate::inputs::{self, Step};
use crate::sides::{Side, accepted, word};

/// The number of `Reloc::X86CallPCRel4`.
const CALL: u32 = 3;
/// The number of `Reloc::Abs8`.
const ABS8: u32 = 1;

/// What the Rust's side does.
#[derive(Clone, Copy, PartialEq, Eq)]
pub enum Linking {
    /// `Linker::link`.
    Link,
    /// The same, and `relocate_to_base` with the relocations that join fills.
    Load,
}

/// A call of a symbol, or an address of a label.
fn relocation(offset: u32, kind: u32, target: u32) -> [u32; 6] {
    let addend: i64 = if kind == CALL { -4 } else { 0 };
    let (low, high) = (addend as u32, (addend >> 32) as u32);
    [offset, kind, target, 0, low, high]
}

fn plain(length: usize) -> Piece {
    Piece::new(X64, 32, vec![0x90; length])
}

/// A rule, finished, with four of its labels exported and calls of what the others export.
fn rules(steps: &[Step], count: u32, calls: u32) -> Vec<Piece> {
    const EXPORTED: u32 = 4;
    let [Step::Sheet(sheet)] = steps else {
        unreachable!("a rule is one sheet")
    };
    let finished = run_sheet(X64, 0, sheet).finished;
    let finished = finished.expect("the Rust finishes");
    let mut random = Random::new(6);
    let rules = (0..count).map(|number| {
        let mut piece = plain(0);
        piece.code = finished.code().to_vec();
        piece.labels = finished.labels().to_vec();
        let labels = piece.labels.len() as u32;
        let exported = (0..EXPORTED).map(|one| [number * EXPORTED + one, one * labels / EXPORTED]);
        piece.definitions = exported.collect();
        let apart = (piece.length() - 4) / calls;
        let calls = (0..calls).map(|call| {
            let symbol = random.below(count * EXPORTED);
            relocation(call * apart, CALL, symbol)
        });
        piece.relocations = calls.collect();
        piece
    });
    rules.collect()
}

/// Four rules of ten jumps.
pub fn small() -> Vec<Piece> {
    rules(&inputs::small(10), 4, 4)
}

/// Four typical rules.
pub fn typical() -> Vec<Piece> {
    rules(&inputs::typical(), 4, 32)
}

/// As many pieces as there may be, of 100 bytes.
pub fn many() -> Vec<Piece> {
    spread(256, 4, 6, 100, |symbol| symbol)
}

/// Pieces with some definitions each, calls of any of them, and two relocations that remain.
fn spread(
    count: u32,
    definitions: u32,
    calls: u32,
    length: u32,
    symbol: impl Fn(u32) -> u32,
) -> Vec<Piece> {
    let mut random = Random::new(7);
    let pieces = (0..count).map(|number| {
        let mut piece = plain(length as usize);
        piece.labels = (0..definitions).map(|label| label % length).collect();
        let defined = (0..definitions).map(|one| [symbol(number * definitions + one), one]);
        piece.definitions = defined.collect();
        let calls = (0..calls).map(|call| {
            let target = symbol(random.below(count * definitions));
            relocation(call * 4 % (length - 8), CALL, target)
        });
        let remaining =
            (0..2).map(|one| relocation(one * 8, ABS8, LABEL_TARGET + one % definitions));
        piece.relocations = calls.chain(remaining).collect();
        piece
    });
    pieces.collect()
}

/// 65,536 calls in one piece of what another defines.
pub fn dense() -> Vec<Piece> {
    let count = MOST_ENTRIES as u32;
    let mut random = Random::new(8);
    let mut calling = plain(4 * MOST_ENTRIES);
    let calls = (0..count).map(|call| relocation(4 * call, CALL, random.below(count)));
    calling.relocations = calls.collect();
    let mut defining = plain(4 * MOST_ENTRIES);
    defining.labels = (0..count).map(|label| 4 * label).collect();
    defining.definitions = (0..count).map(|symbol| [symbol, symbol]).collect();
    vec![calling, defining]
}

/// As many calls and definitions over 256 pieces.
pub fn dense_spread() -> Vec<Piece> {
    spread(256, 256, 254, 1_024, |symbol| symbol)
}

/// 4,096 symbols from 65,536 on, with nothing regular about them.
pub fn sparse() -> Vec<Piece> {
    let scattered = |number: u32| {
        let odd = number.wrapping_mul(0x9E37_79B1) % (LABEL_TARGET - 65_536);
        65_536 + odd
    };
    spread(16, 256, 256, 1_100, scattered)
}

/// 16 MiB over 256 pieces.
pub fn copied() -> Vec<Piece> {
    spread(256, 1, 1, MOST_CODE as u32 / 256, |symbol| symbol)
}

/// Memory that the pieces stand in, and what they come to.
pub fn memory(pieces: &[Piece], count: usize) -> Vec<Ours> {
    let mut lent = Lent::default();
    for part in pieces::LENT_IN {
        lent[part] = pieces::content(pieces, part);
    }
    let room = pieces.iter().map(|piece| piece.code.len() + 64).sum();
    lent[Part::Output] = vec![0; room];
    lent[Part::JoinedLabels] = vec![0; lent[Part::Labels].len()];
    lent[Part::JoinedRelocations] = vec![0; lent[Part::Relocations].len()];
    lent[Part::Record] = vec![0; Part::Record.entry_bytes()];
    let one = || {
        let mut ours = Ours::default();
        ours.lend(&lent, 0);
        ours
    };
    (0..count).map(|_| one()).collect()
}

/// The C function, into memory that is lent once.
pub struct Joining<'a>(Vec<Lending<'a>>);

impl<'a> Joining<'a> {
    pub fn new(memory: &'a mut [Ours]) -> Self {
        Self(memory.iter_mut().map(Ours::lending).collect())
    }
}

impl Side for Joining<'_> {
    fn clear(&mut self) {}

    fn record(&mut self, _: &[Step]) {}

    fn finish(&mut self) {
        for lending in &mut self.0 {
            accepted(lending.join(Vast::Neither));
        }
    }

    fn code(&mut self) -> &[u8] {
        let length = word(self.0[0].content(Part::Record), 1);
        &self.0[0].content(Part::Output)[..length as usize]
    }
}

/// The linker. It takes the pieces, so they are handed to it anew before each run.
pub struct Linked {
    pieces: Vec<reference::Piece>,
    /// Whether join fills each relocation, by their numbers.
    is_filled: Vec<bool>,
    linking: Linking,
    count: usize,
    links: Vec<Link>,
    images: Vec<Image>,
    loaded: Vec<u8>,
}

impl Linked {
    pub fn new(pieces: &[Piece], linking: Linking, count: usize) -> Self {
        let pieces: Vec<_> = pieces.iter().map(handed_over).collect();
        let relocations = pieces.iter().flat_map(|piece| &piece.relocations);
        let is_filled = relocations.map(|one| is_filled(X64, one)).collect();
        Self {
            pieces,
            is_filled,
            linking,
            count,
            links: Vec::new(),
            images: Vec::new(),
            loaded: Vec::new(),
        }
    }

    fn load(&mut self, image: usize) {
        let is_filled = &self.is_filled;
        let loaded = self.images[image].load(|number| is_filled[number]);
        self.loaded = loaded.expect("the loader takes the image");
    }
}

impl Side for Linked {
    fn clear(&mut self) {
        self.links.clear();
        self.images.clear();
    }

    fn record(&mut self, _: &[Step]) {
        let link = || Link::new(self.pieces.clone());
        let links = (0..self.count).map(|_| link().expect("the linker takes every kind"));
        self.links.extend(links);
    }

    fn finish(&mut self) {
        for link in self.links.drain(..) {
            let image = link.link();
            self.images
                .push(image.expect("the linker takes the pieces"));
        }
        if self.linking == Linking::Load {
            (0..self.images.len()).for_each(|image| self.load(image));
        }
    }

    /// What the loader makes of the image.
    fn code(&mut self) -> &[u8] {
        self.load(0);
        &self.loaded
    }
}

fn handed_over(piece: &Piece) -> reference::Piece {
    let relocations = piece.relocations.iter();
    let relocations = relocations.map(|[offset, kind, target, _, low, high]| Relocation {
        offset: *offset,
        kind: *kind,
        target: *target,
        addend: (u64::from(*high) << 32 | u64::from(*low)).cast_signed(),
    });
    let definitions = piece.definitions.iter();
    reference::Piece {
        arch: piece.arch,
        alignment: piece.alignment,
        multiple: piece.alignment,
        code: piece.code.clone(),
        labels: piece.labels.clone(),
        relocations: relocations.collect(),
        definitions: definitions
            .map(|[symbol, label]| (*symbol, *label))
            .collect(),
        ..reference::Piece::default()
    }
}
