//! The rows: what of which input is timed, and beside what.

use compare::{AARCH64, Piece, X64};

use crate::inputs::{self, Step};
use crate::joins::{self, Linking};
use crate::library::library;
use crate::relas::Task;
use crate::sides::HandOut;

/// What of a recording is timed.
#[derive(Clone, Copy, PartialEq, Eq)]
pub enum Timed {
    Record,
    Finish,
    /// Recording, finishing and forgetting.
    Whole,
}

/// Which two are measured.
#[derive(Clone, Copy)]
pub enum Sides {
    /// The C functions, and the Rust.
    Verified(HandOut),
    /// The host's wrapper, and the Rust.
    Wrapper(HandOut),
    /// The C functions, and the Rust on another recording, which it finishes to other code.
    Instead(fn() -> Vec<Step>),
    /// The C functions, and a copy of as many bytes as may be recorded.
    Copy,
    /// The C functions for ELF entries, and plain loops.
    Relas(Task),
    /// The C functions for the calls of an editor, which shows the number of open entries that they keep, or counts afresh.
    Editor,
    /// The C function for joins, and the Rust's linker.
    Join(fn() -> Vec<Piece>, Linking),
}

/// Where the steps of a recording come from.
#[derive(Clone, Copy)]
pub enum Input {
    Made(fn() -> Vec<Step>),
    Library,
}

#[derive(Clone, Copy)]
pub struct Row {
    pub name: &'static str,
    pub about: &'static str,
    pub timed: Timed,
    pub sides: Sides,
    pub input: Input,
    pub arch: u32,
    /// So many recordings are timed together; by the clock on the wall, if there is more than one.
    pub batch: usize,
    /// The fewest runs that are enough.
    pub fewest: usize,
    /// So many runs of ours alone follow those.
    pub alone: usize,
}

/// What most rows are, but for their names and inputs.
const FINISH: Row = Row {
    name: "",
    about: "",
    timed: Timed::Finish,
    sides: Sides::Verified(HandOut::Copies),
    input: Input::Library,
    arch: X64,
    batch: 1,
    fewest: 15,
    alone: 0,
};

/// A finish of a recording that is made here.
const fn row(name: &'static str, about: &'static str, input: fn() -> Vec<Step>) -> Row {
    let input = Input::Made(input);
    Row {
        name,
        about,
        input,
        ..FINISH
    }
}

/// A join of finished records, which are made here.
const fn join(name: &'static str, about: &'static str, pieces: fn() -> Vec<Piece>) -> Row {
    row(name, about, Vec::new).beside(Sides::Join(pieces, Linking::Link))
}

impl Row {
    /// How many recordings are held at a time: those of a batch, unless each is forgotten before the next.
    pub fn recordings(&self) -> usize {
        match self.timed {
            Timed::Whole => 1,
            _ => self.batch,
        }
    }

    const fn recording(self) -> Self {
        let timed = Timed::Record;
        Self { timed, ..self }
    }

    const fn whole(self) -> Self {
        let timed = Timed::Whole;
        Self { timed, ..self }
    }

    const fn beside(self, sides: Sides) -> Self {
        Self { sides, ..self }
    }

    const fn on(self, arch: u32) -> Self {
        Self { arch, ..self }
    }

    const fn batched(self, batch: usize) -> Self {
        Self { batch, ..self }
    }

    const fn at_least(self, fewest: usize) -> Self {
        Self { fewest, ..self }
    }

    /// A row whose other side takes so long that it has one turn.
    const fn with_one_turn(self) -> Self {
        Self {
            fewest: 1,
            alone: 14,
            ..self
        }
    }
}

const OWNED: Sides = Sides::Verified(HandOut::Owned);
const WRAPPER: Sides = Sides::Wrapper(HandOut::Copies);

pub const ROWS: [Row; 60] = [
    row("jumps-1", "finish: 1 jump", || inputs::small(1)).batched(16),
    row("jumps-10", "finish: 10 jumps", || inputs::small(10)).batched(16),
    row("jumps-20", "finish: 20 jumps", || inputs::small(20)).batched(16),
    row("jumps-100", "finish: 100 jumps", || inputs::small(100)).batched(16),
    row(
        "typical",
        "finish: 1,000 jumps, 200 alignments, 16 KiB",
        inputs::typical,
    ),
    row(
        "typical-owned",
        "the same; the Rust by finish_owned",
        inputs::typical,
    )
    .beside(OWNED),
    row(
        "typical-shuffled",
        "finish: the typical rule, its labels shuffled",
        inputs::typical_shuffled,
    ),
    row(
        "ceilings-said",
        "finish: the typical rule, ceilings of 4,095 said",
        inputs::typical_said,
    ),
    row(
        "ceilings",
        "finish: the typical rule on 32, ceilings of 10; the Rust without",
        inputs::typical_within,
    )
    .beside(Sides::Instead(inputs::typical_on_32)),
    row(
        "alignments",
        "finish: 65,535 alignments, one jump",
        inputs::alignments,
    ),
    row(
        "alignments-ceilings",
        "the same with ceilings of 10; the Rust without",
        inputs::alignments_within,
    )
    .beside(Sides::Instead(inputs::alignments)),
    row("large", "finish: 60,000 events, 4 MiB", inputs::large),
    row(
        "large-shuffled",
        "finish: 60,000 events, 4 MiB, labels shuffled",
        inputs::large_shuffled,
    ),
    Row {
        name: "library",
        about: "finish: the jumps of the machine's C library",
        ..FINISH
    },
    row("one-jump", "finish: 16 MiB, one jump", inputs::one_jump),
    row(
        "one-jump-owned",
        "the same; the Rust by finish_owned",
        inputs::one_jump,
    )
    .beside(OWNED),
    row(
        "one-jump-copy",
        "finish: 16 MiB, one jump; in the Rust's place a copy",
        inputs::one_jump,
    )
    .beside(Sides::Copy),
    row("uses", "finish: 65,536 uses, no jump", inputs::uses),
    row("adds", "finish: 65,536 ADDs on AArch64", inputs::adds).on(AARCH64),
    row(
        "relocations",
        "finish: 65,536 relocations, 1,200 events",
        inputs::relocations,
    ),
    row(
        "relocations-owned",
        "the same; the Rust by finish_owned",
        inputs::relocations,
    )
    .beside(OWNED),
    row(
        "relocations-random",
        "finish: 65,536 relocations at random offsets",
        inputs::relocations_at_random,
    ),
    row(
        "relocations-random-owned",
        "the same; the Rust by finish_owned",
        inputs::relocations_at_random,
    )
    .beside(OWNED),
    row(
        "relas-write",
        "65,536 relocations written as ELF; in the Rust's place a loop",
        inputs::relocations_of_every_type,
    )
    .beside(Sides::Relas(Task::Write)),
    row(
        "relas-read",
        "65,536 ELF entries read; in the Rust's place a loop",
        inputs::relocations_of_every_type,
    )
    .beside(Sides::Relas(Task::Read)),
    join("join-small", "join: 4 rules of 10 jumps", joins::small).batched(16),
    join("join-typical", "join: 4 typical rules", joins::typical),
    join(
        "join-typical-loaded",
        "the same; the Rust links and loads",
        joins::typical,
    )
    .beside(Sides::Join(joins::typical, Linking::Load)),
    join(
        "join-many",
        "join: 256 pieces, 1,024 symbols, 1,536 calls",
        joins::many,
    ),
    join(
        "join-sparse",
        "join: 16 pieces, 4,096 symbols from 65,536 on",
        joins::sparse,
    ),
    join(
        "join-dense",
        "join: 65,536 calls of 65,536 symbols, 2 pieces",
        joins::dense,
    )
    .with_one_turn(),
    join(
        "join-dense-spread",
        "join: 65,024 calls of 65,536 symbols, 256 pieces",
        joins::dense_spread,
    )
    .with_one_turn(),
    join("join-copied", "join: 16 MiB in 256 pieces", joins::copied),
    join(
        "join-copied-loaded",
        "the same; the Rust links and loads",
        joins::copied,
    )
    .beside(Sides::Join(joins::copied, Linking::Load)),
    row(
        "constants-10000",
        "finish: 10,000 pooled constants, one jump",
        || inputs::constants(10_000),
    ),
    row(
        "constants-65000",
        "finish: 65,000 pooled constants, one jump",
        || inputs::constants(65_000),
    ),
    row("chain-2500", "finish: a chain of 2,500 jumps", || {
        inputs::chain(2_500)
    })
    .at_least(7),
    row("chain-5000", "finish: a chain of 5,000 jumps", || {
        inputs::chain(5_000)
    })
    .at_least(5),
    row("chain-10000", "finish: a chain of 10,000 jumps", || {
        inputs::chain(10_000)
    })
    .at_least(3),
    row("chain-20000", "finish: a chain of 20,000 jumps", || {
        inputs::chain(20_000)
    })
    .at_least(2),
    row(
        "record-typical",
        "record: the typical rule, from its sheet",
        inputs::typical,
    )
    .recording(),
    row(
        "record-typical-shuffled",
        "record: the typical rule, its labels shuffled",
        inputs::typical_shuffled,
    )
    .recording(),
    row(
        "record-ceilings-said",
        "record: the typical rule, ceilings of 4,095 said",
        inputs::typical_said,
    )
    .recording(),
    row(
        "record-ceilings",
        "record: the typical rule on 32, ceilings of 10; the Rust without",
        inputs::typical_within,
    )
    .recording()
    .beside(Sides::Instead(inputs::typical_on_32)),
    row(
        "record-alignments",
        "record: 65,535 alignments, from a sheet",
        inputs::alignments,
    )
    .recording(),
    row(
        "record-alignments-ceilings",
        "the same with ceilings of 10; the Rust without",
        inputs::alignments_within,
    )
    .recording()
    .beside(Sides::Instead(inputs::alignments)),
    row(
        "record-large",
        "record: 60,000 events, 4 MiB, from a sheet",
        inputs::large,
    )
    .recording(),
    Row {
        name: "record-library",
        about: "record: the jumps of the machine's C library, from a sheet",
        ..FINISH
    }
    .recording(),
    row(
        "record-calls",
        "record: 65,536 calls, from a sheet",
        inputs::calls,
    )
    .recording(),
    row(
        "record-labels",
        "record: 8,192 jumps among 8,192 labels",
        || inputs::labels_and_jumps(8_192),
    )
    .recording(),
    row(
        "record-binds",
        "record: 65,536 uses and 8,192 binds in one sheet",
        || inputs::uses_and_binds(8_192),
    )
    .recording(),
    row(
        "editor-typical",
        "editor: 80 calls, the typical rule; in the Rust's place a loop counts",
        inputs::typical,
    )
    .beside(Sides::Editor),
    row(
        "editor-calls",
        "editor: 80 calls after 65,536; in the Rust's place a loop counts",
        inputs::calls,
    )
    .beside(Sides::Editor),
    row(
        "wrapper-1",
        "wrapper, a rule of 1 jump recorded, finished, dropped",
        || inputs::small_calls(1),
    )
    .whole()
    .beside(WRAPPER)
    .batched(16),
    row(
        "wrapper-10",
        "wrapper, a rule of 10 jumps recorded, finished, dropped",
        || inputs::small_calls(10),
    )
    .whole()
    .beside(WRAPPER)
    .batched(16),
    row(
        "calls-10",
        "the same; in the wrapper's place the C functions alone",
        || inputs::small_calls(10),
    )
    .whole()
    .batched(16),
    row(
        "wrapper-10-owned",
        "wrapper, a rule of 10 jumps; the Rust by finish_owned",
        || inputs::small_calls(10),
    )
    .whole()
    .beside(Sides::Wrapper(HandOut::Owned))
    .batched(16),
    row(
        "wrapper-100",
        "wrapper, a rule of 100 jumps recorded, finished, dropped",
        || inputs::small_calls(100),
    )
    .whole()
    .beside(WRAPPER)
    .batched(16),
    row(
        "wrapper-typical",
        "wrapper, the typical rule recorded, finished, dropped",
        inputs::typical_calls,
    )
    .whole()
    .beside(WRAPPER),
    row(
        "calls-typical",
        "the same; in the wrapper's place the C functions alone",
        inputs::typical_calls,
    )
    .whole(),
];

impl Input {
    /// The steps, or why there are none.
    pub fn steps(self) -> Result<Vec<Step>, String> {
        match self {
            Self::Made(make) => Ok(make()),
            Self::Library => Ok(library()?.steps.clone()),
        }
    }
}
