//! What is run: a start, lent memory, and steps on it.

use std::borrow::Cow;
use std::fmt;

use compare::{Boundary, Lent, Part, Piece, Random, Reply, Vast, open, pieces};
use reference::{Call, write_sheet, write_text};

/// The most bytes that a pooled constant takes, with its padding.
const MOST_POOLED: usize = 63 + 64;

/// One step on a recording.
#[derive(Clone)]
pub enum Step {
    Sheet(Vec<Call<'static>>),
    /// A sheet that may break its form.
    RawSheet(Vec<u8>),
    Bytes(Vec<u8>),
    Constant(Vec<u8>),
    /// An alignment with any ceiling, 0 too.
    Align {
        multiple: u32,
        most: u32,
    },
    Relocation {
        offset: u32,
        kind: u32,
        target: u32,
        addend: i64,
    },
    Finish,
    /// Finished relocations written as ELF entries, with the section symbol.
    WriteRelas(u32),
    ReadRelas,
    /// ELF entries read, made relocations again, and written as they were.
    WriteAgain,
    /// Bytes written by hand into what is lent, as far as it reaches.
    Write {
        part: Part,
        at: usize,
        bytes: Vec<u8>,
    },
    /// The number of open entries written by hand.
    Open(Open),
    /// Pieces written by hand.
    Pieces(Vec<Piece>),
    /// The pieces joined.
    Join(Vast),
}

/// A number of open entries that is handed in.
#[derive(Clone, Copy, Debug)]
pub enum Open {
    /// What the tables come to, and so much more, modulo 2^32.
    Right(u32),
    Number(u32),
}

impl Open {
    /// Where it stands in the counts.
    pub const AT: usize = 48;

    /// The number, for what is lent.
    pub fn number(self, lent: &Lent) -> u32 {
        match self {
            Self::Right(more) => {
                let right = open::right_number(lent).unwrap_or_default();
                right.wrapping_add(more)
            }
            Self::Number(number) => number,
        }
    }
}

impl Step {
    /// What the step's call is lent to be read alone, if it is lent such.
    pub fn bytes(&self) -> Option<Cow<'_, [u8]>> {
        match self {
            Self::Sheet(calls) => {
                let sheet = write_sheet(calls).expect("the calls of a sheet fit one");
                Some(Cow::Owned(sheet))
            }
            Self::RawSheet(bytes) | Self::Bytes(bytes) | Self::Constant(bytes) => {
                Some(Cow::Borrowed(bytes))
            }
            Self::Align { .. }
            | Self::Relocation { .. }
            | Self::Finish
            | Self::WriteRelas(_)
            | Self::ReadRelas
            | Self::WriteAgain
            | Self::Write { .. }
            | Self::Open(_)
            | Self::Pieces(_)
            | Self::Join(_) => None,
        }
    }

    /// Makes the step's call, lent its [`Self::bytes`]; what is written by hand is no call, and the call of [`Self::WriteAgain`] is the first of its
    /// two.
    pub fn call(&self, boundary: &mut impl Boundary, bytes: &[u8]) -> Reply {
        match self {
            Self::Sheet(_) | Self::RawSheet(_) => boundary.run_sheet(bytes),
            Self::Bytes(_) => boundary.put_bytes(bytes),
            Self::Constant(_) => boundary.add_constant(bytes),
            Self::Align { multiple, most } => boundary.align(*multiple, *most),
            Self::Relocation {
                offset,
                kind,
                target,
                addend,
            } => boundary.add_reloc(*offset, *kind, *target, *addend),
            Self::Finish => boundary.finish(),
            Self::WriteRelas(section) => boundary.write_relas(*section),
            Self::ReadRelas | Self::WriteAgain => boundary.read_relas(),
            Self::Join(is_vast) => boundary.join(*is_vast),
            Self::Write { .. } | Self::Open(_) | Self::Pieces(_) => Reply::default(),
        }
    }

    /// The calls that a step makes, direct ones and those of a whole sheet.
    pub fn calls(&self) -> Cow<'_, [Call<'static>]> {
        let one = |call| Cow::Owned(vec![call]);
        match self {
            Self::Sheet(calls) => Cow::Borrowed(calls),
            Self::Bytes(bytes) => one(Call::Bytes(Cow::Owned(bytes.clone()))),
            Self::Constant(bytes) => one(Call::Constant(Cow::Owned(bytes.clone()))),
            Self::Align { multiple, most } => one(alignment(*multiple, *most)),
            Self::Relocation {
                offset,
                kind,
                target,
                addend,
            } => one(Call::Relocation {
                offset: *offset,
                kind: *kind,
                target: *target,
                addend: *addend,
            }),
            Self::RawSheet(_)
            | Self::Finish
            | Self::WriteRelas(_)
            | Self::ReadRelas
            | Self::WriteAgain
            | Self::Write { .. }
            | Self::Open(_)
            | Self::Pieces(_)
            | Self::Join(_) => Cow::Borrowed(&[]),
        }
    }

    /// Whether lent memory is written by hand.
    pub fn is_by_hand(&self) -> bool {
        matches!(self, Self::WriteAgain) || self.is_no_call()
    }

    /// Whether lent memory is written by hand, and nothing else done.
    pub fn is_no_call(&self) -> bool {
        matches!(self, Self::Write { .. } | Self::Open(_) | Self::Pieces(_))
    }
}

/// The call that makes an alignment with any ceiling in the Rust. No sheet has a ceiling of 0: it spends nothing and never will, as an alignment to
/// 1.
pub fn alignment(multiple: u32, most: u32) -> Call<'static> {
    let is_empty = most == 0 && multiple.is_power_of_two() && multiple <= 4096;
    Call::Align {
        multiple: if is_empty { 1 } else { multiple },
        most,
    }
}

/// The bytes lent of each part.
#[derive(Clone)]
pub struct Room([usize; Part::COUNT]);

impl Room {
    /// Room enough for every call of some steps and a finish.
    pub fn for_steps(steps: &[Step]) -> Self {
        let mut room = Self([0; Part::COUNT]);
        room.set(Part::Counts, 1);
        room.set(Part::Record, 1);
        for step in steps {
            for call in step.calls().iter() {
                room.add_call(call);
            }
        }
        room
    }

    fn add_call(&mut self, call: &Call<'_>) {
        match call {
            Call::Bytes(bytes) => self.add_code(bytes.len()),
            Call::NewLabel => self.add(Part::Labels, 1),
            Call::Align { multiple, .. } => {
                self.add_code((*multiple).min(4096) as usize);
                self.add(Part::Events, 1);
                self.add(Part::Segments, 1);
            }
            Call::Use { .. } => self.add(Part::Uses, 1),
            Call::Ref { .. } => self.add(Part::Refs, 1),
            Call::Jump { .. } => {
                self.add(Part::Output, 4);
                self.add(Part::Events, 1);
                self.add(Part::Segments, 1);
            }
            Call::Constant(_) => self.add(Part::Constants, 1),
            Call::ConstantLabel(_) => {
                self.add(Part::Labels, 1);
                self.add(Part::Asked, 1);
                self.add(Part::Segments, 1);
                self.add(Part::Output, MOST_POOLED);
            }
            Call::Relocation { .. } => self.add(Part::Relocations, 1),
            Call::Bind(_) => {}
        }
    }

    fn add_code(&mut self, bytes: usize) {
        self.add(Part::Code, bytes);
        self.add(Part::Output, bytes);
    }

    pub fn add(&mut self, part: Part, entries: usize) {
        self.0[part as usize] += entries * part.entry_bytes();
    }

    /// Room enough for pieces, and a record; what they are joined to has none.
    pub fn for_pieces(pieces: &[Piece]) -> Self {
        let mut room = Self([0; Part::COUNT]);
        room.set(Part::Counts, 1);
        room.set(Part::Record, 1);
        for part in pieces::LENT_IN {
            room.set_bytes(part, pieces::content(pieces, part).len());
        }
        room
    }

    /// Lends so many whole entries.
    pub fn set(&mut self, part: Part, entries: usize) {
        self.set_bytes(part, entries * part.entry_bytes());
    }

    pub fn set_bytes(&mut self, part: Part, bytes: usize) {
        self.0[part as usize] = bytes;
    }

    pub fn bytes(&self, part: Part) -> usize {
        self.0[part as usize]
    }
}

/// A whole run: what differs between two of them is here.
#[derive(Clone)]
pub struct Scenario {
    pub arch: u32,
    pub symbols: u32,
    pub room: Room,
    /// What stands in lent memory at first, and how it is aligned.
    pub noise: u64,
    pub steps: Vec<Step>,
}

impl Scenario {
    pub fn new(arch: u32, symbols: u32, noise: u64, steps: Vec<Step>) -> Self {
        Self {
            arch,
            symbols,
            room: Room::for_steps(&steps),
            noise,
            steps,
        }
    }

    /// Fills what is lent with noise, and says how far to shift it.
    pub fn lend(&self, lent: &mut Lent) -> usize {
        let mut random = Random::new(self.noise);
        for part in Part::ALL {
            random.fill(&mut lent[part], self.room.bytes(part));
        }
        random.below(16) as usize
    }
}

impl fmt::Display for Scenario {
    fn fmt(&self, f: &mut fmt::Formatter<'_>) -> fmt::Result {
        let Self {
            arch,
            symbols,
            noise,
            ..
        } = self;
        writeln!(f, "architecture {arch}, symbols {symbols}, noise {noise}")?;
        write!(f, "bytes lent:")?;
        for part in Part::ALL {
            write!(f, " {part:?} {}", self.room.bytes(part))?;
        }
        for (number, step) in self.steps.iter().enumerate() {
            write!(f, "\nstep {number}: {step}")?;
        }
        Ok(())
    }
}

impl fmt::Display for Step {
    fn fmt(&self, f: &mut fmt::Formatter<'_>) -> fmt::Result {
        match self {
            Self::Sheet(calls) => write!(f, "sheet: {}", write_text(calls)),
            Self::RawSheet(sheet) => write!(f, "sheet of bytes: {sheet:02X?}"),
            Self::Align { multiple, most } => {
                write!(f, "direct: align to {multiple}, at most {most}")
            }
            Self::Finish => write!(f, "finish"),
            Self::WriteRelas(section) => write!(f, "write as ELF, section symbol {section}"),
            Self::ReadRelas => write!(f, "read ELF entries"),
            Self::WriteAgain => write!(f, "read ELF entries and write them again"),
            Self::Write { part, at, bytes } => {
                write!(f, "write to {part:?} at byte {at}: {bytes:02X?}")
            }
            Self::Open(Open::Right(0)) => write!(f, "write the right number of open entries"),
            Self::Open(Open::Right(more)) => {
                let more = more.cast_signed();
                write!(f, "write a number of open entries that is wrong by {more}")
            }
            Self::Open(Open::Number(number)) => write!(f, "write {number} open entries"),
            Self::Pieces(pieces) => {
                write!(f, "pieces:")?;
                let joined = pieces.iter().enumerate();
                joined
                    .map(|(number, piece)| (if number == 0 { "" } else { "+ " }, piece))
                    .try_for_each(|(plus, piece)| write!(f, "\n  {plus}{piece}"))
            }
            Self::Join(is_vast) => write!(f, "join, vast: {is_vast:?}"),
            direct => write!(f, "direct: {}", write_text(&direct.calls())),
        }
    }
}
