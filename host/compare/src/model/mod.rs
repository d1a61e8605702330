//! A plain model of document 01, over the same bytes that the C functions are lent: what each call answers, and what it leaves in everything lent.
//!
//! It is written from document 01, the requests of document 02 and the readings of docs/DECISIONS.md, with vectors and without care for speed, so
//! that it can be read beside them.

mod assembly;
mod calls;
pub mod ceilings;
mod counts;
mod entries;
mod fields;
mod finish;
mod join;
pub mod open;
mod pool;
pub mod relas;
mod sheet;

use crate::{Boundary, Lent, NONE, Part, Reply, Vast};
use calls::{Call, Recording};
use counts::Counts;

/// The number of a refusal.
type Refusal = u32;

/// Document 01, as the requests of document 02 have changed it, on lent memory.
#[derive(Default)]
pub struct Model {
    pub lent: Lent,
}

impl Model {
    /// 1 if too few bytes are lent for counts. It comes before everything else, a sheet's form too, and nothing is written then.
    fn counts(&self) -> Result<Counts, Refusal> {
        Counts::read(&self.lent).ok_or(1)
    }

    /// Makes the calls of a sheet; the refusal of one and its index.
    fn make_all(&mut self, bytes: &[u8]) -> Result<u32, (Refusal, u32)> {
        let counts = self.counts().map_err(|refusal| (refusal, 0))?;
        let calls = sheet::read(bytes).map_err(|index| (1, index))?;
        let standing = counts.standing(&self.lent, &Part::TABLES, true);
        standing.map_err(|refusal| (refusal, 0))?;
        let mut recording = Recording::new(&mut self.lent, counts);
        let made = (0..).zip(&calls).try_for_each(|(index, call)| {
            let made = recording.make(call);
            made.map(drop).map_err(|refusal| (refusal, index))
        });
        recording.end();
        made.map(|()| calls.len() as u32)
    }

    /// Makes a direct call that is lent the tables named.
    fn direct(&mut self, tables: &[Part], call: &Call<'_>) -> Result<u32, Refusal> {
        let counts = self.counts()?;
        if !is_well_formed(call) {
            return Err(1);
        }
        counts.standing(&self.lent, tables, true)?;
        let mut recording = Recording::new(&mut self.lent, counts);
        let made = recording.make(call);
        recording.end();
        made
    }
}

/// A direct call's kind is a number of `Reloc`, as in a sheet.
fn is_well_formed(call: &Call<'_>) -> bool {
    !matches!(call, Call::Relocation { kind, .. } if *kind > sheet::LAST_RELOC)
}

fn without_value(result: Result<u32, Refusal>) -> Reply {
    Reply::new(result.err().unwrap_or(0), 0)
}

impl Boundary for Model {
    fn start(&mut self, arch: u32, symbols: u32) -> Reply {
        if let Err(refusal) = self.counts() {
            return Reply::new(refusal, 0);
        }
        let known = counts::is_arch(arch);
        let counts = if known {
            Counts::start(arch, symbols)
        } else {
            Counts::default()
        };
        counts.write(&mut self.lent);
        Reply::new(if known { 0 } else { 2 }, 0)
    }

    fn run_sheet(&mut self, bytes: &[u8]) -> Reply {
        match self.make_all(bytes) {
            Ok(calls) => Reply::new(0, calls),
            Err((refusal, index)) => Reply::new(refusal, index),
        }
    }

    fn put_bytes(&mut self, bytes: &[u8]) -> Reply {
        without_value(self.direct(&[Part::Code], &Call::Bytes(bytes)))
    }

    fn align(&mut self, multiple: u32, most: u32) -> Reply {
        without_value(self.direct(&[Part::Code, Part::Events], &Call::Align { multiple, most }))
    }

    fn add_constant(&mut self, bytes: &[u8]) -> Reply {
        match self.direct(&[Part::Constants], &Call::Constant(bytes)) {
            Ok(number) => Reply::new(0, number),
            Err(refusal) => Reply::new(refusal, NONE),
        }
    }

    fn add_reloc(&mut self, offset: u32, kind: u32, target: u32, addend: i64) -> Reply {
        let call = Call::Relocation {
            offset,
            kind,
            target,
            addend,
        };
        without_value(self.direct(&[Part::Labels, Part::Relocations], &call))
    }

    fn finish(&mut self) -> Reply {
        Reply::new(finish::finish(&mut self.lent), 0)
    }

    fn write_relas(&mut self, section: u32) -> Reply {
        Reply::new(relas::write(&mut self.lent, section), 0)
    }

    fn read_relas(&mut self) -> Reply {
        Reply::new(relas::read(&mut self.lent), 0)
    }

    fn join(&mut self, is_vast: Vast) -> Reply {
        Reply::new(join::join(&mut self.lent, is_vast), 0)
    }
}
