//! Finish: its refusals in order, and what it leaves.

use super::assembly::{self, Placed};
use super::counts::{Counts, passes_limit};
use super::pool::{Event, Field, Pooled};
use super::{Refusal, entries, fields};
use crate::{Lent, NONE, Part};

/// Finishes a recording: its refusal, or 0. Nothing is written where the record is lent too short; a refused finish gives a record of zeros.
pub fn finish(lent: &mut Lent) -> Refusal {
    if lent.room(Part::Record) < 1 {
        return 1;
    }
    let refusal = attempt(lent).err().unwrap_or(0);
    if refusal != 0 {
        lent.set_words(Part::Record, 0, &[0; 6]);
    }
    refusal
}

/// What a recording finishes to.
struct Finished {
    code: Vec<u8>,
    layouts: u32,
    labels: Vec<u32>,
    relocation_offsets: Vec<u32>,
}

fn attempt(lent: &mut Lent) -> Result<(), Refusal> {
    let mut counts = Counts::read(lent).ok_or(1u32)?;
    let within = [Part::Segments, Part::Output];
    let within = !within.iter().any(|part| passes_limit(lent, *part));
    counts.standing(lent, &Part::TABLES, within)?;
    if !entries::fit(lent, &counts) || counts.open != counts.counted(lent) {
        return Err(1);
    }
    let pooled = Pooled::new(lent, &counts)?;
    if pooled.is_open() {
        return Err(15);
    }
    let alignment = pooled.alignment();
    let finished = if pooled.has_jump() {
        relax(lent, &pooled)?
    } else {
        patch_uses(lent, pooled)?
    };
    counts.finished = 1;
    counts.open = 0;
    counts.write(lent);
    write(lent, &counts, &finished, alignment);
    Ok(())
}

/// With a jump: 16, 17, the rounds, 18, 23. The settled segments stay in their table from the rounds on.
fn relax(lent: &mut Lent, pooled: &Pooled) -> Result<Finished, Refusal> {
    if lent.room(Part::Segments) < pooled.events.len() {
        return Err(16);
    }
    if !pooled.refs.iter().all(|field| is_clear(pooled, field)) {
        return Err(17);
    }
    let mut settled = assembly::settle(pooled);
    let segments = segments(pooled, &settled.placed);
    for (number, segment) in segments.iter().enumerate() {
        lent.set_words(Part::Segments, number, segment);
    }
    if !assembly::refs_reach(pooled, &settled.placed) {
        return Err(18);
    }
    if settled.placed.code.len() > lent.room(Part::Output) {
        return Err(23);
    }
    assembly::fill(pooled, &mut settled);
    let position = |label: &u32| settled.placed.position(*label);
    let relocations = pooled.relocations.iter();
    Ok(Finished {
        layouts: settled.rounds,
        labels: pooled.labels.iter().map(position).collect(),
        relocation_offsets: relocations.map(|r| map(&segments, r.offset)).collect(),
        code: settled.placed.code,
    })
}

/// A ref's field lies within the code, clear of every event.
fn is_clear(pooled: &Pooled, field: &Field) -> bool {
    let start = u64::from(field.offset);
    let end = start + fields::size(field.code) as u64;
    let meets = |event: &Event| start < event.end().into() && end > event.start().into();
    end <= pooled.code.len() as u64 && !pooled.events.iter().any(meets)
}

/// Old start, old end, new start and new end of each event.
type Segment = [u32; 4];

fn segments(pooled: &Pooled, placed: &Placed) -> Vec<Segment> {
    let events = pooled.events.iter().zip(&placed.events);
    events
        .map(|(event, (new_start, new_end))| [event.start(), event.end(), *new_start, *new_end])
        .collect()
}

/// "An offset in an event counts from its start, any other from the end of the event before; of events starting at one offset the last decides."
fn map(segments: &[Segment], offset: u32) -> u32 {
    let starts_before = |segment: &&Segment| segment[0] <= offset;
    match segments.iter().rev().find(starts_before) {
        _ if offset == NONE => offset,
        None => offset,
        Some([old_start, old_end, new_start, _]) if offset < *old_end => {
            offset - old_start + new_start
        }
        Some([_, old_end, _, new_end]) => offset - old_end + new_end,
    }
}

/// Without a jump: 19 to 22 for each use in order, 23. Nothing moves.
fn patch_uses(lent: &Lent, mut pooled: Pooled) -> Result<Finished, Refusal> {
    for field in &pooled.uses {
        check_use(&pooled, field)?;
    }
    if pooled.code.len() > lent.room(Part::Output) {
        return Err(23);
    }
    for field in &pooled.uses {
        let label = pooled.labels[field.label as usize];
        let bytes = &mut pooled.code[field.offset as usize..][..fields::size(field.code)];
        let target = i64::from(label) + fields::held_addend(field.code, bytes);
        fields::patch(field.code, bytes, field.offset.into(), target);
    }
    for constant in &pooled.pool {
        let offset = constant.offset as usize;
        pooled.code[offset..][..constant.bytes.len()].copy_from_slice(&constant.bytes);
    }
    Ok(Finished {
        layouts: 0,
        relocation_offsets: pooled.relocations.iter().map(|r| r.offset).collect(),
        labels: pooled.labels,
        code: pooled.code,
    })
}

fn check_use(pooled: &Pooled, field: &Field) -> Result<(), Refusal> {
    let label = pooled.labels[field.label as usize];
    let end = u64::from(field.offset) + fields::size(field.code) as u64;
    if end > pooled.code.len() as u64 {
        return Err(19);
    }
    if fields::reaches(field.code, i64::from(label) - i64::from(field.offset)) {
        return Ok(());
    }
    Err(if fields::is_branch(field.code) {
        20
    } else if label >= field.offset {
        21
    } else {
        22
    })
}

/// Leaves final offsets, code and record.
fn write(lent: &mut Lent, counts: &Counts, finished: &Finished, alignment: u32) {
    for (label, offset) in finished.labels.iter().enumerate() {
        lent.set_word(Part::Labels, label, 0, *offset);
    }
    for (relocation, offset) in finished.relocation_offsets.iter().enumerate() {
        lent.set_word(Part::Relocations, relocation, 0, *offset);
    }
    lent[Part::Output][..finished.code.len()].copy_from_slice(&finished.code);
    let record = [
        counts.arch,
        finished.code.len() as u32,
        alignment,
        finished.layouts,
        finished.labels.len() as u32,
        finished.relocation_offsets.len() as u32,
    ];
    lent.set_words(Part::Record, 0, &record);
}
