//! The fresh assembly of document 01, defined without segments, and the rounds that settle which jumps are long.

use super::calls::nops;
use super::ceilings::spent;
use super::fields;
use super::pool::{Event, Pooled};
use crate::NONE;

/// What a fresh assembly places: displacements, refs and constants are open.
pub struct Placed {
    pub code: Vec<u8>,
    /// By recorded offset: where the walk stands on it with all events of length 0 there passed. Offsets inside an event have none.
    positions: Vec<u32>,
    /// New start and new end of each event.
    pub events: Vec<(u32, u32)>,
}

impl Placed {
    /// Where a label or a ref's field goes; an unbound label stays so.
    pub fn position(&self, offset: u32) -> u32 {
        if offset == NONE {
            return NONE;
        }
        self.positions[offset as usize]
    }
}

/// Walks over the recording with a choice of long jumps.
pub fn place(pooled: &Pooled, long: &[bool]) -> Placed {
    let mut walk = Walk::new(&pooled.code);
    let mut events = Vec::new();
    for (event, long) in pooled.events.iter().zip(long) {
        walk.copy_to(event.start());
        let new_start = walk.new_offset();
        walk.written.extend(form(event, *long, new_start));
        walk.pass_to(event.end());
        events.push((new_start, walk.new_offset()));
    }
    walk.copy_to(pooled.code.len() as u32);
    Placed {
        code: walk.written,
        positions: walk.positions,
        events,
    }
}

struct Walk<'a> {
    recorded: &'a [u8],
    offset: usize,
    written: Vec<u8>,
    positions: Vec<u32>,
}

impl<'a> Walk<'a> {
    fn new(recorded: &'a [u8]) -> Self {
        let mut walk = Self {
            recorded,
            offset: 0,
            written: Vec::with_capacity(recorded.len()),
            positions: vec![NONE; recorded.len() + 1],
        };
        walk.pass_to(0);
        walk
    }

    fn new_offset(&self) -> u32 {
        self.written.len() as u32
    }

    /// Stands on a recorded offset without copying.
    fn pass_to(&mut self, offset: u32) {
        self.offset = offset as usize;
        self.positions[self.offset] = self.new_offset();
    }

    /// Copies plain bytes one by one.
    fn copy_to(&mut self, offset: u32) {
        while self.offset < offset as usize {
            self.written.push(self.recorded[self.offset]);
            self.pass_to(self.offset as u32 + 1);
        }
    }
}

/// The bytes of an event at a new offset: padding, or a jump with its displacement open.
fn form(event: &Event, long: bool, new_start: u32) -> Vec<u8> {
    match *event {
        Event::Align { multiple, most, .. } => nops(spent(new_start, multiple, most)),
        Event::Jump { condition, .. } => {
            let condition = (condition < 16).then_some(condition as u8);
            match (condition, long) {
                (None, false) => vec![0xEB, 0],
                (Some(condition), false) => vec![0x70 + condition, 0],
                (None, true) => vec![0xE9, 0, 0, 0, 0],
                (Some(condition), true) => vec![0x0F, 0x80 + condition, 0, 0, 0, 0],
            }
        }
    }
}

/// What the rounds settle on.
pub struct Settled {
    pub long: Vec<bool>,
    pub rounds: u32,
    pub placed: Placed,
}

/// Rounds from no jump long, until one lengthens none. A long jump whose label comes into reach again, since padding between them shrinks, stays
/// long.
pub fn settle(pooled: &Pooled) -> Settled {
    let mut long = vec![false; pooled.events.len()];
    let mut rounds = 0;
    loop {
        rounds += 1;
        let placed = place(pooled, &long);
        let out_of_reach = out_of_reach(pooled, &placed, &long);
        if out_of_reach.is_empty() {
            return Settled {
                long,
                rounds,
                placed,
            };
        }
        for jump in out_of_reach {
            long[jump] = true;
        }
    }
}

/// The numbers of short jumps that do not reach their labels.
fn out_of_reach(pooled: &Pooled, placed: &Placed, long: &[bool]) -> Vec<usize> {
    let is_meant = |&number: &usize| match pooled.events[number] {
        Event::Jump { label, .. } => {
            !long[number] && i8::try_from(displacement(pooled, placed, number, label)).is_err()
        }
        Event::Align { .. } => false,
    };
    (0..pooled.events.len()).filter(is_meant).collect()
}

/// A label's new offset minus a jump's new end.
fn displacement(pooled: &Pooled, placed: &Placed, number: usize, label: u32) -> i64 {
    let target = placed.position(pooled.labels[label as usize]);
    i64::from(target) - i64::from(placed.events[number].1)
}

/// A ref can reach its label plus addend.
pub fn refs_reach(pooled: &Pooled, placed: &Placed) -> bool {
    pooled.refs.iter().all(|field| {
        let target = i64::from(placed.position(pooled.labels[field.label as usize]));
        let offset = i64::from(placed.position(field.offset));
        fields::reaches(field.code, target + i64::from(field.addend) - offset)
    })
}

/// Fills refs in order, then jumps, the constants' bytes last.
pub fn fill(pooled: &Pooled, settled: &mut Settled) {
    let placed = &mut settled.placed;
    for field in &pooled.refs {
        let target = i64::from(placed.position(pooled.labels[field.label as usize]));
        let offset = placed.position(field.offset);
        let bytes = &mut placed.code[offset as usize..][..fields::size(field.code)];
        let target = target + i64::from(field.addend);
        fields::patch(field.code, bytes, offset.into(), target);
    }
    for (number, event) in pooled.events.iter().enumerate() {
        if let Event::Jump { label, .. } = event {
            let value = displacement(pooled, placed, number, *label);
            let size = if settled.long[number] { 4 } else { 1 };
            let end = placed.events[number].1 as usize;
            placed.code[end - size..end].copy_from_slice(&value.to_le_bytes()[..size]);
        }
    }
    for constant in &pooled.pool {
        let offset = placed.position(constant.offset) as usize;
        placed.code[offset..][..constant.bytes.len()].copy_from_slice(&constant.bytes);
    }
}
