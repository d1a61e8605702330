//! Where this project departs from the Rust on purpose.
//!
//! Document 01 only adds refusals to the Rust's answers, and
//! [`added_refusal`](crate::added_refusal) knows them. A later request may
//! change an answer that the two agreed on: that is a departure. A recording
//! that meets one is not among the stored ones, and the differential runs hold
//! its finish against their model alone.

mod add_field;
mod ceiling;

use std::ops::RangeInclusive;

use crate::{Call, Error, Finished, Recording};

/// One change, by name.
pub struct Departure {
    /// The name of the line of reference/differences.txt that shows it.
    pub name: &'static str,
    /// Whether a recording of an architecture, so many symbols and these calls
    /// meets it. Of one that both refuse it may say either.
    pub is_met: fn(arch: u32, symbols: u32, calls: &[Call<'_>]) -> bool,
    /// A finish of the Rust's that is told of the change, if it can be; the calls
    /// are those that were made.
    pub told: Option<fn(&mut Recording, &[Call<'_>]) -> Result<Finished, Error>>,
}

/// Every departure. What the Rust can be told of comes last: of the others it
/// is not told then.
pub const DEPARTURES: &[Departure] = &[
    Departure {
        name: "wide-constant",
        is_met: |_, _, calls| asks_for_wide_constant(calls),
        told: None,
    },
    Departure {
        name: "add-field-not-clear",
        is_met: add_field::changes_code,
        told: None,
    },
    Departure {
        name: "padding-ceiling",
        is_met: ceiling::decides_in_layout,
        told: Some(Recording::finish_within),
    },
];

/// The sizes of constants that stand on a multiple of 64 by document 02,
/// Request One, and on one of 16 in the Rust.
const WIDE: RangeInclusive<usize> = 33..=64;

/// Whether a wide constant is asked for, and so pooled. Where it happens to
/// stand on the same offset in both, the alignment that finish reports is
/// still 64 here and 32 there; one that is added alone changes nothing.
fn asks_for_wide_constant(calls: &[Call<'_>]) -> bool {
    let mut sizes = Vec::new();
    calls.iter().any(|call| match call {
        Call::Constant(bytes) => {
            sizes.push(bytes.len());
            false
        }
        Call::ConstantLabel(constant) => {
            let size = sizes.get(*constant as usize);
            size.is_some_and(|size| WIDE.contains(size))
        }
        _ => false,
    })
}

/// The first departure that a recording meets.
pub fn first_departure<'a>(
    departures: &'a [Departure],
    arch: u32,
    symbols: u32,
    calls: &[Call<'_>],
) -> Option<&'a Departure> {
    let is_met = |departure: &&Departure| (departure.is_met)(arch, symbols, calls);
    departures.iter().find(is_met)
}
