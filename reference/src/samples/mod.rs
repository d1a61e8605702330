//! The recordings of the stored list, from fixed seeds.
//!
//! No added refusal of document 01 applies to any of them
//! ([`added_refusal`](crate::added_refusal) is asked about each), and those that
//! meet a departure are left out ([`DEPARTURES`](crate::DEPARTURES)).

mod draft;
mod fields;
mod jumps;
mod limits;
mod mixed;
mod pools;
mod refusals;
mod relocations;
mod small;

use std::collections::HashSet;

use crate::{DEPARTURES, Sample, added_refusal, first_departure};
pub(crate) use draft::Draft;

/// All recordings, each once, in the order of the list.
pub fn samples() -> Vec<Sample> {
    let families = [
        crate::cases::drafts(),
        small::drafts(),
        jumps::drafts(),
        fields::drafts(),
        limits::drafts(),
        pools::drafts(),
        relocations::drafts(),
        refusals::drafts(),
        mixed::drafts(),
    ];
    let mut seen = HashSet::new();
    let drafts = families.iter().flatten();
    drafts
        .filter(|draft| !departs(draft))
        .map(to_sample)
        .filter(|sample| seen.insert(sample.clone()))
        .collect()
}

fn departs(draft: &Draft) -> bool {
    first_departure(DEPARTURES, draft.arch, draft.symbols, &draft.calls).is_some()
}

fn to_sample(draft: &Draft) -> Sample {
    if let Some(number) = added_refusal(draft.arch, draft.symbols, &draft.calls) {
        let text = crate::write_text(&draft.calls);
        panic!("the added refusal {number} applies to {text}");
    }
    Sample::new(draft.arch, draft.symbols, &draft.calls)
}
