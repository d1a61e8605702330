//! Request Seven: what an alignment spends, by its ceiling.

/// The ceiling of an alignment for which no other is given.
pub const DEFAULT_CEILING: u32 = 4095;

/// "Sheets use the second word of kind 4, with 0 meaning the default."
pub fn in_sheet(word: u32) -> u32 {
    if word == 0 { DEFAULT_CEILING } else { word }
}

/// The least length that reaches a multiple; 0 where none can be reached.
pub fn needed(offset: u32, multiple: u32) -> u32 {
    let reached = offset.checked_next_multiple_of(multiple);
    reached.unwrap_or(offset) - offset
}

/// "Where more are needed it spends none."
pub fn spent(offset: u32, multiple: u32, most: u32) -> u32 {
    let needed = needed(offset, multiple);
    if needed > most { 0 } else { needed }
}
