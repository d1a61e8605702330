//! What a reader should know of a page before the first look.

use crate::CodeBufferFinalized;

/// How much was recorded and is not in the code.
pub fn not_in_code<'a>(
    codes: impl IntoIterator<Item = &'a CodeBufferFinalized>,
) -> impl Iterator<Item = String> {
    let entries = codes.into_iter().flat_map(CodeBufferFinalized::unpatched);
    let note = match entries.filter(|entry| !entry.filled).count() {
        0 => None,
        1 => Some("1 jump or field was recorded and is not in the code.".into()),
        many => Some(format!(
            "{many} jumps and fields were recorded and are not in the code."
        )),
    };
    note.into_iter()
}

/// How many relocations pass the end of the code, so that a drawing has no place for them.
pub fn not_drawn(relocations: usize) -> impl Iterator<Item = String> {
    let note = match relocations {
        0 => None,
        1 => Some("1 relocation passes the end of the code, and is not drawn.".into()),
        many => Some(format!(
            "{many} relocations pass the end of the code, and are not drawn."
        )),
    };
    note.into_iter()
}
