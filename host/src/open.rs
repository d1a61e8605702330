//! Labels that are not bound, and what names them.

use std::collections::BTreeMap;

use crate::{Entry, Label, LayoutEvent, Recording, RelocTarget, UNBOUND};

/// A label that is not bound, and what names it.
#[derive(Clone, Debug, PartialEq, Eq)]
pub struct OpenLabel {
    /// The label.
    pub label: Label,
    /// The uses, refs, jumps and relocations that name it: one at least, and each kind in the order of recording.
    pub entries: Vec<Entry>,
}

impl Recording {
    /// The labels that are open, by rising number: those that are not bound and that a use, ref, jump or relocation names. They have as many entries
    /// as [`open`](Self::open) counts.
    ///
    /// The label of a constant is among them, though finish binds it.
    ///
    /// ```
    /// use wargnifla::{Arch, CodeBuffer, Entry, LabelUse};
    ///
    /// # fn main() -> Result<(), wargnifla::Error> {
    /// let mut buffer = CodeBuffer::new(Arch::X64);
    /// let end = buffer.get_label()?;
    /// buffer.put_bytes(&[0xE9, 0, 0, 0, 0])?;
    /// buffer.use_label_at_offset(1, end, LabelUse::X86JmpRel32)?;
    /// let open = buffer.recording().open_labels();
    /// assert_eq!((open[0].label, &open[0].entries[..]), (end, &[Entry::Use(0)][..]));
    /// # Ok(())
    /// # }
    /// ```
    #[must_use]
    pub fn open_labels(&self) -> Vec<OpenLabel> {
        let mut open: BTreeMap<Label, Vec<Entry>> = BTreeMap::new();
        for (label, entry) in self.naming_entries() {
            if self.labels[label.id() as usize] == UNBOUND {
                open.entry(label).or_default().push(entry);
            }
        }
        let open = open.into_iter();
        open.map(|(label, entries)| OpenLabel { label, entries })
            .collect()
    }

    /// Every entry that names a label.
    fn naming_entries(&self) -> impl Iterator<Item = (Label, Entry)> {
        let uses = self.uses.iter().map(|field| Some(field.label));
        let refs = self.refs.iter().map(|field| Some(field.label));
        let jumps = self.events.iter().map(LayoutEvent::label);
        let relocs = self.relocs.iter().map(|reloc| match reloc.target {
            RelocTarget::Label(label) => Some(label),
            RelocTarget::Sym(_) => None,
        });
        let uses = (0..).map(Entry::Use).zip(uses);
        let refs = (0..).map(Entry::Ref).zip(refs);
        let jumps = (0..).map(Entry::Event).zip(jumps);
        let relocs = (0..).map(Entry::Reloc).zip(relocs);
        let all = uses.chain(refs).chain(jumps).chain(relocs);
        all.filter_map(|(entry, label)| Some((label?, entry)))
    }
}
