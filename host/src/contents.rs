//! What stands where in finished code, as far as a linker or debugger has to know it.

use std::ops::Range;

use crate::join::Pieces;
use crate::recording::Label;
use crate::tables::Tables;
use crate::{CodeOffset, ExternalName, UNBOUND};

/// Finished code, told apart.
#[derive(Clone, Debug, Default, PartialEq, Eq)]
pub(crate) struct Contents {
    /// Where bytes are known to be no instructions: alignments of zeros, pools with their padding, what stands between joined pieces. By rising
    /// offset; some may be empty.
    pub data: Vec<Range<CodeOffset>>,
    /// The labels of pooled constants, and the constants' sizes.
    pub constants: Vec<(Label, u32)>,
    /// The labels that were given symbols to define and have code behind them, and the bytes up to the next such label or the end of the code.
    pub functions: Vec<(Label, u32)>,
}

impl Contents {
    /// What finish made of a recording: `zeros` are those of its alignments, and `pool` is where its pool stands.
    pub fn finished(
        tables: &Tables,
        definitions: &[(ExternalName, Label)],
        zeros: &[Range<CodeOffset>],
        pool: Range<CodeOffset>,
    ) -> Self {
        let functions = functions(tables, definitions, pool.start);
        let pool = Some(pool).filter(|pool| !pool.is_empty());
        let constants = tables.constants().filter_map(|constant| {
            let label = constant.label?;
            Some((label, constant.data.len() as u32))
        });
        Self {
            constants: constants.collect(),
            functions,
            data: zeros.iter().cloned().chain(pool).collect(),
        }
    }

    /// What join made of pieces.
    pub fn joined(pieces: &Pieces<'_>) -> Self {
        let mut whole = Self::default();
        let mut end = 0;
        for piece in &pieces.all {
            let base = piece.base as CodeOffset;
            let Self {
                data,
                constants,
                functions,
            } = &piece.code.contents;
            whole.data.push(end..base);
            let moved = |range: &Range<CodeOffset>| base + range.start..base + range.end;
            whole.data.extend(data.iter().map(moved));
            let renumbered =
                |&(label, size): &(Label, u32)| Some((piece.label_in_whole(label)?, size));
            whole
                .constants
                .extend(constants.iter().filter_map(renumbered));
            whole
                .functions
                .extend(functions.iter().filter_map(renumbered));
            end = piece.end() as CodeOffset;
        }
        whole
    }
}

/// The labels that define symbols and have code behind them, each with the bytes that are its own.
fn functions(
    tables: &Tables,
    definitions: &[(ExternalName, Label)],
    code_end: CodeOffset,
) -> Vec<(Label, u32)> {
    let offset = |label| tables.label_offset(label).unwrap_or(UNBOUND);
    let mut labels: Vec<Label> = definitions.iter().map(|(_, label)| *label).collect();
    labels.retain(|label| offset(*label) < code_end);
    labels.sort_unstable();
    labels.dedup();
    let mut starts: Vec<CodeOffset> = labels.iter().map(|label| offset(*label)).collect();
    starts.sort_unstable();
    let size = |start: CodeOffset| {
        let next = starts.partition_point(|other| *other <= start);
        starts.get(next).unwrap_or(&code_end) - start
    };
    let sized = labels.iter().map(|label| (*label, size(offset(*label))));
    sized.collect()
}
