//! The C functions of libwargnifla.a, as include/wargnifla.h declares them and crates/wargnifla defines them. The header says what each does and
//! what every number and table means.

/// Where an event comes to stand: `wargnifla_segment`.
#[repr(C)]
#[derive(Clone, Copy, Debug, Default, PartialEq, Eq)]
pub struct Segment {
    pub old_start: u32,
    pub old_end: u32,
    pub new_start: u32,
    pub new_end: u32,
}

unsafe extern "C" {
    pub fn wargnifla_start(arch: u32, symbols: u32, counts: *mut u8, counts_len: usize) -> u32;

    pub fn wargnifla_run_sheet(
        sheet: *const u8,
        sheet_len: usize,
        index: *mut u32,
        counts: *mut u8,
        counts_len: usize,
        code: *mut u8,
        code_len: usize,
        labels: *mut u8,
        labels_len: usize,
        events: *mut u8,
        events_len: usize,
        uses: *mut u8,
        uses_len: usize,
        refs: *mut u8,
        refs_len: usize,
        constants: *mut u8,
        constants_len: usize,
        asked: *mut u8,
        asked_len: usize,
        relocs: *mut u8,
        relocs_len: usize,
    ) -> u32;

    pub fn wargnifla_finish(
        counts: *mut u8,
        counts_len: usize,
        code: *const u8,
        code_len: usize,
        labels: *mut u8,
        labels_len: usize,
        events: *const u8,
        events_len: usize,
        uses: *const u8,
        uses_len: usize,
        refs: *const u8,
        refs_len: usize,
        constants: *const u8,
        constants_len: usize,
        asked: *const u8,
        asked_len: usize,
        relocs: *mut u8,
        relocs_len: usize,
        segments: *mut Segment,
        segments_len: usize,
        output: *mut u8,
        output_len: usize,
        record: *mut u8,
        record_len: usize,
    ) -> u32;

    pub fn wargnifla_put_bytes(
        counts: *mut u8,
        counts_len: usize,
        code: *mut u8,
        code_len: usize,
        bytes: *const u8,
        bytes_len: usize,
    ) -> u32;

    pub fn wargnifla_align(
        counts: *mut u8,
        counts_len: usize,
        code: *mut u8,
        code_len: usize,
        events: *mut u8,
        events_len: usize,
        multiple: u32,
        most: u32,
    ) -> u32;

    pub fn wargnifla_add_constant(
        counts: *mut u8,
        counts_len: usize,
        constants: *mut u8,
        constants_len: usize,
        bytes: *const u8,
        bytes_len: usize,
        number: *mut u32,
    ) -> u32;

    pub fn wargnifla_add_reloc(
        counts: *mut u8,
        counts_len: usize,
        labels: *const u8,
        labels_len: usize,
        relocs: *mut u8,
        relocs_len: usize,
        offset: u32,
        kind: u32,
        target: u32,
        addend: u64,
    ) -> u32;

    pub fn wargnifla_write_relas(
        record: *const u8,
        record_len: usize,
        labels: *const u8,
        labels_len: usize,
        relocs: *const u8,
        relocs_len: usize,
        section: u32,
        output: *mut u8,
        output_len: usize,
    ) -> u32;

    pub fn wargnifla_read_relas(
        relas: *const u8,
        relas_len: usize,
        entries: *mut u8,
        entries_len: usize,
    ) -> u32;

    pub fn wargnifla_join(
        pieces: *const u8,
        pieces_len: usize,
        code: *const u8,
        code_len: usize,
        labels: *const u8,
        labels_len: usize,
        relocs: *const u8,
        relocs_len: usize,
        definitions: *const u8,
        definitions_len: usize,
        output: *mut u8,
        output_len: usize,
        joined_labels: *mut u8,
        joined_labels_len: usize,
        joined_relocs: *mut u8,
        joined_relocs_len: usize,
        record: *mut u8,
        record_len: usize,
    ) -> u32;
}
