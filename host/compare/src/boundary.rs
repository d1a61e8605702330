//! The calls that a host can make, whoever answers them.

use crate::Vast;

/// What a call answers.
#[derive(Clone, Copy, Debug, Default, PartialEq, Eq)]
pub struct Reply {
    /// The number of a refusal, or 0.
    pub refusal: u32,
    /// A sheet's index, a constant's number; 0 for the calls without a value.
    pub value: u32,
}

impl Reply {
    pub fn new(refusal: u32, value: u32) -> Self {
        Self { refusal, value }
    }
}

/// The C functions of include/wargnifla.h, on memory that the implementor holds.
pub trait Boundary {
    fn start(&mut self, arch: u32, symbols: u32) -> Reply;
    fn run_sheet(&mut self, sheet: &[u8]) -> Reply;
    fn put_bytes(&mut self, bytes: &[u8]) -> Reply;
    fn align(&mut self, multiple: u32, most: u32) -> Reply;
    fn add_constant(&mut self, bytes: &[u8]) -> Reply;
    fn add_reloc(&mut self, offset: u32, kind: u32, target: u32, addend: i64) -> Reply;
    fn finish(&mut self) -> Reply;
    fn write_relas(&mut self, section: u32) -> Reply;
    fn read_relas(&mut self) -> Reply;
    fn join(&mut self, is_vast: Vast) -> Reply;
}
