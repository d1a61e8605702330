//! The part of asmkit's `x86` that the buffer needs.

// Made by reference/build from asmkit's encoder.rs.
#[rustfmt::skip]
pub mod encoder;
pub mod encoder_tables;
