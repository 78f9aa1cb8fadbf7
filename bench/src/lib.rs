//! The implementations in Rust, the proved calls beside them, and what measures them.

pub mod agreement;
pub mod calls;
pub mod counting;
pub mod inputs;
pub mod interleave;
pub mod lister;
pub mod near;
pub mod passes;
pub mod plain;
pub mod plot;
pub mod processes;
pub mod safe;
pub mod soft;
pub mod tables;
pub mod timing;

/// The proved code, called through its C exports.
pub use common::calls as proved;

/// How a word was read: the places that differ, and the margin of the votes.
pub struct Reading {
    pub wrong: u32,
    pub margin: u32,
}

// Bytes that nothing runs, as many as LAYOUT says: they move the code behind them.
core::arch::global_asm!(concat!(".section .text.layout,\"axR\",@progbits\n.skip ", env!("LAYOUT"), ", 0x90\n.text"));
