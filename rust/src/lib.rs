//! Gedrashiw for Rust programs: the calls of a duplex consensus caller, which are proved to give what document 01 says, under the
//! names that fgumi-consensus has for them. Nothing is computed here, and no input is copied: each call passes the caller's slices
//! on to the library. A call whose name ends in `_into` writes to the caller's outputs and allocates nothing; the one beside it
//! returns vectors. What an output holds past what is written stays as it was, and a refused call writes nothing. The calls that combine
//! two strands take first what the lab chooses, its [`Settings`].
//!
//! A molecule from its strands to its record, its gate and its metrics:
//!
//! ```
//! use gedrashiw::{DuplexConsensusCaller, Settings, VanillaConsensusRead};
//!
//! let a = VanillaConsensusRead::new(b"ACGT", &[30; 4], &[2; 4], &[0; 4]);
//! let b = VanillaConsensusRead::new(b"ACTN", &[20, 40, 30, 2], &[1; 4], &[0; 4]);
//! let record = DuplexConsensusCaller::duplex_consensus(Settings::default(), Some(&a), Some(&b), None)?;
//! let record = record.expect("both strands are covered");
//! assert_eq!(record.bases, b"ACNN");
//! assert!(DuplexConsensusCaller::duplex_consensus_has_minimum_reads(&record, &[3, 1])?);
//! assert_eq!(record.metrics()?.cD, 3);
//! # Ok::<(), gedrashiw::Refusal>(())
//! ```
#![deny(missing_docs)]

pub mod bytes;
pub mod caller;
pub mod duplex_caller;
mod entries;
pub mod methylation;
pub mod phred;
mod reason;
mod refusal;
mod settings;
#[cfg(test)]
mod tests;
pub mod vanilla_caller;

pub use caller::calculate_error_rate;
pub use duplex_caller::{
    CombinedStrands, ConsensusOut, DuplexConsensusCaller, DuplexConsensusRead, Kind, Metrics, MiPart, MinReads, MoleculeCall,
    Partition, ReadType, Record,
};
pub use methylation::{MethylationAnnotation, MethylationMode};
pub use reason::NoCallReason;
pub use refusal::Refusal;
pub use settings::Settings;
pub use vanilla_caller::{SourceRead, SourceReadBuffer, SourceReads, StrandOut, VanillaConsensusRead};

/// The most positions of a strand or a record.
pub const MAX_POSITIONS: usize = 1024;

/// The most positions of a strand that a preview shows.
pub const PREVIEW_POSITIONS: usize = 256;

/// The most reads of a list.
pub const MAX_READS: usize = 1024;

/// The text at the front of some bytes.
fn text(mut bytes: Vec<u8>, length: usize) -> String {
    bytes.truncate(length);
    String::from_utf8(bytes).expect("the library writes ASCII")
}
