// nc, which the Rust has not, once for every reference over the Rust: document 02's request 107. The positions whose base is N and whose
// depth, taken as for cD, is above 0: each strand's depth capped, past its end and of an absent strand 0.
use crate::duplex_caller::DuplexConsensusRead;
use crate::vanilla_caller::VanillaConsensusRead;

fn depth(strand: &VanillaConsensusRead, i: usize) -> u32 {
    strand.depths.get(i).map_or(0, |&d| u32::from(d).min(32_767))
}

pub fn no_calls(record: &DuplexConsensusRead) -> usize {
    let (ab, ba) = (&record.ab_consensus, record.ba_consensus.as_ref());
    let counts = |i: usize| record.bases[i] == b'N' && depth(ab, i) + ba.map_or(0, |ba| depth(ba, i)) > 0;
    (0..record.bases.len()).filter(|&i| counts(i)).count()
}
