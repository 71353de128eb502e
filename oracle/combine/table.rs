// The refusal table of documents 01 and 02, a second time: which row refuses a call, if any.
use super::case::{Answer, Case, Room, Strand};
pub use crate::order::first;

fn too_long(s: &Strand) -> bool {
    s.lengths().iter().any(|&n| n > 1024)
}

fn over(s: &Strand, limit: u16) -> bool {
    s.lengths().iter().any(|&n| n > usize::from(limit))
}

fn ragged(s: &Strand) -> bool {
    s.lengths().iter().any(|&n| n != s.bases.len())
}

fn too_short(n: usize, a_annotated: bool, b_annotated: bool, room: &Room) -> bool {
    let short = |outputs: &[usize]| outputs.iter().any(|&places| places < n);
    short(&room[..3]) || a_annotated && short(&room[3..6]) || b_annotated && short(&room[6..])
}

// What a record of strands that no row refuses is, and how many positions it has.
pub fn kind(a: &Strand, b: &Strand) -> Answer {
    let present = [a, b].into_iter().filter(|s| s.present);
    let Some(n) = present.map(|s| s.bases.len()).min() else { return Answer::NoRecord };
    let counts = |s: &Strand| s.present && (0..n).any(|i| s.depths[i] > 0);
    match (counts(a), counts(b)) {
        (false, false) => Answer::NoRecord,
        (true, false) => Answer::Ab(a.bases.len()),
        (false, true) => Answer::Ba(b.bases.len()),
        (true, true) => Answer::Both(n),
    }
}

pub fn duplex_consensus(case: &Case) -> Option<u8> {
    consensus(case, case.limit)
}

// By another limit than the case has.
pub fn consensus(case: &Case, limit: u16) -> Option<u8> {
    let Case { a, b, listed, reads, bytes, ceiling, room, .. } = case;
    let strands: Vec<&Strand> = [a, b].into_iter().filter(|s| s.present).collect();
    let leaves = |offset: usize, length: usize| offset as u128 + length as u128 > bytes.len() as u128;
    let input = first(&[
        (14, !(3..=93).contains(ceiling)),
        (7, strands.iter().any(|s| too_long(s))),
        (19, strands.iter().any(|s| over(s, limit))),
        (8, strands.iter().any(|s| ragged(s))),
        (9, *listed && reads.len() > 1024),
        (10, *listed && reads.iter().any(|r| leaves(r.offset, r.length))),
    ]);
    input.or_else(|| {
        let short = match kind(a, b) {
            Answer::Ab(n) => too_short(n, a.annotation != 0, false, room),
            Answer::Ba(n) => too_short(n, b.annotation != 0, false, room),
            Answer::Both(n) => too_short(n, a.annotation != 0, b.annotation != 0, room),
            _ => false,
        };
        first(&[(12, short)])
    })
}

pub fn gated_single_strand(s: &Strand, room: &Room) -> Option<u8> {
    let short = too_short(s.bases.len(), s.annotation != 0, false, room);
    first(&[(7, too_long(s)), (8, ragged(s)), (12, short)])
}

pub fn has_minimum_reads(positions: usize, ab_depths: &[u16], ba_depths: &[u16], min_reads: &[u32]) -> Option<u8> {
    first(&[
        (1, min_reads.is_empty()),
        (2, min_reads.len() > 3),
        (3, min_reads.len() > 1 && min_reads[1] > min_reads[0]),
        (4, min_reads.len() > 2 && min_reads[2] > min_reads[1]),
        (7, positions > 1024 || ab_depths.len() > 1024 || ba_depths.len() > 1024),
    ])
}
