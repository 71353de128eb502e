// What the program duplexline must write for an encoded molecule: the reading and the order of the refusals from document 01,
// the thresholds, the record, its gate and its metrics from the Rust's own functions.
use super::super::{DuplexConsensusCaller, DuplexConsensusRead};
use super::encoding::{causes, molecule};
use super::{rust, table};
use crate::no_calls::no_calls;
use std::fmt::Display;
use std::panic::catch_unwind;

pub const HEADER: &str = "kind gate bases quals errors aD aM aE bD bM bE cD cM cE nc\n";

// The thresholds padded to three, or the number for which the Rust's own message stands.
fn min_reads(list: &[u32]) -> Result<[u32; 3], u8> {
    let list: Vec<usize> = list.iter().map(|&n| n as usize).collect();
    if let Err(message) = DuplexConsensusCaller::validate_min_reads(&list) {
        let rows = [("at least 1 value", 1), ("must have 1-3 values", 2), ("(total >= XY)", 3), ("(XY >= YX)", 4)];
        return Err(rows.iter().find(|(words, _)| message.contains(words)).expect(&message).1);
    }
    Ok(DuplexConsensusCaller::padded_min_reads(list).map(|n| n as u32))
}

fn joined<T: Display>(numbers: &[T]) -> String {
    numbers.iter().map(T::to_string).collect::<Vec<_>>().join(",")
}

fn line(record: &DuplexConsensusRead, kept: bool) -> String {
    let kind = match (&record.ba_consensus, record.is_ba_only) {
        (Some(_), _) => "both",
        (None, false) => "ab",
        (None, true) => "ba",
    };
    let gate = if kept { "kept" } else { "below" };
    let shown = |&base: &u8| if (0x21..=0x7e).contains(&base) { char::from(base) } else { '?' };
    let bases: String = record.bases.iter().map(shown).collect();
    let (quals, errors) = (joined(&record.quals), joined(&record.errors));

    let (ab, ba) = (&record.ab_consensus, record.ba_consensus.as_ref());
    let (a_largest, a_smallest, _, _, a_rate) = DuplexConsensusCaller::ab_metrics(ab);
    let (b_largest, b_smallest, b_rate) = DuplexConsensusCaller::ba_metrics(ba);
    let (c_largest, c_smallest, c_rate) = DuplexConsensusCaller::duplex_metrics(record, ab, ba);
    let [a_rate, b_rate, c_rate] = [a_rate, b_rate, c_rate].map(f32::to_bits);
    let nc = no_calls(record);
    format!(
        "{kind} {gate} {bases} {quals} {errors} {a_largest} {a_smallest} {a_rate:08x} {b_largest} {b_smallest} {b_rate:08x} \
         {c_largest} {c_smallest} {c_rate:08x} {nc}\n"
    )
}

// All that is written, or the number of the refusal.
fn answered(bytes: &[u8]) -> Result<String, u8> {
    if !causes(bytes).is_empty() {
        return Err(13);
    }
    let molecule = molecule(bytes);
    let thresholds = min_reads(&molecule.thresholds);
    let rows = [thresholds.err(), table::duplex_consensus(&molecule.case)];
    if let Some(row) = table::first(&rows.map(|row| (row.unwrap_or(0), true))) {
        return Err(row);
    }
    let thresholds = thresholds?;
    let second = match rust::duplex_consensus(&molecule.case) {
        None => "none\n".to_string(),
        Some(record) => line(&record, rust::has_minimum_reads(&record, thresholds)),
    };
    Ok(format!("{HEADER}{second}"))
}

// The whole output. What the Rust panics on, and no row refuses, shows as a difference.
pub fn output(bytes: &[u8]) -> Vec<u8> {
    let text = match catch_unwind(|| answered(bytes)) {
        Ok(Ok(lines)) => lines,
        Ok(Err(row)) => format!("refused {row}\n"),
        Err(_) => "the Rust panicked\n".to_string(),
    };
    text.into_bytes()
}

// The answer in short: the refusal, or kind and gate, or `none`.
pub fn answer(output: &[u8]) -> String {
    let text = String::from_utf8_lossy(output);
    let said = text.strip_prefix(HEADER).unwrap_or(&text);
    said.split_whitespace().take(2).collect::<Vec<_>>().join(" ")
}

pub const ANSWERS: [&str; 15] = [
    "both kept",
    "both below",
    "ab kept",
    "ab below",
    "ba kept",
    "ba below",
    "none",
    "refused 1",
    "refused 2",
    "refused 3",
    "refused 4",
    "refused 7",
    "refused 8",
    "refused 9",
    "refused 13",
];
