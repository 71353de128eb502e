//! Builds molecules, asks the library for their duplex records, for the reasons where these show N, and for their metrics, and prints all.
//! `bin/rust_sample` builds and runs it; examples/c/sample.c does the same in C and prints the same.
use gedrashiw::methylation::ConversionPattern::{CToT, GToA};
use gedrashiw::methylation::{EvidenceArrays, MethylationAnnotation, MethylationEvidence};
use gedrashiw::{
    DuplexConsensusCaller, DuplexConsensusRead, Refusal, Settings, SourceReadBuffer, SourceReads, VanillaConsensusRead,
};

fn joined<T: ToString>(numbers: &[T]) -> String {
    numbers.iter().map(T::to_string).collect::<Vec<_>>().join(" ")
}

fn print_evidence(name: &str, methylation: Option<&MethylationAnnotation>) {
    let Some(methylation) = methylation else { return };
    print!("  evidence of the {name} strand");
    for (i, e) in methylation.evidence.iter().enumerate().filter(|(_, e)| e.informative) {
        print!(" {i}:{}/{}", e.unconverted_count, e.converted_count);
    }
    println!();
}

type Strand<'a> = Option<&'a VanillaConsensusRead<'a>>;
type Made<'a> = Result<Option<DuplexConsensusRead<'a>>, Refusal>;

fn print_record(name: &str, a: Strand, b: Strand, made: Made) -> Result<(), Refusal> {
    let Some(record) = made? else {
        println!("{name}: no record, 0 positions");
        return Ok(());
    };
    let kind = match (&record.ba_consensus, record.is_ba_only) {
        (Some(_), _) => "both strands",
        (None, false) => "strand A alone",
        (None, true) => "strand B alone",
    };
    println!("{name}: {kind}, {} positions", record.len());
    println!("  bases {}", String::from_utf8_lossy(&record.bases));
    println!("  quals {}", joined(&record.quals));
    println!("  errors {}", joined(&record.errors));
    for i in (0..record.len()).filter(|&i| record.bases[i] == b'N') {
        println!("  N at {i}: {}", DuplexConsensusCaller::no_call_reason(a, b, i)?);
    }
    print_evidence("first", record.ab_consensus.methylation.as_ref());
    print_evidence("second", record.ba_consensus.as_ref().and_then(|b| b.methylation.as_ref()));
    let m = record.metrics()?;
    println!("  aD {} aM {} aE {:.6}", m.aD, m.aM, m.aE);
    println!("  bD {} bM {} bE {:.6}", m.bD, m.bM, m.bE);
    println!("  cD {} cM {} cE {:.6}", m.cD, m.cM, m.cE);
    println!("  nc {}", m.nc);
    Ok(())
}

fn print_made(name: &str, a: Strand, b: Strand, made: Made) {
    if let Err(refusal) = print_record(name, a, b, made) {
        println!("{name}: refused {}", refusal.number());
    }
}

fn print_at(name: &str, settings: Settings, a: Strand, b: Strand, reads: Option<SourceReads>) {
    print_made(name, a, b, DuplexConsensusCaller::duplex_consensus(settings, a, b, reads));
}

fn print_molecule(name: &str, a: Strand, b: Strand, reads: Option<SourceReads>) {
    print_at(name, Settings::default(), a, b, reads);
}

fn main() {
    // Document 01's printed example.
    let a = VanillaConsensusRead::new(b"ACGT", &[30; 4], &[2; 4], &[0; 4]);
    let b = VanillaConsensusRead::new(b"ACTN", &[20, 40, 30, 2], &[1; 4], &[0; 4]);
    print_molecule("two strands", Some(&a), Some(&b), None);
    let usual = Settings::default();
    print_at("two strands, no quality above 60", Settings { ceiling: 60, ..usual }, Some(&a), Some(&b), None);
    print_at("two strands, no quality above 2", Settings { ceiling: 2, ..usual }, Some(&a), Some(&b), None);
    print_at("two strands, of 3 positions at most", Settings { limit: 3, ..usual }, Some(&a), Some(&b), None);
    let previewed = DuplexConsensusCaller::preview_consensus(usual, Some(&a), Some(&b), None);
    print_made("two strands, in a preview", Some(&a), Some(&b), previewed);
    print_molecule("strand B", None, Some(&b), None);
    let uncovered = VanillaConsensusRead { depths: vec![0; 4].into(), ..b };
    print_molecule("an uncovered strand", None, Some(&uncovered), None);

    // Two strands with methylation evidence, and the reads that they were called of.
    let of = |(informative, unconverted_count, converted_count): (bool, u32, u32)| MethylationEvidence {
        informative,
        unconverted_count,
        converted_count,
    };
    let none = (false, 0, 0);
    let ct_evidence = [(true, 1, 3), (true, 4, 0), none, none, (false, 2, 2), (true, 3, 0)].map(of);
    let ga_evidence = [none, none, (true, 2, 0), (true, 1, 1), none, none].map(of);
    let arrays = |evidence: &[MethylationEvidence]| -> EvidenceArrays { evidence.iter().copied().collect() };
    let ct = VanillaConsensusRead::new(b"TCGATC", &[30, 30, 35, 30, 40, 20], &[4, 4, 4, 4, 4, 3], &[0, 0, 1, 0, 0, 0])
        .annotated(CToT, arrays(&ct_evidence));
    let ga =
        VanillaConsensusRead::new(b"CCGGTA", &[40, 35, 30, 30, 20, 33], &[2; 6], &[0; 6]).annotated(GToA, arrays(&ga_evidence));
    let mut reads = SourceReadBuffer::default();
    reads.push(0x41, b"TCGATC");
    reads.push(0x41, b"CCGATC");
    reads.push(0x81, b"CCAGTA");
    reads.push(0x81, b"CCGN");
    print_molecule("annotated strands with reads", Some(&ct), Some(&ga), Some(reads.list()));

    // Evidence of fewer positions than the strand.
    print_molecule("evidence too short", Some(&ct), Some(&ga.annotated(GToA, arrays(&ga_evidence[..5]))), None);
}
