//! A molecule from its reads to its tags: partition by strand, read gate, annotation of the strands, combination, consensus gate,
//! metrics, MM and ML, and the read name. The two strands' consensus is what a single-strand caller has made of their reads.
//! `bin/rust_sample` builds and runs it; examples/c/pipeline.c does the same in C and prints the same.
use gedrashiw::caller::write_consensus_read_name;
use gedrashiw::methylation::{ConversionPattern, annotate_simplex_methylation, duplex_methylation_tags};
use gedrashiw::{
    DuplexConsensusCaller, DuplexConsensusRead, MethylationAnnotation, MethylationMode, MiPart, ReadType, Refusal, Settings,
    SourceReadBuffer, SourceReads, VanillaConsensusRead,
};

/// A read: its MI, flags and bases as they were sequenced. The molecule's R1 record is of the first reads of strand A and the last
/// reads of strand B.
const READS: [(&str, u16, &str); 10] = [
    ("7/A", 0x41, "ACGTTCGA"),
    ("7/A", 0x81, "TTAGGC"),
    ("7/B", 0x41, "TTAAGC"),
    ("7/B", 0x81, "ACGTCCGA"),
    ("7/A", 0x41, "ACGATCGA"),
    ("7/A", 0x81, "TTAGGC"),
    ("7/B", 0x41, "TTAAGC"),
    ("7/B", 0x81, "ACGTCCAA"),
    ("7/A", 0x41, "ACGTTCGA"),
    ("7/A", 0x81, "TTAGGC"),
];
const MIN_READS: [u32; 2] = [3, 2];
const REFERENCE: &[u8] = b"ACGTCCGA";

fn joined<T: ToString>(numbers: &[T]) -> String {
    numbers.iter().map(T::to_string).collect::<Vec<_>>().join(" ")
}

fn gate(kept: bool) -> &'static str {
    if kept { "kept" } else { "below" }
}

/// Prints which reads are of which strand; answers the molecule's MI and each strand's read numbers.
fn partition() -> Result<(String, Vec<u16>, Vec<u16>), Refusal> {
    let (mut parts, mut text) = (Vec::new(), String::new());
    for (mi, ..) in READS {
        parts.push(MiPart::new(text.len(), mi.len()));
        text.push_str(mi);
    }
    let partition = DuplexConsensusCaller::partition_records_by_strand(&parts, text.as_bytes())?;
    let mi = String::from_utf8_lossy(partition.base_mi.unwrap_or_default()).into_owned();
    println!("molecule {mi}");
    println!("  reads of strand A {}", joined(&partition.a_records));
    println!("  reads of strand B {}", joined(&partition.b_records));
    Ok((mi, partition.a_records, partition.b_records))
}

/// The evidence of a strand from its own source reads and the reference.
fn annotate(name: &str, reads: SourceReads) -> Result<MethylationAnnotation<'static>, Refusal> {
    let pattern = ConversionPattern::from_read_flags(reads.reads[0].flags);
    let aligned = vec![1; reads.bytes.len()];
    let annotation = annotate_simplex_methylation(REFERENCE.len(), reads, REFERENCE, pattern, &aligned, true)?;
    print!("{name}");
    for (i, e) in annotation.evidence.iter().enumerate().filter(|(_, e)| e.informative) {
        print!(" {i}:{}/{}", e.unconverted_count, e.converted_count);
    }
    println!();
    Ok(annotation)
}

fn print_record(record: &DuplexConsensusRead) -> Result<(), Refusal> {
    println!("record: both strands, {} positions", record.len());
    println!("  bases {}", String::from_utf8_lossy(&record.bases));
    println!("  quals {}", joined(&record.quals));
    println!("  errors {}", joined(&record.errors));
    println!("consensus gate: {}", gate(DuplexConsensusCaller::duplex_consensus_has_minimum_reads(record, &MIN_READS)?));
    let m = record.metrics()?;
    println!("metrics");
    println!("  aD {} aM {} aE {:.6}", m.aD, m.aM, m.aE);
    println!("  bD {} bM {} bE {:.6}", m.bD, m.bM, m.bE);
    println!("  cD {} cM {} cE {:.6}", m.cD, m.cM, m.cE);
    println!("  nc {}", m.nc);
    Ok(())
}

fn print_tags(record: &DuplexConsensusRead) -> Result<(), Refusal> {
    let first = record.ab_consensus.methylation.as_ref();
    let second = record.ba_consensus.as_ref().and_then(|b| b.methylation.as_ref());
    let tags = duplex_methylation_tags(&record.bases, first, second, MethylationMode::EmSeq)?;
    let (mm, ml) = tags.mm_ml.unwrap_or_default();
    println!("tags");
    println!("  SEQ {}", String::from_utf8_lossy(&tags.seq));
    for (name, strand) in ["am", "bm"].iter().zip(&tags.strands) {
        println!("  {name} {}", strand.mm.as_deref().unwrap_or_default());
    }
    println!("  MM {mm}");
    println!("  ML {}", joined(&ml));
    println!("  cu {}", joined(&tags.unconverted));
    println!("  ct {}", joined(&tags.converted));
    Ok(())
}

fn main() -> Result<(), Refusal> {
    let (mi, a_records, b_records) = partition()?;
    let flags = |numbers: &[u16]| -> Vec<u16> { numbers.iter().map(|&i| READS[usize::from(i)].1).collect() };
    let kept = DuplexConsensusCaller::has_minimum_number_of_reads(&flags(&a_records), &flags(&b_records), &MIN_READS)?;
    println!("read gate: {}", gate(kept));

    let mut source = SourceReadBuffer::default();
    let mut collect = |numbers: &[u16], of_record: fn(u16) -> bool| {
        for (_, flags, bases) in numbers.iter().map(|&i| READS[usize::from(i)]).filter(|&(_, flags, _)| of_record(flags)) {
            source.push(flags, bases.as_bytes());
        }
    };
    collect(&a_records, DuplexConsensusCaller::is_paired_r1);
    collect(&b_records, DuplexConsensusCaller::is_paired_r2);
    let source = source.list();
    let (of_a, of_b) = source.reads.split_at(a_records.len() / 2);

    let mut a = VanillaConsensusRead::new(b"ACGTTCGA", &[40, 40, 40, 30, 40, 40, 40, 40], &[3; 8], &[0, 0, 0, 1, 0, 0, 0, 0]);
    let mut b = VanillaConsensusRead::new(b"ACGTCCGA", &[35, 35, 35, 35, 35, 35, 20, 35], &[2; 8], &[0, 0, 0, 0, 0, 0, 1, 0]);
    a.methylation = Some(annotate("evidence of strand A", SourceReads { reads: of_a, ..source })?);
    b.methylation = Some(annotate("evidence of strand B", SourceReads { reads: of_b, ..source })?);

    let record = DuplexConsensusCaller::duplex_consensus(Settings::default(), Some(&a), Some(&b), Some(source))?;
    let record = record.expect("both strands are covered");
    print_record(&record)?;
    print_tags(&record)?;
    let mut name = Vec::new();
    write_consensus_read_name(&mut name, "sample", &mi);
    println!("read {}, flags {}", String::from_utf8_lossy(&name), DuplexConsensusCaller::written_flags(ReadType::R1));
    Ok(())
}
