"""The Rust side: which items are taken of the Rust source, and the programs that are built of them."""

import os
import subprocess
from pathlib import Path

from extract import Source, fail

TOP = Path(__file__).resolve().parent.parent
WORK = TOP / "target/oracle"
TREE = Path(os.environ.get("FGUMI_SRC", TOP / "../shared/docs/src")) / "crates/fgumi-consensus/src"

# The items that are taken of each file, by name.
ITEMS = {
    "lib.rs": ["enum MethylationMode", "MethylationMode::is_enabled"],
    "phred.rs": ["const MAX_PHRED", "type PhredScore"],
    "caller.rs": [
        "const FGBIO_SHORT_DEPTH_MAX",
        "fn clamp_per_base_to_fgbio_short",
        "fn clamp_combined_error_to_fgbio_short",
        "fn write_consensus_read_name",
        "fn calculate_error_rate",
    ],
    "methylation.rs": [
        "struct MethylationEvidence",
        "struct MethylationAnnotation",
        "MethylationAnnotation::unconverted_counts",
        "MethylationAnnotation::converted_counts",
        "MethylationAnnotation::truncate",
        "enum ConversionPattern",
        "ConversionPattern::from_read_flags",
        "ConversionPattern::bases",
        "fn is_cpg_context",
        "fn annotate_simplex_methylation",
        "fn gate_to_informative",
        "fn restore_unconverted_bases",
        "fn build_mm_ml_tags",
        "struct StrandMethylationTags",
        "struct DuplexMethylationTags",
        "fn duplex_methylation_tags",
        "fn build_mm_tag_no_ml",
    ],
    "vanilla_caller.rs": [
        "struct SourceRead",
        "struct VanillaConsensusRead",
        "VanillaConsensusRead::len",
        "VanillaConsensusRead::max_depth",
        "VanillaConsensusRead::min_depth",
        "VanillaConsensusRead::padded",
        "VanillaConsensusRead::padded_default",
        "enum ReadType",
    ],
    "duplex_caller.rs": [
        "struct DuplexConsensusRead",
        "DuplexConsensusRead::len",
        "DuplexConsensusRead::combined_depths",
        "DuplexConsensusRead::depth_range",
        "fn methylation_strand_bases",
        "struct MoleculeCall",
        "DuplexConsensusCaller::min_yx_reads_for",
        "DuplexConsensusCaller::allows_single_strand_consensus",
        "DuplexConsensusCaller::validate_min_reads",
        "DuplexConsensusCaller::extract_strand_from_mi_bytes",
        "DuplexConsensusCaller::base_mi_from_bytes",
        "DuplexConsensusCaller::partition_records_by_strand",
        "DuplexConsensusCaller::is_paired",
        "DuplexConsensusCaller::is_paired_r1",
        "DuplexConsensusCaller::is_paired_r2",
        "DuplexConsensusCaller::has_minimum_number_of_reads",
        "DuplexConsensusCaller::duplex_consensus_has_minimum_reads",
        "DuplexConsensusCaller::are_all_same_strand",
        "DuplexConsensusCaller::cap_quality",
        "DuplexConsensusCaller::is_error",
        "DuplexConsensusCaller::gated_single_strand",
        "DuplexConsensusCaller::molecule_call",
        "DuplexConsensusCaller::combine_strands",
        "DuplexConsensusCaller::duplex_consensus",
    ],
}

# Parts of longer functions, each in a function of our own: the file, that function's head, the function it is taken from, where
# the part starts, the statement that ends it, and our function's result.
PIECES = [
    (
        "methylation.rs",
        "pub fn summed_counts(bases: &[u8], strands: &[&MethylationAnnotation]) -> (Vec<i16>, Vec<i16>)",
        "fn duplex_methylation_tags",
        "let sum =",
        "let sum =",
        "(sum(|e| e.unconverted_count), sum(|e| e.converted_count))",
    ),
    (
        "duplex_caller.rs",
        "fn padded_min_reads(min_reads: Vec<usize>) -> [usize; 3]",
        "DuplexConsensusCaller::new",
        "let last =",
        "let min_yx_reads =",
        "[min_total_reads, min_xy_reads, min_yx_reads]",
    ),
    (
        "duplex_caller.rs",
        "fn written_flags(read_type: ReadType) -> u16",
        "DuplexConsensusCaller::duplex_read_into",
        "let mut flag =",
        "match read_type {",
        "flag",
    ),
    (
        "duplex_caller.rs",
        "fn ab_metrics(ab: &VanillaConsensusRead) -> (i32, i32, i64, i64, f32)",
        "DuplexConsensusCaller::duplex_read_into",
        "let ab_depth_max =",
        "let ab_error_rate =",
        "(ab_depth_max, ab_depth_min, ab_total_depth, ab_total_errors, ab_error_rate)",
    ),
    (
        "duplex_caller.rs",
        "fn ba_metrics(ba_opt: Option<&VanillaConsensusRead>) -> (i32, i32, f32)",
        "DuplexConsensusCaller::duplex_read_into",
        "let (ba_depth_max, ba_depth_min, ba_error_rate) =",
        "let (ba_depth_max, ba_depth_min, ba_error_rate) =",
        "(ba_depth_max, ba_depth_min, ba_error_rate)",
    ),
    (
        "duplex_caller.rs",
        "fn duplex_metrics(consensus: &DuplexConsensusRead, ab: &VanillaConsensusRead, ba_opt: Option<&VanillaConsensusRead>)"
        " -> (i32, i32, f32)",
        "DuplexConsensusCaller::duplex_read_into",
        "let combined_depths: Vec<i32> =",
        "let duplex_error_rate =",
        "(duplex_depth_max, duplex_depth_min, duplex_error_rate)",
    ),
    (
        "duplex_caller.rs",
        "fn rate(ab_total_errors: i64, ab_total_depth: i64) -> f32",
        "DuplexConsensusCaller::duplex_read_into",
        "let ab_error_rate =",
        "let ab_error_rate =",
        "ab_error_rate",
    ),
]


def there():
    """Whether the Rust source is; without it there is nothing to compare with."""
    if not TREE.is_dir():
        print("skipped: the Rust source tree is not here; FGUMI_SRC may name one")
    return TREE.is_dir()


def owned(name, text):
    """The text of a function, in an `impl` block where it is a method."""
    owner = name.rpartition("::")[0]
    return f"impl {owner} {{\n{text}\n}}" if owner else text


def take_items():
    """Writes the items of each file, word for word."""
    WORK.mkdir(parents=True, exist_ok=True)
    for name, items in ITEMS.items():
        source = Source(TREE / name)
        texts = []
        for item in items:
            texts.append(owned(item, source.item(item)))
        for file, head, function, first, last, result in PIECES:
            if file == name:
                piece = source.piece(function, first, last)
                texts.append(owned(function, f"    {head} {{\n        {piece}\n        {result}\n    }}"))
        (WORK / name).write_text("\n\n".join(texts) + "\n")


def build(name, *words):
    """harness.rs as a program of that name, with these words for the compiler."""
    take_items()
    program = WORK / name
    words = ["rustc", "--edition", "2024", *words, "-o", program, TOP / "oracle/harness.rs"]
    if subprocess.run(words, env={**os.environ, "ORACLE_ITEMS": str(WORK)}).returncode:
        fail("rustc refuses the Rust side")
    return program
