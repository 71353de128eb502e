// Each call: what refuses it by document 01's table, what the Rust makes of it, and what ours leaves.
use super::inputs::{Case, Evidence, Simplex};
use super::library_types;
use super::rust;
use super::table::first;
use gedrashiw::duplex_caller::methylation_strand_bases_into;
use gedrashiw::methylation::{
    CountsOut, DuplexTagLengths, DuplexTagsOut, TagLengths, annotate_simplex_methylation_into, build_mm_ml_tags_into,
    build_mm_tag_no_ml_into, duplex_methylation_tags_into, gate_to_informative_into, restore_unconverted_bases, summed_counts_into,
};
use gedrashiw::{Refusal, SourceReads};

#[derive(Clone, Copy, Debug, Default, PartialEq)]
pub enum Answer {
    Refused(u8),
    #[default]
    NoTag,
    // The lengths that the call tells.
    Written([usize; 5]),
}

// An answer, and what the outputs hold: bytes first, then 16-bit numbers, then 32-bit numbers.
#[derive(Clone, Debug, Default, PartialEq)]
pub struct Left {
    pub answer: Answer,
    pub bytes: Vec<Vec<u8>>,
    pub shorts: Vec<Vec<i16>>,
    pub words: Vec<Vec<u32>>,
}

impl Left {
    pub fn lengths(&self) -> Vec<usize> {
        let bytes = self.bytes.iter().map(Vec::len);
        let shorts = self.shorts.iter().map(Vec::len);
        bytes.chain(shorts).chain(self.words.iter().map(Vec::len)).collect()
    }

    // As many outputs of each width, of these lengths; each place holds a value of its own.
    pub fn filled(&self, room: &[usize]) -> Left {
        let (bytes, wider) = room.split_at(self.bytes.len());
        let (shorts, words) = wider.split_at(self.shorts.len());
        Left {
            answer: self.answer,
            bytes: bytes.iter().enumerate().map(|(k, &n)| (0..n).map(|i| (i * 7 + k * 31 + 129) as u8).collect()).collect(),
            shorts: shorts.iter().enumerate().map(|(k, &n)| (0..n).map(|i| (i * 13 + k * 97 + 40_000) as i16).collect()).collect(),
            words: words.iter().enumerate().map(|(k, &n)| (0..n).map(|i| (i * 17 + k + 100_000) as u32).collect()).collect(),
        }
    }

    // These values at the front of each output.
    pub fn put(&mut self, written: &Left) {
        fn put<T: Copy>(outputs: &mut [Vec<T>], written: &[Vec<T>]) {
            outputs.iter_mut().zip(written).for_each(|(out, places)| out[..places.len()].copy_from_slice(places));
        }
        self.answer = written.answer;
        put(&mut self.bytes, &written.bytes);
        put(&mut self.shorts, &written.shorts);
        put(&mut self.words, &written.words);
    }

    // The first place of each output that differs, or of which one side has none.
    pub fn differences(&self, other: &Left) -> Vec<String> {
        fn wide<T: Copy + Into<i64>>(outputs: &[Vec<T>]) -> Vec<Vec<i64>> {
            outputs.iter().map(|places| places.iter().map(|&place| place.into()).collect()).collect()
        }
        let all = |left: &Left| [wide(&left.bytes), wide(&left.shorts), wide(&left.words)].concat();
        let mut told = Vec::new();
        for (k, (must, is)) in all(self).iter().zip(all(other)).enumerate() {
            if let Some(i) = (0..must.len().max(is.len())).find(|&i| must.get(i) != is.get(i)) {
                told.push(format!("output {k} at {i} must be {:?}, is {:?}", must.get(i), is.get(i)));
            }
        }
        told
    }
}

// The calls of a sequence and the evidence of strands.
#[derive(Clone, Copy, Debug, PartialEq)]
pub enum Call {
    DuplexTags,
    MmMl,
    Mm,
    Restore,
    StrandBases,
    Gate,
    Truncate,
    Unconverted,
    Converted,
    Summed,
}

pub const CALLS: [Call; 10] = [
    Call::DuplexTags,
    Call::MmMl,
    Call::Mm,
    Call::Restore,
    Call::StrandBases,
    Call::Gate,
    Call::Truncate,
    Call::Unconverted,
    Call::Converted,
    Call::Summed,
];

fn positions(n: usize) -> Answer {
    Answer::Written([n, 0, 0, 0, 0])
}

// What the library answers, as an answer here.
fn said<T>(answered: Result<T, Refusal>, written: impl FnOnce(T) -> Answer) -> Answer {
    answered.map_or_else(|refusal| Answer::Refused(refusal.number()), written)
}

fn said_tags(tags: Option<TagLengths>) -> Answer {
    tags.map_or(Answer::NoTag, |TagLengths { mm, ml }| Answer::Written([mm, ml, 0, 0, 0]))
}

fn rows(all: &[usize], ragged: bool) -> Option<u8> {
    first(&[(7, all.iter().any(|&n| n > 1024)), (8, ragged)])
}

impl Call {
    pub fn name(self) -> &'static str {
        match self {
            Call::DuplexTags => "duplex_methylation_tags",
            Call::MmMl => "build_mm_ml_tags",
            Call::Mm => "build_mm_tag_no_ml",
            Call::Restore => "restore_unconverted_bases",
            Call::StrandBases => "methylation_strand_bases",
            Call::Gate => "gate_to_informative",
            Call::Truncate => "truncate",
            Call::Unconverted => "unconverted_counts",
            Call::Converted => "converted_counts",
            Call::Summed => "summed_counts",
        }
    }

    // The rows that refuse what is given, before any output is looked at.
    pub fn given_rows(self, case: &Case) -> Option<u8> {
        let n = case.bases.len();
        let a = &case.strands[0];
        let three = a.lengths();
        match self {
            Call::DuplexTags => {
                let annotated = case.strands.iter().filter(|strand| strand.annotation != 0);
                let lengths: Vec<usize> = annotated.flat_map(Evidence::lengths).collect();
                rows(&[&lengths[..], &[n]].concat(), lengths.iter().any(|&length| length != n))
            }
            Call::MmMl | Call::Mm => rows(&[&three[..], &[n]].concat(), three.iter().any(|&length| length != n)),
            Call::Restore => rows(&[n, three[0]], three[0] != n),
            Call::StrandBases if a.annotation == 0 => rows(&[n], false),
            Call::StrandBases => rows(&[n, three[0]], three[0] != n),
            Call::Gate | Call::Truncate => rows(&three, three.iter().any(|&length| length != three[0])),
            Call::Unconverted => rows(&three[1..2], false),
            Call::Converted => rows(&three[2..], false),
            Call::Summed => rows(&[n, three[1], case.strands[1].unconverted.len()], false),
        }
    }

    // What the Rust makes: the answer, and what goes to each output.
    pub fn by_rust(self, case: &Case) -> Left {
        let n = case.bases.len();
        let a = &case.strands[0];
        let bytes = |answer: Answer, bytes: Vec<Vec<u8>>| Left { answer, bytes, ..Left::default() };
        let shorts = |counts: Vec<i16>| Left { answer: positions(counts.len()), shorts: vec![counts], ..Left::default() };
        let arrays = |(marks, words): rust::Arrays| Left {
            answer: positions(marks.len()),
            bytes: vec![marks],
            shorts: Vec::new(),
            words: words.to_vec(),
        };
        match self {
            Call::DuplexTags => duplex_tags(case),
            Call::MmMl => match rust::build_mm_ml_tags(case) {
                None => bytes(Answer::NoTag, vec![Vec::new(); 2]),
                Some((mm, ml)) => bytes(Answer::Written([mm.len(), ml.len(), 0, 0, 0]), vec![mm.into_bytes(), ml]),
            },
            Call::Mm => match rust::build_mm_tag_no_ml(case) {
                None => bytes(Answer::NoTag, vec![Vec::new()]),
                Some(mm) => bytes(Answer::Written([mm.len(), 0, 0, 0, 0]), vec![mm.into_bytes()]),
            },
            Call::Restore => bytes(positions(n), vec![rust::restore_unconverted_bases(case)]),
            Call::StrandBases => bytes(positions(n), vec![rust::strand_bases(case)]),
            Call::Gate => arrays(rust::gate_to_informative(a)),
            Call::Truncate => arrays(rust::truncate(a, case.len)),
            Call::Unconverted => shorts(rust::unconverted_counts(a)),
            Call::Converted => shorts(rust::converted_counts(a)),
            Call::Summed => shorts(rust::summed_counts(n, [&a.unconverted, &case.strands[1].unconverted])),
        }
    }

    // How many outputs of each width there are.
    pub fn outputs(self) -> Left {
        let (bytes, shorts, words) = match self {
            Call::DuplexTags => (5, 6, 0),
            Call::MmMl => (2, 0, 0),
            Call::Mm | Call::Restore | Call::StrandBases => (1, 0, 0),
            Call::Gate | Call::Truncate => (1, 0, 2),
            Call::Unconverted | Call::Converted | Call::Summed => (0, 1, 0),
        };
        Left { answer: Answer::NoTag, bytes: vec![Vec::new(); bytes], shorts: vec![Vec::new(); shorts], words: vec![Vec::new(); words] }
    }

    // What a call that changes its arrays in place is given; the others have outputs.
    pub fn in_place(self, case: &Case) -> Option<Left> {
        let a = &case.strands[0];
        let left = |bytes: &Vec<u8>, words: Vec<Vec<u32>>| Some(Left { bytes: vec![bytes.clone()], words, ..Left::default() });
        match self {
            Call::Restore => left(&case.bases, Vec::new()),
            Call::Gate => left(&a.marks, vec![a.unconverted.clone(), a.converted.clone()]),
            _ => None,
        }
    }

    // Ours, on outputs that are filled already.
    pub fn by_ours(self, case: &Case, out: &mut Left) {
        let Case { bases, strands: [a, b], len, .. } = case;
        let mode = library_types::mode(case.mode);
        let n = bases.len();
        out.answer = match self {
            Call::DuplexTags => ours_duplex_tags(case, out),
            Call::MmMl => {
                let [mm, ml] = &mut out.bytes[..] else { unreachable!() };
                said(build_mm_ml_tags_into(bases, &library_types::annotation(a), mode, mm, ml), said_tags)
            }
            Call::Mm => {
                let mm = |mm: Option<usize>| said_tags(mm.map(|mm| TagLengths { mm, ml: 0 }));
                said(build_mm_tag_no_ml_into(bases, &library_types::annotation(a), mode, &mut out.bytes[0]), mm)
            }
            Call::Restore => said(restore_unconverted_bases(&mut out.bytes[0], &library_types::annotation(a)), positions),
            Call::StrandBases => said(methylation_strand_bases_into(&library_types::strand(bases, a), &mut out.bytes[0]), positions),
            Call::Gate => said(gate_to_informative_into(&mut library_types::evidence(out)), positions),
            Call::Truncate => said(library_types::annotation(a).truncate_into(*len, &mut library_types::evidence(out)), positions),
            Call::Unconverted => said(library_types::annotation(a).unconverted_counts_into(&mut out.shorts[0]), positions),
            Call::Converted => said(library_types::annotation(a).converted_counts_into(&mut out.shorts[0]), positions),
            Call::Summed => said(summed_counts_into(n, &a.unconverted, &b.unconverted, &mut out.shorts[0]), positions),
        };
    }
}

// The Rust's record has the strands that are annotated; ours has outputs for both.
fn duplex_tags(case: &Case) -> Left {
    let made = rust::duplex_methylation_tags(case);
    let mut strands = made.strands.into_iter();
    let mut of = |strand: &Evidence| {
        let tags = if strand.annotation != 0 { strands.next() } else { None };
        tags.map_or_else(Default::default, |tags| {
            (tags.mm.unwrap_or_default().into_bytes(), tags.unconverted, tags.converted)
        })
    };
    let [a, b] = [of(&case.strands[0]), of(&case.strands[1])];
    let (mm, ml) = made.mm_ml.unwrap_or_default();
    Left {
        answer: Answer::Written([made.seq.len(), a.0.len(), b.0.len(), mm.len(), ml.len()]),
        bytes: vec![made.seq, a.0, b.0, mm.into_bytes(), ml],
        shorts: vec![a.1, a.2, b.1, b.2, made.unconverted, made.converted],
        words: Vec::new(),
    }
}

#[inline]
pub fn ours_duplex_tags(case: &Case, out: &mut Left) -> Answer {
    let Case { bases, strands, mode, .. } = case;
    let [seq, a_mm, b_mm, mm, ml] = &mut out.bytes[..] else { unreachable!() };
    let [au, ac, bu, bc, u, c] = &mut out.shorts[..] else { unreachable!() };
    let mut out = DuplexTagsOut {
        seq,
        a_mm,
        b_mm,
        mm,
        ml,
        a: CountsOut { unconverted: au, converted: ac },
        b: CountsOut { unconverted: bu, converted: bc },
        both: CountsOut { unconverted: u, converted: c },
    };
    let annotations = strands.each_ref().map(|strand| (strand.annotation != 0).then(|| library_types::annotation(strand)));
    let [a, b] = annotations.each_ref().map(Option::as_ref);
    let written = |n: DuplexTagLengths| Answer::Written([n.positions, n.a_mm, n.b_mm, n.mm, n.ml]);
    said(duplex_methylation_tags_into(bases, a, b, library_types::mode(*mode), &mut out), written)
}

// annotate_simplex_methylation.
impl Simplex {
    pub fn given_rows(&self) -> Option<u8> {
        let leaves = |offset: usize, length: usize| offset as u128 + length as u128 > self.bytes.len() as u128;
        first(&[
            (7, self.len > 1024),
            (9, self.reads.len() > 1024),
            (10, self.reads.iter().any(|read| leaves(read.offset, read.length))),
        ])
    }

    pub fn by_rust(&self) -> Left {
        let (marks, words) = rust::annotate_simplex_methylation(self);
        Left { answer: positions(self.len), bytes: vec![marks], shorts: Vec::new(), words: words.to_vec() }
    }

    pub fn outputs() -> Left {
        Call::Truncate.outputs()
    }

    pub fn by_ours(&self, out: &mut Left) {
        let Simplex { len, reads, bytes, reference, pattern, aligned, everywhere } = self;
        let (lent, pattern) = (library_types::reads(reads), library_types::pattern(*pattern));
        let reads = SourceReads { reads: &lent, bytes };
        let evidence = &mut library_types::evidence(out);
        let annotated = annotate_simplex_methylation_into(*len, reads, reference, pattern, aligned, *everywhere, evidence);
        out.answer = said(annotated, positions);
    }
}
