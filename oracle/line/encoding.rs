// The encoded molecule, document 01's tray: its fields, what breaks it, and the molecule in it. Written from document 01 alone.
use super::case::{Case, Read, Strand};

#[derive(Clone, Debug)]
pub struct Field {
    pub tag: u8,
    pub value: Vec<u8>,
}

pub fn field(tag: u8, value: impl Into<Vec<u8>>) -> Field {
    Field { tag, value: value.into() }
}

// A strand's fields, of A or, 0x10 above, of B.
pub const BASES: u8 = 0x10;
pub const QUALS: u8 = 0x11;
pub const DEPTHS: u8 = 0x12;
pub const ERRORS: u8 = 0x13;
pub const ANNOTATION: u8 = 0x14;
pub const B: u8 = 0x10;
pub const THRESHOLDS: u8 = 0x01;
pub const LIST: u8 = 0x2f;
pub const READ: u8 = 0x30;
pub const TAGS: [u8; 13] = [0x01, 0x10, 0x11, 0x12, 0x13, 0x14, 0x20, 0x21, 0x22, 0x23, 0x24, 0x2f, 0x30];

pub const MOST_BYTES: usize = 65_536;
pub const MOST_POSITIONS: usize = 1024;

pub struct Molecule {
    pub thresholds: Vec<u32>,
    pub case: Case,
}

// The bytes of some fields, one after another.
pub fn written(fields: &[Field]) -> Vec<u8> {
    let mut bytes = Vec::new();
    for field in fields {
        let length = u16::try_from(field.value.len()).expect("a value that two bytes can measure");
        bytes.push(field.tag);
        bytes.extend(length.to_le_bytes());
        bytes.extend(&field.value);
    }
    bytes
}

// The whole fields, and whether bytes are left that are a cut one.
pub fn fields(mut bytes: &[u8]) -> (Vec<Field>, bool) {
    let mut fields = Vec::new();
    while let [tag, low, high, rest @ ..] = bytes {
        let length = usize::from(u16::from_le_bytes([*low, *high]));
        let Some((value, rest)) = rest.split_at_checked(length) else { break };
        fields.push(field(*tag, value));
        bytes = rest;
    }
    (fields, !bytes.is_empty())
}

fn length_fits(field: &Field) -> bool {
    let length = field.value.len();
    match field.tag {
        0x01 => length % 4 == 0,
        0x12 | 0x13 | 0x22 | 0x23 => length % 2 == 0,
        0x14 | 0x24 => length % 9 == 1,
        0x2f => length == 0,
        0x30 => length >= 2,
        _ => true,
    }
}

// The marks of an annotation's positions.
fn marks(annotation: &[u8]) -> Vec<u8> {
    annotation.iter().skip(1).step_by(9).copied().collect()
}

// What refusal 13 is for.
pub const CAUSES: [&str; 10] = [
    "over 65,536 bytes",
    "a cut field",
    "another tag",
    "another order",
    "a length",
    "a pattern above 1",
    "a mark above 1",
    "a part of a strand",
    "an annotation alone",
    "a read without a list",
];

// Those of them that some bytes show.
pub fn causes(bytes: &[u8]) -> Vec<&'static str> {
    let (fields, cut) = fields(bytes);
    let has = |tag: u8| fields.iter().any(|f| f.tag == tag);
    let of_strand = |a: u8| [BASES, QUALS, DEPTHS, ERRORS].iter().filter(|&&tag| has(tag + a)).count();
    let annotations = || fields.iter().filter(|f| matches!(f.tag, 0x14 | 0x24));
    let follows = |last: u8, next: u8| last < next || last == READ && next == READ;
    let met = [
        bytes.len() > MOST_BYTES,
        cut,
        fields.iter().any(|f| !TAGS.contains(&f.tag)),
        fields.windows(2).any(|pair| !follows(pair[0].tag, pair[1].tag)),
        fields.iter().any(|f| !length_fits(f)),
        annotations().any(|f| f.value.first().is_some_and(|&pattern| pattern > 1)),
        annotations().any(|f| marks(&f.value).iter().any(|&mark| mark > 1)),
        [0, B].iter().any(|&strand| (1..4).contains(&of_strand(strand))),
        [0, B].iter().any(|&strand| has(ANNOTATION + strand) && of_strand(strand) == 0),
        has(READ) && !has(LIST),
    ];
    CAUSES.iter().zip(met).filter(|(_, met)| *met).map(|(cause, _)| *cause).collect()
}

fn number(bytes: &[u8]) -> u32 {
    bytes.iter().rev().fold(0, |n, &b| n << 8 | u32::from(b))
}

fn words(value: &[u8]) -> Vec<u16> {
    value.chunks(2).map(|word| number(word) as u16).collect()
}

// The molecule of bytes that show no cause.
pub fn molecule(bytes: &[u8]) -> Molecule {
    let (fields, _) = fields(bytes);
    let value = |tag: u8| fields.iter().find(|f| f.tag == tag).map(|f| &f.value[..]);
    let strand = |of: u8| {
        let array = |tag: u8| value(tag + of).unwrap_or_default();
        let annotation = value(ANNOTATION + of);
        let positions: Vec<&[u8]> = annotation.unwrap_or_default().get(1..).unwrap_or_default().chunks(9).collect();
        Strand {
            present: value(BASES + of).is_some(),
            bases: array(BASES).to_vec(),
            quals: array(QUALS).to_vec(),
            depths: words(array(DEPTHS)),
            errors: words(array(ERRORS)),
            annotation: annotation.map_or(0, |a| a[0] + 1),
            marks: positions.iter().map(|p| p[0]).collect(),
            unconverted: positions.iter().map(|p| number(&p[1..5])).collect(),
            converted: positions.iter().map(|p| number(&p[5..])).collect(),
        }
    };
    let (mut reads, mut buffer) = (Vec::new(), Vec::new());
    for read in fields.iter().filter(|f| f.tag == READ) {
        let (flags, bases) = read.value.split_at(2);
        reads.push(Read { flags: number(flags) as u16, offset: buffer.len(), length: bases.len() });
        buffer.extend(bases);
    }
    Molecule {
        thresholds: value(THRESHOLDS).unwrap_or_default().chunks(4).map(number).collect(),
        case: Case {
            a: strand(0),
            b: strand(B),
            listed: value(LIST).is_some(),
            reads,
            bytes: buffer,
            ceiling: 93,
            limit: 1024,
            room: [MOST_POSITIONS; 9],
        },
    }
}

pub fn thresholds(list: &[u32]) -> Field {
    field(THRESHOLDS, list.iter().flat_map(|t| t.to_le_bytes()).collect::<Vec<_>>())
}

pub fn read(flags: u16, bases: &[u8]) -> Field {
    field(READ, [&flags.to_le_bytes()[..], bases].concat())
}

// The fields of a strand, 0 or B, which is there. Its marks say how many positions the annotation has.
pub fn strand(of: u8, s: &Strand) -> Vec<Field> {
    let bytes = |words: &[u16]| words.iter().flat_map(|word| word.to_le_bytes()).collect::<Vec<_>>();
    let mut fields = vec![
        field(BASES + of, &s.bases[..]),
        field(QUALS + of, &s.quals[..]),
        field(DEPTHS + of, bytes(&s.depths)),
        field(ERRORS + of, bytes(&s.errors)),
    ];
    if s.annotation != 0 {
        let mut value = vec![s.annotation - 1];
        for (i, &mark) in s.marks.iter().enumerate() {
            let count = |counts: &[u32]| counts.get(i).copied().unwrap_or(0).to_le_bytes();
            value.push(u8::from(mark != 0));
            value.extend(count(&s.unconverted));
            value.extend(count(&s.converted));
        }
        fields.push(field(ANNOTATION + of, value));
    }
    fields
}

// The fields of a molecule, in order; a read's bases as far as a field holds them.
pub fn fields_of(list: &[u32], case: &Case) -> Vec<Field> {
    let mut fields = vec![thresholds(list)];
    for (of, s) in [(0, &case.a), (B, &case.b)] {
        if s.present {
            fields.extend(strand(of, s));
        }
    }
    if case.listed {
        fields.push(field(LIST, []));
        fields.extend(case.reads.iter().map(|r| read(r.flags, &case.bytes[r.offset..][..r.length.min(65_533)])));
    }
    fields
}
