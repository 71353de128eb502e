// The inputs that are the same in every run, save for some values: they go through each kind of fault and each boundary.
use super::case::Strand;
use super::draw::{Draw, LETTERS, QUALITIES};
use super::encoding::*;
use super::named::{annotated, filled, plain};

pub struct Input {
    pub group: &'static str,
    pub bytes: Vec<u8>,
}

const DEPTHS_NEAR: &[u16] = &[0, 1, 32_767, 32_768, 40_000, 65_535];
const THRESHOLDS_NEAR: &[u32] =
    &[0, 1, 32_767, 32_768, 40_000, 40_001, 65_535, 65_536, 80_000, 131_070, 131_071, 1 << 31, u32::MAX];

struct List(Vec<Input>);

impl List {
    fn bytes(&mut self, group: &'static str, bytes: Vec<u8>) {
        self.0.push(Input { group, bytes });
    }
    fn add(&mut self, group: &'static str, fields: &[Field]) {
        self.bytes(group, written(fields));
    }
}

// A small molecule with a field of every tag: two annotated strands of two positions, and two reads.
fn full() -> Vec<Field> {
    let a = annotated(plain(b"CT", &[30, 31], 3, 1), 1, &[1, 0]);
    let b = annotated(plain(b"CC", &[20, 40], 2, 0), 2, &[0, 1]);
    let reads = vec![field(LIST, []), read(0x41, b"CC"), read(0x81, b"TG")];
    [vec![thresholds(&[3, 2, 1])], strand(0, &a), strand(B, &b), reads].concat()
}

fn insert(fields: &mut Vec<Field>, new: Field) {
    let at = fields.iter().position(|f| f.tag > new.tag).unwrap_or(fields.len());
    fields.insert(at, new);
}

// Which fields there are: all choices for both strands without a list, and all choices of the other fields with some of these.
fn presence(list: &mut List) {
    let all = full();
    let chosen = |choice: u32| {
        let place = |f: &Field| TAGS.iter().position(|&tag| tag == f.tag).unwrap();
        all.iter().filter(|f| choice >> place(f) & 1 == 1).cloned().collect::<Vec<_>>()
    };
    for strands in 0..1024 {
        list.add("fields present", &chosen(1 | strands << 1));
    }
    for (a, b) in [0, 15, 31, 16, 7].iter().flat_map(|a| [0, 15, 31, 16, 14].map(|b| (a, b))) {
        for other in 0..8 {
            list.add("fields present", &chosen(other & 1 | a << 1 | b << 6 | (other & 6) << 10));
        }
    }
}

// Every tag as one field more, in its place and last, empty and with two bytes; and in place of each field's tag.
fn tags(list: &mut List) {
    for tag in 0..=255 {
        for value in [&[][..], &[0, 0]] {
            let mut fields = full();
            insert(&mut fields, field(tag, value));
            list.add("tags", &fields);
        }
        list.add("tags", &[full(), vec![field(tag, [0, 0])]].concat());
        let mut fields = full();
        let at = usize::from(tag) % fields.len();
        fields[at].tag = tag.wrapping_mul(11);
        list.add("tags", &fields);
    }
}

// Each field at each other place, and once more at each place.
fn order(list: &mut List) {
    let all = full();
    for from in 0..all.len() {
        for to in 0..=all.len() {
            let mut fields = all.clone();
            fields.insert(to, all[from].clone());
            list.add("order", &fields);
            fields.remove(if to <= from { from + 1 } else { from });
            list.add("order", &fields);
        }
    }
}

// Each field with a value of other lengths, near its own and near 1,024 positions.
fn lengths(list: &mut List) {
    for tag in TAGS {
        let width = match tag & 0x0f {
            _ if tag == THRESHOLDS => 4,
            2 | 3 => 2,
            4 => 9,
            _ => 1,
        };
        let near = [1023, 1024, 1025].map(|n| n * width);
        let far = near.into_iter().chain(near.map(|n| n + 1));
        for length in (0..24).chain(far).chain([20_000, 60_000]) {
            let mut fields = full();
            fields.iter_mut().filter(|f| f.tag == tag).for_each(|f| f.value.resize(length, 0));
            list.add("lengths of values", &fields);
        }
    }
}

// The small molecule cut after each byte, with bytes behind it, and with each bit turned.
fn damage(list: &mut List) {
    let bytes = written(&full());
    for end in 0..=bytes.len() {
        list.bytes("cuts", bytes[..end].to_vec());
        list.bytes("cuts", [&bytes[end..], &bytes[..end]].concat());
    }
    let cut: [&[u8]; 8] =
        [&[0], &[0x30], &[0x30, 2], &[0x30, 0], &[0x30, 2, 0], &[0x30, 2, 0, 1], &[0x30, 0, 1, 2], &[0x30, 1, 0, 1]];
    for more in cut {
        list.bytes("cuts", [&bytes[..], more].concat());
    }
    for (at, bit) in (0..bytes.len()).flat_map(|at| (0..8).map(move |bit| (at, bit))) {
        let mut turned = bytes.clone();
        turned[at] ^= 1 << bit;
        list.bytes("each bit turned", turned);
    }
    // Every byte as a pattern, and as a mark, the first or the last of a strand.
    for (tag, at) in [(ANNOTATION, 0), (ANNOTATION, 10), (ANNOTATION + B, 0), (ANNOTATION + B, 1)] {
        for byte in 0..=255 {
            let mut fields = full();
            fields.iter_mut().filter(|f| f.tag == tag).for_each(|f| f.value[at] = byte);
            list.add("patterns and marks", &fields);
        }
    }
}

// All short lists of small thresholds, and the large ones near the depths of a record.
fn of_thresholds(list: &mut List) {
    let lists = |of: &[u32], most: usize| {
        let mut all: Vec<Vec<u32>> = vec![vec![]];
        let mut from = 0;
        for _ in 0..most {
            let to = all.len();
            for at in from..to {
                of.iter().for_each(|&t| all.push([&all[at][..], &[t]].concat()));
            }
            from = to;
        }
        all
    };
    let (a, b) = (plain(b"AC", &[30, 30], 2, 0), plain(b"AC", &[30, 30], 1, 0));
    let both = |a: &Strand, b: &Strand| [strand(0, a), strand(B, b)].concat();
    let strands = [both(&a, &b), both(&b, &a), strand(0, &a), strand(B, &b)];
    for small in lists(&[0, 1, 2, 3], 4) {
        for strands in &strands[..if small.len() < 4 { 4 } else { 1 }] {
            list.add("thresholds", &[&[thresholds(&small)], &strands[..]].concat());
        }
    }
    for (turn, large) in lists(THRESHOLDS_NEAR, 2).iter().enumerate() {
        let (one, other) = (DEPTHS_NEAR[1 + turn % 5], DEPTHS_NEAR[turn / 5 % 6]);
        let both = both(&plain(b"A", &[30], one, 5), &plain(b"A", &[30], other, 5));
        list.add("large thresholds", &[&[thresholds(large)], &both[..]].concat());
        let one_more = [&large[..], &[THRESHOLDS_NEAR[turn % 4]]].concat();
        list.add("large thresholds", &[&[thresholds(&one_more)], &both[..]].concat());
    }
    for (one, other) in DEPTHS_NEAR.iter().flat_map(|one| DEPTHS_NEAR.iter().map(move |other| (*one, *other))) {
        let (most, least) = (u32::from(one.max(other)), u32::from(one.min(other)));
        for (total, xy, yx) in [(0, 0, 0), (1, 0, 0), (0, 1, 0), (0, 0, 1)] {
            let both = both(&plain(b"A", &[30], one, other), &plain(b"C", &[31], other, one));
            list.add("gates", &[&[thresholds(&[most + least + total, most + xy, least + yx])], &both[..]].concat());
        }
    }
}

// Strands of 0 to 3 positions, covered in every way, and absent; with and without N and n.
fn coverage(list: &mut List) {
    let covered = |n: u16, choice: u16| (0..n).map(|i| choice >> i & 1).collect::<Vec<u16>>();
    let mut strands = vec![None];
    (0..4).for_each(|n| strands.extend((0..1 << n).map(|choice| Some(covered(n, choice)))));
    let of = |depths: &Vec<u16>, letters: &[u8]| {
        let n = depths.len();
        Strand { depths: depths.clone(), ..plain(&letters[..n], &[30; 3][..n], 0, 2) }
    };
    for (a, b) in strands.iter().flat_map(|a| strands.iter().map(move |b| (a, b))) {
        for (a_bases, b_bases) in [(b"ACG", b"AGG"), (b"NNn", b"NCN")] {
            let mut fields = vec![thresholds(&[1, 1, 0])];
            fields.extend(a.iter().flat_map(|depths| strand(0, &of(depths, a_bases))));
            fields.extend(b.iter().flat_map(|depths| strand(B, &of(depths, b_bases))));
            list.add("coverage", &fields);
            fields.extend([field(LIST, []), read(0, b"AAA"), read(0x80, b"C")]);
            list.add("coverage", &fields);
        }
    }
}

// All pairs of the letters and some other bytes as positions, annotated in every way, without a list, with an empty one, and with
// reads; and every byte.
fn letters(list: &mut List, draw: &mut Draw) {
    let some = [LETTERS, b" ~\x00\xff\x7f"].concat();
    let pairs: Vec<(u8, u8)> = some.iter().flat_map(|&a| some.iter().map(move |&b| (a, b))).collect();
    let n = pairs.len();
    for (one, other) in (0..3).flat_map(|one| (0..3).map(move |other| (one, other))) {
        for reads in [None, Some(0), Some(1), Some(7)] {
            let mut strand_of = |pattern: u8, bases: Vec<u8>| {
                let quals: Vec<u8> = (0..n).map(|_| draw.pick(QUALITIES)).collect();
                let marks: Vec<u8> = (0..n).map(|_| draw.below(2) as u8).collect();
                let (depths, errors) = (draw.numbers(n), draw.numbers(n));
                annotated(Strand { depths, errors, ..plain(&bases, &quals, 0, 0) }, pattern, &marks)
            };
            let a = strand_of(one, pairs.iter().map(|p| p.0).collect());
            let b = strand_of(other, pairs.iter().map(|p| p.1).collect());
            let mut fields = [vec![thresholds(&[1])], strand(0, &a), strand(B, &b)].concat();
            if let Some(reads) = reads {
                fields.push(field(LIST, []));
                for _ in 0..reads {
                    let shown: Vec<u8> = pairs.iter().map(|p| [p.0, p.1, b'C', b'G', b'N'][draw.below(5)]).collect();
                    fields.push(read(draw.flags(), &shown));
                }
            }
            list.add("pairs of letters", &fields);
        }
    }
    let every: Vec<u8> = (0..=255).collect();
    let strand_of = |of: u8| strand(of, &plain(&every, &[30; 256], 1, 0));
    for strands in [strand_of(0), strand_of(B), [strand_of(0), strand_of(B)].concat()] {
        list.add("every byte as a base", &[vec![thresholds(&[0])], strands].concat());
    }
}

fn long(draw: &mut Draw, n: usize, annotation: u8) -> Strand {
    let mut s = draw.strand(n, 1);
    s.annotation = annotation;
    s.marks = (0..n).map(|_| draw.below(2) as u8).collect();
    (s.unconverted, s.converted) = (draw.counts(n), draw.counts(n));
    s
}

// Records and lists at their longest, sums that a float rounds, and bytes at their most.
fn sizes(list: &mut List, draw: &mut Draw) {
    let positions = [None, Some(0), Some(1), Some(2), Some(1023), Some(1024), Some(1025)];
    for (a, b) in positions.iter().flat_map(|a| positions.iter().map(move |b| (a, b))) {
        for annotation in [[0, 0], [1, 2]] {
            let mut fields = vec![thresholds(&[1, 0])];
            fields.extend(a.iter().flat_map(|&n| strand(0, &long(draw, n, annotation[0]))));
            fields.extend(b.iter().flat_map(|&n| strand(B, &long(draw, n, annotation[1]))));
            list.add("lengths of strands", &fields);
        }
    }
    for turn in 0..40 {
        let n = draw.pick(&[512, 513, 700, 1000, 1023, 1024]);
        let mut strand_of = |of: u8| {
            let mut s = long(draw, n, 0);
            s.depths.iter_mut().for_each(|depth| *depth = draw.pick(&[32_766, 32_767, 65_535, 20_001 + *depth % 9_000]));
            s.errors.iter_mut().for_each(|e| *e = if turn % 2 == 0 { *e } else { *e % 7 });
            strand(of, &s)
        };
        let (a, b) = (strand_of(0), strand_of(B));
        list.add("large sums", &[vec![thresholds(&[40_000])], a, b].concat());
    }
    let (a, b) = (strand(0, &plain(b"A", &[30], 1, 0)), strand(B, &plain(b"C", &[31], 1, 0)));
    for reads in [0, 1, 2, 1023, 1024, 1025, 1026, 5000] {
        for strands in [vec![], a.clone(), b.clone(), [&a[..], &b].concat()] {
            let mut fields = [vec![thresholds(&[1, 1, 0])], strands, vec![field(LIST, [])]].concat();
            fields.extend((0..reads).map(|_| read(draw.flags(), &b"CA"[..draw.below(3)])));
            list.add("lengths of lists", &fields);
        }
    }
    for size in [65_534, 65_535, 65_536, 65_537, 65_538, 65_541, 100_000, 131_072, 200_000] {
        list.bytes("bytes at their most", filled(size));
        // The same with the last read cut, where it is not over.
        let mut bytes = filled(size);
        bytes.pop();
        list.bytes("bytes at their most", bytes);
    }
}

// Ways to break a molecule so that 13 refuses it, each by itself; the last two are for its bytes.
fn broken(fields: &mut Vec<Field>, way: usize) {
    let of = |fields: &mut Vec<Field>, tag: u8, change: &dyn Fn(&mut Vec<u8>)| {
        fields.iter_mut().filter(|f| f.tag == tag).for_each(|f| change(&mut f.value));
    };
    match way {
        1 => insert(fields, field(0x02, [])),
        2 => insert(fields, field(0x15, [1])),
        3 => fields.push(field(0xff, [])),
        4 => fields.rotate_left(1),
        5 => fields.swap(1, 2),
        6 => fields.insert(0, fields[0].clone()),
        7 => of(fields, THRESHOLDS, &|v| v.push(0)),
        8 => of(fields, DEPTHS, &|v| v.push(0)),
        9 => of(fields, ERRORS + B, &|v| v.push(0)),
        10 => of(fields, ANNOTATION, &|v| v.truncate(0)),
        11 => of(fields, ANNOTATION + B, &|v| v.push(0)),
        12 => of(fields, LIST, &|v| v.push(0)),
        13 => fields.push(field(READ, [0])),
        14 => of(fields, ANNOTATION, &|v| v[0] = 2),
        15 => of(fields, ANNOTATION + B, &|v| v[0] = 255),
        16 => of(fields, ANNOTATION, &|v| v[1] = 2),
        17 => of(fields, ANNOTATION + B, &|v| { let last = v.len() - 9; v[last] = 128 }),
        18..22 => fields.retain(|f| f.tag != BASES + way as u8 - 18),
        22..26 => fields.retain(|f| f.tag != BASES + B + way as u8 - 22),
        26 => fields.retain(|f| !(BASES..ANNOTATION).contains(&f.tag)),
        27 => fields.retain(|f| !(BASES + B..ANNOTATION + B).contains(&f.tag)),
        28 => fields.retain(|f| f.tag != LIST),
        _ => {}
    }
}

const WAYS: usize = 31;

// Every way of 13, or none, with thresholds that each number refuses, or none, and with every choice of 7, 8 and 9.
fn faults(list: &mut List) {
    let lists: [&[u32]; 5] = [&[1], &[], &[4, 3, 2, 1], &[1, 2], &[3, 1, 2]];
    for (way, thresholds_of) in (0..WAYS).flat_map(|way| lists.map(|list| (way, list))) {
        for rows in 0..8 {
            let mut fields = full();
            fields[0] = thresholds(thresholds_of);
            // In one strand or the other, in one array or several.
            let turn = way + thresholds_of.len() + rows;
            let (long, ragged) = if turn % 2 == 0 { (0, B) } else { (B, 0) };
            if rows & 1 != 0 {
                let sizes = [(BASES, 1025), (QUALS, 1025), (DEPTHS, 2050), (ERRORS, 2050), (ANNOTATION, 9226)];
                for (tag, size) in if turn % 3 == 0 { &sizes[..] } else { &sizes[turn % 5..][..1] } {
                    fields.iter_mut().filter(|f| f.tag == tag + long).for_each(|f| f.value.resize(*size, 0));
                }
            }
            if rows & 2 != 0 {
                let (tag, size) = [(BASES, 1), (QUALS, 3), (DEPTHS, 6), (ERRORS, 2), (ANNOTATION, 28)][turn % 5];
                fields.iter_mut().filter(|f| f.tag == tag + ragged).for_each(|f| f.value.resize(size, 0));
            }
            if rows & 4 != 0 {
                fields.extend((0..1023).map(|_| read(0, b"C")));
            }
            broken(&mut fields, way);
            let mut bytes = written(&fields);
            match way {
                29 => bytes.push(READ),
                30 => bytes.extend(written(&[0; 3].map(|_| read(0, &[b'A'; 30_000])))),
                _ => {}
            }
            list.bytes("faults together", bytes);
        }
    }
}

pub fn all(draw: &mut Draw) -> Vec<Input> {
    let mut list = List(Vec::new());
    presence(&mut list);
    tags(&mut list);
    order(&mut list);
    lengths(&mut list);
    damage(&mut list);
    of_thresholds(&mut list);
    coverage(&mut list);
    letters(&mut list, draw);
    sizes(&mut list, draw);
    faults(&mut list);
    list.0
}
