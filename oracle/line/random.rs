// Random inputs: molecules of every kind, and damaged ones.
use super::case::Strand;
use super::draw::{Draw, LETTERS};
use super::encoding::*;
use super::listed::Input;

fn largest(s: &Strand) -> u32 {
    u32::from(if s.present { s.depths.iter().copied().max().unwrap_or(0) } else { 0 })
}

// A molecule as the combination's own tests draw it, of up to 1,024 positions; some of these rows are then to refuse it.
fn molecule(draw: &mut Draw, rows: &[u8]) -> Vec<Field> {
    let mut case = draw.case();
    for &row in rows {
        if draw.chance(2) {
            draw.spoil(&mut case, row);
        }
    }
    let list = draw.thresholds([largest(&case.a), largest(&case.b)]);
    let mut fields = fields_of(&list, &case);
    // Mostly as many reads as there is room for.
    if !draw.chance(8) {
        let mut size = written(&fields).len();
        while size > MOST_BYTES && fields.last().is_some_and(|f| f.tag == READ) {
            size -= 3 + fields.pop().unwrap().value.len();
        }
    }
    fields
}

fn letters(draw: &mut Draw, n: usize) -> Vec<u8> {
    (0..n).map(|_| if draw.chance(12) { draw.byte() } else { draw.pick(LETTERS) }).collect()
}

// A molecule of few positions, in which something may be missing, or of another length.
fn small(draw: &mut Draw) -> Vec<Field> {
    let mut fields = Vec::new();
    if !draw.chance(24) {
        fields.push(thresholds(&draw.thresholds([1, 2])));
    }
    let (n, style) = (draw.below(4), draw.below(4));
    for of in [0, B] {
        if draw.chance(6) {
            continue;
        }
        let n = if draw.chance(6) { draw.below(4) } else { n };
        let mut s = draw.strand(n, style);
        if draw.chance(3) {
            s.depths.iter_mut().for_each(|depth| *depth %= 2);
        }
        let mut new = strand(of, &s);
        if draw.chance(24) {
            let at = draw.below(new.len());
            new[at].value.resize(draw.below(20), 0);
        }
        fields.extend(new);
    }
    if draw.chance(2) {
        fields.push(field(LIST, []));
        for _ in 0..draw.below(4) {
            let n = draw.below(5);
            let bases = letters(draw, n);
            fields.push(read(draw.flags(), &bases));
        }
    }
    fields
}

fn tag(draw: &mut Draw) -> u8 {
    if draw.chance(4) { draw.byte() } else { draw.pick(&TAGS) }
}

// One change of the fields.
fn change_field(draw: &mut Draw, fields: &mut Vec<Field>) {
    let n = fields.len();
    let (at, other) = (draw.below(n.max(1)), draw.below(n + 1));
    match draw.below(8) {
        0 if n > 0 => drop(fields.remove(at)),
        1 if n > 0 => fields.insert(other, fields[at].clone()),
        2 if n > 1 => fields.swap(at, other % n),
        3 if n > 0 => fields[at].tag = tag(draw),
        4 if n > 0 => {
            let length = fields[at].value.len() + draw.below(10);
            fields[at].value.resize(length.saturating_sub(draw.below(10)).min(65_535), 0);
        }
        5 if n > 0 && !fields[at].value.is_empty() => {
            let place = draw.below(fields[at].value.len());
            fields[at].value[place] = if draw.chance(2) { draw.below(4) as u8 } else { draw.byte() };
        }
        6 if n > 0 && fields[0].tag == THRESHOLDS => {
            let list: Vec<u32> = (0..draw.below(6)).map(|_| draw.below(4) as u32).collect();
            fields[0] = thresholds(&list);
        }
        _ => {
            let length = draw.below(12);
            fields.insert(other, field(tag(draw), vec![0; length]));
        }
    }
}

// One change of the bytes.
fn change_bytes(draw: &mut Draw, bytes: &mut Vec<u8>) {
    let n = bytes.len();
    let (at, few) = (draw.below(n.max(1)), 1 + draw.below(4));
    match draw.below(6) {
        0 if n > 0 => bytes[at] ^= 1 << draw.below(8),
        1 if n > 0 => bytes[at] = draw.byte(),
        2 if n > 0 => drop(bytes.drain(at..(at + few).min(n))),
        3 if n > 0 => bytes.truncate(at),
        4 => bytes.extend((0..few).map(|_| tag(draw)).collect::<Vec<_>>()),
        _ => drop(bytes.splice(at..at, (0..few).map(|_| draw.below(3) as u8).collect::<Vec<_>>())),
    }
}

fn times(draw: &mut Draw, mut change: impl FnMut(&mut Draw)) {
    for _ in 0..draw.pick(&[1, 1, 1, 2, 3]) {
        change(draw);
    }
}

// The input of a number, whatever the others are.
pub fn input(seed: u64, number: u64) -> Input {
    let draw = &mut Draw::new(seed.rotate_left(32) ^ number.wrapping_mul(0xd134_2543_de82_ef95));
    let (group, bytes) = match draw.below(20) {
        0..7 => ("random molecules", written(&molecule(draw, &[]))),
        7..9 => ("random molecules, rows 7, 8, 9", written(&molecule(draw, &[7, 8, 9]))),
        9..12 => ("random small molecules", written(&small(draw))),
        12..15 => {
            let mut fields = if draw.chance(6) { molecule(draw, &[7, 8, 9]) } else { small(draw) };
            times(draw, |draw| change_field(draw, &mut fields));
            ("random, fields changed", written(&fields))
        }
        15..18 => {
            let mut bytes = written(&if draw.chance(6) { molecule(draw, &[]) } else { small(draw) });
            times(draw, |draw| change_bytes(draw, &mut bytes));
            ("random, bytes changed", bytes)
        }
        18 => {
            let mut fields: Vec<Field> = Vec::new();
            (0..draw.below(8)).for_each(|_| change_field(draw, &mut fields));
            fields.sort_by_key(|f| f.tag);
            ("random fields", written(&fields))
        }
        _ => {
            let (n, known) = (draw.below(60), draw.chance(2));
            let mut byte = |_| if known { draw.pick(&[0, 0, 1, 2, 4, 0x10, 0x2f, 0x30]) } else { draw.byte() };
            ("random bytes", (0..n).map(&mut byte).collect())
        }
    };
    Input { group, bytes }
}
