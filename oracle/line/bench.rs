// How many molecules a second duplexline prints, by the clock: a process for each, one after the other; and as many processes of a
// program that does nothing, which says what of the time is the processes'.
use super::draw::Draw;
use super::duplexline::output;
use super::encoding::{fields_of, written};
use super::molecules::{Kind, molecule};
use super::reference;
use std::path::Path;
use std::time::Instant;

const MOLECULES: usize = 64;
const ROUNDS: usize = 11;

// The median of some rounds over all molecules.
fn a_second(program: &Path, molecules: &[Vec<u8>]) -> f64 {
    let round = |_| {
        let start = Instant::now();
        for bytes in molecules {
            let _ = output(program, bytes, 1);
        }
        molecules.len() as f64 / start.elapsed().as_secs_f64()
    };
    let mut rates: Vec<f64> = (0..ROUNDS).map(round).collect();
    rates.sort_by(f64::total_cmp);
    rates[ROUNDS / 2]
}

pub fn main(program: &Path) -> bool {
    println!("{:44} {:>10} {:>10}", "duplexline, a process for each molecule", "a second", "of nothing");
    for (name, reads, annotated) in [("no list, no annotation", None, false), ("20 reads, annotated", Some(20), true)] {
        for positions in [150, 300] {
            let mut draw = Draw::new(positions as u64);
            let kind = Kind { positions, reads, annotated };
            let molecules: Vec<Vec<u8>> = (0..MOLECULES).map(|_| written(&fields_of(&[1], &molecule(&mut draw, kind)))).collect();
            for bytes in &molecules {
                assert!(output(program, bytes, 1) == Ok(reference::output(bytes)), "the two differ");
            }
            let [ours, nothing] = [program, Path::new("/bin/true")].map(|program| a_second(program, &molecules));
            println!("{:44} {ours:10.0} {nothing:10.0}", format!("{positions} positions, {name}"));
        }
    }
    true
}
