// Runs the program duplexline and a reference, whose values are the Rust's, on the same encoded molecules (document 01's
// trays). With the words `compare SEED COUNT PROGRAM` it compares them; with `named DIRECTORY` it writes the named inputs there,
// and what the reference says of them; with `reference` it reads inputs, each behind its length in four bytes, low byte first,
// and writes what each must give in the same form; with `bench PROGRAM` it measures.
mod case {
    include!("../combine/case.rs");
}
mod table {
    include!("../combine/table.rs");
}
mod draw {
    include!("../combine/draw.rs");
}
mod rust {
    include!("../combine/rust.rs");
}
mod encoding {
    include!("encoding.rs");
}
mod reference {
    include!("reference.rs");
}
mod named {
    include!("named.rs");
}
mod listed {
    include!("listed.rs");
}
mod random {
    include!("random.rs");
}
mod duplexline {
    include!("duplexline.rs");
}
mod compare {
    include!("compare.rs");
}
mod molecules {
    include!("../combine/molecules.rs");
}
mod bench {
    include!("bench.rs");
}

fn reference_of_many() -> std::io::Result<()> {
    use std::io::{Read, Write};
    let mut input = Vec::new();
    std::io::stdin().read_to_end(&mut input)?;
    let (mut rest, mut out) = (&input[..], std::io::BufWriter::new(std::io::stdout()));
    while let Some((length, after)) = rest.split_first_chunk() {
        let (bytes, after) = after.split_at(u32::from_le_bytes(*length) as usize);
        let output = reference::output(bytes);
        out.write_all(&(output.len() as u32).to_le_bytes())?;
        out.write_all(&output)?;
        rest = after;
    }
    out.flush()
}

pub fn main() {
    let words: Vec<String> = std::env::args().skip(1).collect();
    let words: Vec<&str> = words.iter().map(String::as_str).collect();
    let well = match words[..] {
        ["compare", seed, count, program] => compare::main(seed.parse().unwrap(), count.parse().unwrap(), program.as_ref()),
        ["named", directory] => named::write(directory.as_ref()).is_ok(),
        ["reference"] => reference_of_many().is_ok(),
        ["bench", program] => bench::main(program.as_ref()),
        _ => panic!("compare SEED COUNT PROGRAM, named DIRECTORY, reference, or bench PROGRAM"),
    };
    std::process::exit(if well { 0 } else { 1 });
}
