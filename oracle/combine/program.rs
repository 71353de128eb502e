// Runs the Rust's combination of strands and ours, linked as a static library, on the same inputs in one process.
// With the words `compare SEED COUNT` it compares them, with `bench` it measures them.
mod case {
    include!("case.rs");
}
mod table {
    include!("table.rs");
}
mod draw {
    include!("draw.rs");
}
mod library {
    include!("library.rs");
}
mod rust {
    include!("rust.rs");
}
mod written {
    include!("written.rs");
}
mod encoded {
    include!("encoded.rs");
}
mod ceiling {
    include!("ceiling.rs");
}
mod limit {
    include!("limit.rs");
}
mod compare {
    include!("compare.rs");
}
mod molecules {
    include!("molecules.rs");
}
mod timing {
    include!("../timing.rs");
}
mod bench {
    include!("bench.rs");
}

pub fn main() {
    let words: Vec<String> = std::env::args().skip(1).collect();
    let words: Vec<&str> = words.iter().map(String::as_str).collect();
    let well = match words[..] {
        ["compare", seed, count] => compare::main(seed.parse().unwrap(), count.parse().unwrap()),
        ["bench"] => bench::main(),
        _ => panic!("compare SEED COUNT, or bench"),
    };
    std::process::exit(if well { 0 } else { 1 });
}
