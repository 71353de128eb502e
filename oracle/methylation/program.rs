// Runs the Rust's methylation calls and ours, linked as a static library, on the same inputs in one process.
// With the words `compare SEED COUNT` it compares them, with `bench` it measures them.
mod case {
    include!("../combine/case.rs");
}
mod table {
    include!("../combine/table.rs");
}
mod draw {
    include!("../combine/draw.rs");
}
mod inputs {
    include!("inputs.rs");
}
mod library_types {
    include!("library_types.rs");
}
mod rust {
    include!("rust.rs");
}
mod calls {
    include!("calls.rs");
}
mod compare {
    include!("compare.rs");
}
mod timing {
    include!("../timing.rs");
}
mod bench {
    include!("bench.rs");
}

pub fn main() {
    let words: Vec<String> = std::env::args().skip(1).collect();
    let words: Vec<&str> = words.iter().map(String::as_str).collect();
    let well = match words[..] {
        ["compare", seed, count] => compare::main(seed.parse().unwrap(), count.parse().unwrap()),
        ["bench"] => bench::main(),
        _ => panic!("compare SEED COUNT, or bench"),
    };
    std::process::exit(if well { 0 } else { 1 });
}
