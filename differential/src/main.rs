//! Holds the packer and the reader against the reference and against a model of document 01 with requests 2.1, 2.6 and 2.10.
mod antt;
mod antt_texts;
mod bench;
mod branch;
mod bytes;
mod commands;
mod compare;
mod decimals;
mod fixed;
mod gen;
mod model;
mod record;
mod reference_side;
mod rng;
mod root_alone;
mod roads;
mod row_numbers;
mod scene;
mod select;
mod sheets;
mod shrink;
mod stats;
mod subject;
mod ways;

fn main() {
    let words: Vec<String> = std::env::args().skip(1).collect();
    // Deep values are walked by recursion.
    let run = std::thread::Builder::new().stack_size(256 << 20).spawn(move || commands::run(&words));
    let code = run.expect("a thread").join().unwrap_or(2);
    std::process::exit(code);
}
