//! Every byte of a pack changed in three ways, one at a time: every_byte PROGRAM PACK SHEET SCHEMA SCRATCH [OPTION...]
//! Prints how many are accepted with the schema file, the first of them, and how many could not be checked.
use std::process::{Command, Stdio};
use std::{env, fs};

fn main() {
    let words: Vec<String> = env::args().skip(1).collect();
    let [program, pack, sheet, schema, scratch, options @ ..] = &words[..] else { panic!("five words") };
    let good = fs::read(pack).expect("a pack");
    let (mut tried, mut other) = (0, Vec::new());
    for at in 0..good.len() {
        for change in [0x01, 0x80, 0xFF] {
            let mut file = good.clone();
            file[at] ^= change;
            fs::write(scratch, &file).expect("a file");
            let status = Command::new(program)
                .args(["accept", scratch, "--sheet", sheet, "--schema", schema])
                .args(options)
                .stdout(Stdio::null())
                .status()
                .expect("the program");
            tried += 1;
            if status.code() != Some(1) {
                other.push(format!("byte {at} ^ 0x{change:02X}: {:?}", status.code()));
            }
        }
    }
    println!("{tried} changed, {} not refused {}", other.len(), other.first().cloned().unwrap_or_default());
}
