//! The port's calls, driven by the forms of `places` on standard input, with the capacity that `places` has; (save) and (new)
//! as in src/answers.rs. To see that the port gives the answers of the sample:
//!
//!     ./archive helmapricot
//!     cd oracle && cargo run --release --offline --features calls --bin replay < ../crates/test_replay/data/recordings | cmp - ../crates/test_replay/stdout
//!
//! Lines are not checked for their form here.
use oracle::answers::{bytes, words};
use oracle::linked;
use oracle::recording::hex;
use std::io::{self, BufRead};

const NODES: u64 = 1000;
const ENTRIES: u64 = 400;
const PLACES: usize = 256;
const ROWS: usize = 64;
const NEEDED: usize = 64 + 64 * 1000 + 104 * 400;

fn said(answer: u64, done: String) -> String {
    if answer == 0 { done } else { format!("(refused {answer})\n") }
}

fn opened() -> Vec<u8> {
    let mut mem = vec![0; NEEDED];
    assert_eq!(linked::open(&mut mem, NODES, ENTRIES), 0);
    mem
}

fn find(mem: &[u8], q: &[u8]) -> String {
    let mut rows = vec![linked::Row::default(); ROWS];
    let (answer, count) = linked::search(mem, q, &mut vec![0; 24 * PLACES], &mut rows);
    if answer != 0 {
        return said(answer, String::new());
    }
    let places: String = rows[..count as usize].iter().map(|r| format!("(place {} {} {})\n", r.address, r.created, r.destroyed)).collect();
    format!("{places}(end {count})\n")
}

fn save(mem: &[u8]) -> String {
    let mut out = vec![0; NEEDED];
    let (answer, size) = linked::save(mem, &mut out);
    if answer != 0 {
        return said(answer, String::new());
    }
    format!("(image {})\n", hex(&out[..size as usize]))
}

fn main() {
    let mut mem = opened();
    for line in io::stdin().lock().lines() {
        let line = line.unwrap();
        let words = words(&line);
        let number = |i: usize| words[i].parse().unwrap();
        let data = |i: usize| bytes(words.get(i).copied().unwrap_or(""));
        match words.first().copied() {
            Some("block") => print!("{}", said(linked::record(&mut mem, number(1), number(2), number(3), number(4), &data(5)), "(taken)\n".into())),
            Some("finish") => print!("{}", said(linked::finish(&mut mem), "(finished)\n".into())),
            Some("find") => print!("{}", find(&mem, &data(1))),
            Some("save") => print!("{}", save(&mem)),
            Some("new") => mem = opened(),
            _ => println!("(refused 17)"),
        }
    }
}
