//! The published index, driven by the forms of `places` on standard input.
use oracle::answers::Answering;
use std::io::{self, BufRead};

fn main() {
    let mut index = Answering::default();
    for line in io::stdin().lock().lines() {
        print!("{}", index.line(&line.unwrap()));
    }
}
