//! How much stack each call takes at most, on an index near its capacity and on small ones.
//!
//!     ./archive helmapricot && cd oracle && cargo run --release --offline --features calls --bin stack
//!
//! The stack below a call is filled with a pattern first; what the call changed of it is what it took.
use oracle::linked::{self, Row};
use oracle::recording::Block;
use std::hint::black_box;

const SIZE: usize = 4 << 20;
const PATTERN: u64 = 0xa5a5_5a5a_c3c3_3c3c;

/// The words below the caller's frame, from the lowest on.
#[inline(never)]
fn below() -> *mut u64 {
    let here = 0u64;
    let top = black_box(&here) as *const u64 as usize;
    ((top - SIZE) & !7) as *mut u64
}

/// The bytes of stack that f takes, within a page or so.
#[inline(never)]
fn taken<F: FnOnce()>(f: F) -> usize {
    let low = below();
    let words = SIZE / 8 - 256;
    for i in 0..words {
        unsafe { low.add(i).write_volatile(PATTERN) };
    }
    f();
    let untouched = (0..words).take_while(|&i| unsafe { low.add(i).read_volatile() } == PATTERN).count();
    SIZE - untouched * 8
}

fn calls() {
    let (nodes, entries) = (1_048_576u64, 1_048_576u64);
    let mut mem = vec![0u8; 64 + 64 * nodes as usize + 104 * entries as usize];
    let mut scratch = vec![0u8; 24 << 20];
    let mut rows = vec![Row::default(); 1 << 16];
    let mut out = vec![0u8; 112 << 20];
    let mut most = std::collections::BTreeMap::new();
    let mut note = |name: &'static str, bytes: usize| {
        let e = most.entry(name).or_insert(0);
        *e = bytes.max(*e);
    };
    for (blocks, letters) in [(0u64, 36u64), (10, 2), (3000, 36), (3000, 2), (900, 256)] {
        let mut x = 88172645463325252u64;
        let mut next = || {
            x ^= x << 13;
            x ^= x >> 7;
            x ^= x << 17;
            x
        };
        note("open", taken(|| assert_eq!(linked::open(&mut mem, nodes, entries), 0)));
        let mut stream = Vec::new();
        for i in 0..blocks {
            let data: Vec<u8> = (0..16 + next() % 32).map(|_| (next() % letters) as u8).collect();
            stream.extend(Block::memory(i * 64, 1, 9, &data).encoded());
            note("record", if i % 100 == 0 { taken(|| { linked::record(&mut mem, 1, i * 64, 1, 9, &data); }) } else { linked::record(&mut mem, 1, i * 64, 1, 9, &data); 0 });
        }
        assert_eq!(linked::open(&mut mem, nodes, entries), 0);
        note("record_stream", taken(|| assert_eq!(linked::record_stream(&mut mem, &stream), (0, blocks))));
        note("finish", taken(|| assert_eq!(linked::finish(&mut mem), 0)));
        for len in [0usize, 1, 16, 256, 257] {
            let q: Vec<u8> = (0..len).map(|_| (next() % letters) as u8).collect();
            note("search", taken(|| { black_box(linked::search(&mem, &q, &mut scratch, &mut rows)); }));
        }
        for typed in [&b"G123498654321H"[..], b"00000000000001", b""] {
            note("search_number", taken(|| { black_box(linked::search_number(&mem, typed, &mut scratch, &mut rows)); }));
        }
        let mut size = 0;
        note("save", taken(|| size = linked::save(&mem, &mut out).1));
        note("load", taken(|| assert_eq!(linked::load(&mut mem, &out[..size as usize]), 0)));
    }
    let mut fields = [0u64; 7];
    note("read_block", taken(|| { black_box(linked::read_block(&[1; 64], 0, &mut fields)); }));
    for (name, bytes) in most {
        println!("{name:13} {bytes:8} bytes of stack");
    }
}

fn main() {
    std::thread::Builder::new().stack_size(4 * SIZE).spawn(calls).unwrap().join().unwrap();
}
