//! Writes recordings for a program to replay, and what the published index answers to them.
//!
//!     cd oracle && cargo run --release --offline --bin sample -- ../crates/test_replay
//!
//! writes DIR/data/recordings, in the forms of `places`, with a line (new) between two recordings and (save) where an image is
//! asked for, and DIR/stdout. No call is refused in it, and document 01 says of every answer that the Rust is met. Prints
//! what the sample covers, and ends with 1 where something is missing.
use oracle::answers::Answering;
use oracle::making::{alphabet, Maker, Want};
use oracle::level::Level;
use oracle::model::{self, Bytes};
use oracle::random::Random;
use oracle::recording::{Block, Call, Domain, Piece};
use std::collections::BTreeMap;

/// The capacity of `places`, and the longest line.
const NODES: u64 = 1000;
const ENTRIES: u64 = 400;
const PLACES: u64 = 256;
const ROWS: usize = 64;
const LINE: usize = 1024;

/// Both files together have fewer bytes.
const ROOM: usize = 400_000;

const MANY: &str = "query with over 12 rows";

#[derive(Default)]
struct Sample {
    input: String,
    answers: String,
    recordings: usize,
    covered: BTreeMap<String, usize>,
}

impl Sample {
    fn note(&mut self, what: String) {
        *self.covered.entry(what).or_default() += 1;
    }

    fn line(&mut self, index: &mut Answering, line: String) {
        assert!(line.len() <= LINE, "a line of {} bytes", line.len());
        self.answers += &index.line(&line);
        self.input += &line;
        self.input.push('\n');
    }

    /// Adds a recording if the capacity holds it; queries that are not met or too large for the buffers are left out, and
    /// the image where it has more bytes than this.
    fn add(&mut self, blocks: &[Block], queries: &[Vec<u8>], largest_image: usize) {
        let memory: Vec<Block> = blocks.iter().filter(|b| b.kind == 1).cloned().collect();
        let domain = Domain::of(&memory);
        let nodes = 1 + memory.iter().map(Block::nodes_charged).sum::<u64>();
        let entries = memory.iter().map(Block::entries_charged).sum::<u64>();
        if !domain.consistent || nodes > NODES || entries > ENTRIES {
            return;
        }
        let mut index = Answering::default();
        if self.recordings > 0 {
            self.line(&mut index, "(new)".into());
        }
        self.recordings += 1;
        for b in blocks {
            self.line(&mut index, Call::Record(b.clone()).to_string());
        }
        self.line(&mut index, Call::Finish.to_string());
        let pieces: Vec<Piece> = memory.iter().flat_map(Block::pieces).collect();
        self.note_blocks(blocks, &pieces);
        let root = model::trie(&pieces);
        if domain.image_met() && model::image(root.as_ref()).len() <= largest_image {
            self.line(&mut index, Call::Save.to_string());
            self.note_nodes(root.as_ref());
        }
        for q in queries {
            let told = model::foretell(&pieces, q);
            // many rows, but not too often: they fill the file
            let many = told.rows.len() > 12;
            if many && self.covered.get(MANY).is_some_and(|n| *n >= 15) {
                continue;
            }
            if domain.rows_met(q.len()) && told.places <= PLACES && told.rows.len() <= ROWS {
                if many {
                    self.note(MANY.into());
                }
                self.line(&mut index, Call::Find(q.clone()).to_string());
                self.note_query(q, &told.rows, &pieces);
            }
        }
    }

    fn note_blocks(&mut self, blocks: &[Block], pieces: &[Piece]) {
        for b in blocks {
            self.note(format!("kind {}", b.kind));
            self.note(format!("block of {} bytes", b.bytes.len()));
            if b.kind == 1 && b.at.address > u64::MAX - 300 {
                self.note("address near 2^64".into());
            }
        }
        for p in pieces {
            self.note(format!("piece of {} bytes", p.bytes.len()));
        }
    }

    fn note_nodes(&mut self, root: Option<&model::Node>) {
        self.note("image".into());
        let mut counts = Vec::new();
        if let Some(r) = root {
            r.child_counts(&mut counts);
        }
        for (i, n) in counts.iter().enumerate() {
            let of = if i == 0 { "root" } else { "inner node" };
            self.note(format!("image, {of} of kind {}", if *n <= 8 { 3 } else if *n <= 96 { 2 } else { 1 }));
            if [8, 9, 96, 97].contains(n) {
                self.note(format!("image, {of} with {n} children"));
            }
        }
    }

    /// How many pieces each row lies in, and how the first and the last lie in it.
    fn note_query(&mut self, q: &[u8], rows: &[oracle::recording::Location], pieces: &[Piece]) {
        self.note(format!("query of {}", match q.len() { 0 => "0 bytes", 1 => "1 byte", 2..=16 => "2 to 16 bytes", 17..=255 => "17 to 255 bytes", _ => "256 bytes" }));
        self.note(format!("query with {}", match rows.len() { 0 => "no row", 1 => "one row", _ => "more rows" }));
        for r in rows {
            let end = r.address + q.len() as u64;
            let inside: Vec<(u64, u64)> = pieces
                .iter()
                .filter(|p| p.at.created <= r.created && r.created < p.at.destroyed)
                .map(|p| (p.at.address, p.at.address + p.bytes.len() as u64))
                .filter(|p| p.0 < end && r.address < p.1)
                .collect();
            self.note(format!("row over {} pieces", if inside.len() > 4 { "5 or more".into() } else { inside.len().to_string() }));
            if inside.len() > 1 {
                let lists = [("prefixes", inside.iter().any(|p| p.0 < r.address)), ("chunks", inside.iter().any(|p| r.address <= p.0 && p.1 <= end)), ("suffixes", inside.iter().any(|p| end < p.1))];
                lists.iter().filter(|l| l.1).for_each(|l| self.note(format!("row by way of {}", l.0)));
            }
        }
    }

    fn size(&self) -> usize {
        self.input.len() + self.answers.len()
    }
}

/// What document 01 tries, as far as the Rust is met there.
fn documented(s: &mut Sample) {
    let b = Block::memory;
    let all = usize::MAX;
    let q = |x: &[&[u8]]| x.iter().map(|y| y.to_vec()).collect::<Vec<_>>();
    s.add(&[], &q(&[b"", b"a", b"ab"]), all);
    s.add(&[b(100, 10, 50, b"abc"), b(103, 10, 30, b"de"), b(103, 30, 50, b"de")], &q(&[b"d", b"", b"c", b"e"]), all);
    s.add(&[b(0, 1, 5, b"ab"), b(2, 5, 9, b"c")], &q(&[b"abc", b"ab", b"bc", b"c"]), all);
    s.add(&[b(10, 1, 4, b"aaa")], &q(&[b"aa", b"a", b"aaa", b"aaaa"]), all);
    s.add(&[b(0, 1, 3, b"a"), b(0, 5, 7, b"a"), b(0, 3, 5, b"b")], &q(&[b"a", b"b"]), all);
    let up: Vec<u8> = (0..17).collect();
    s.add(&[b(200, 1, 2, &up)], &q(&[&up[15..], &up, &up[..16], &up[3..12]]), all);
    s.add(&[b(0, 5, 6, b"a")], &q(&[b"a"]), all);
    s.add(&[b(u64::MAX - 1, 1, 2, b"a")], &q(&[b"a", b"aa"]), all);
    s.add(&[b(5, 1, 2, b"a")], &q(&[b"a", b"b"]), all);
    s.add(&[b(u64::MAX, 1, 2, b""), b(0, 0, u64::MAX, b"")], &q(&[b"", b"a"]), all);
}

/// Nodes of each kind: a front and n bytes that may follow it, in any order of arrival.
fn fans(s: &mut Sample, r: &mut Random) {
    for (n, front, largest_image) in [(8, 0, 9999), (9, 0, 9999), (10, 0, 9999), (96, 0, 99999), (97, 0, 99999), (130, 0, 0), (200, 0, 0), (8, 1, 9999), (9, 1, 9999), (9, 2, 9999), (40, 1, 0), (96, 1, 0), (97, 1, 99999), (8, 3, 9999)] {
        let common = &b"\x00\xff\x61"[..front];
        let step = front as u64 + 1 + r.below(2);
        let mut blocks = Vec::new();
        for (i, last) in alphabet(r, n).into_iter().enumerate() {
            let bytes = [common, &[last]].concat();
            blocks.push(Block::memory(1000 + step * i as u64, r.below(5), 5 + r.below(5), &bytes));
        }
        let queries: Vec<Vec<u8>> = (0..6).map(|_| r.pick(&[0, n / 2, n - 1])).map(|i| blocks[i].bytes.clone()).collect();
        s.add(&blocks, &[queries, vec![common.to_vec(), vec![r.next() as u8]]].concat(), largest_image);
    }
}

/// Blocks of each length around the size of a piece, over few letters, so that their images stay small.
fn lengths(s: &mut Sample, r: &mut Random) {
    for n in [1usize, 2, 14, 15, 16, 17, 18, 30, 31, 32, 33, 34, 47, 48, 49, 64, 100] {
        for top in [false, true] {
            let first = if top { u64::MAX - n as u64 } else { r.below(3) };
            // the letters differ where pieces begin and end, or not at all
            let text: Vec<u8> = (0..n).map(|i| if n > 34 { b'a' } else { b"ab"[i / 16 % 2] }).collect();
            let mut queries: Vec<Vec<u8>> = [(0, n), (0, 16), (n.saturating_sub(1), n), (n.saturating_sub(17), n), (14, 18), (15, 33), (1, n), (0, n - 1)].iter().filter(|x| x.0 < x.1 && x.1 <= n).map(|x| text[x.0..x.1].to_vec()).collect();
            queries.push([&text[..], b"a"].concat());
            let largest_image = if !top && [15, 16, 17, 31, 32, 33, 48].contains(&n) { 4000 } else { 800 };
            s.add(&[Block::memory(first, 3, 9, &text)], &queries, largest_image);
        }
    }
    let up: Vec<u8> = (0..200).collect();
    s.add(&[Block::memory(77, 1, 2, &up[..100])], &[up[..100].to_vec(), up[10..90].to_vec(), up[..101].to_vec(), up[15..17].to_vec()], 0);
    s.add(&[Block::memory(77, 1, 2, &[7; 112])], &[vec![7; 112], vec![7; 113], vec![7; 256], vec![8; 256]], 9999);
}

/// Chains of two to five blocks side by side: lives that overlap, touch or miss one another, in any order of arrival.
fn chains(s: &mut Sample, r: &mut Random) {
    for k in 0..70 {
        let count = 2 + k % 4;
        let mut address = if k % 5 == 0 { u64::MAX - 60 } else { r.below(50) };
        let first = address;
        let mut blocks = Vec::new();
        let mut text = Vec::new();
        for i in 0..count {
            let n = r.pick(&[1, 1, 2, 2, 3, 4]);
            let data: Vec<u8> = (0..n).map(|_| r.pick(b"abcd")).collect();
            let touches = k % 7 == 6 && i == 1;
            let created = if touches { 20 } else { r.below(8) };
            let destroyed = if touches { 30 } else if k % 7 == 5 { 20 } else { r.between(8, 20) };
            blocks.push(Block::memory(address, created, destroyed, &data));
            // the same place before or after, with other ends
            if r.once_in(3) {
                let other: Vec<u8> = (0..n).map(|_| r.pick(b"wxyz")).collect();
                blocks.push(Block::memory(address, destroyed, destroyed + r.between(1, 9), &other));
            }
            address += n;
            text.extend(data);
        }
        if r.once_in(2) {
            blocks.push(Block::memory(r.pick(&[first, address, 3]), 1, 2 + k as u64, b""));
        }
        if r.once_in(4) {
            blocks.push(Block { kind: r.pick(&[0, 2, 3, 4]), at: blocks[0].at, bytes: b"abc".to_vec() });
        }
        r.shuffle(&mut blocks);
        let mut queries = vec![text.clone()];
        for _ in 0..5 {
            let a = r.below(text.len() as u64) as usize;
            queries.push(text[a..a + 1 + r.below((text.len() - a) as u64) as usize].to_vec());
        }
        queries.push([&text[..], b"a"].concat());
        s.add(&blocks, &queries, 800);
    }
}

/// Recordings as they are made for the comparison.
fn made(s: &mut Sample, seed: u64, until: usize) {
    for k in 0..100_000 {
        if s.recordings >= 330 || s.size() > until {
            return;
        }
        let mut m = Maker::new(Level::LANDED, Random::new(seed + k), Want::Met);
        let count = m.r.between(1, 6);
        (0..count).for_each(|_| m.add_one());
        let held = Bytes::of(&m.blocks);
        let queries: Vec<Vec<u8>> = (0..4).map(|_| m.query(&held)).filter(|q| q.len() <= 256).collect();
        let (nodes, entries) = m.charges();
        if nodes <= 300 && entries <= 150 {
            s.add(&m.blocks, &queries, 420);
        }
    }
}

fn missing(s: &Sample) -> Vec<String> {
    let mut wanted: Vec<String> = ["image, root of kind 1", "image, root of kind 2", "image, root of kind 3", "image, inner node of kind 1", "image, inner node of kind 2", "address near 2^64", "query of 0 bytes", "query of 256 bytes", "row by way of prefixes", "row by way of chunks", "row by way of suffixes"].map(String::from).to_vec();
    wanted.extend([8, 9, 96, 97].map(|n| format!("image, root with {n} children")));
    wanted.extend([0, 1, 15, 16, 17, 31, 32, 33].map(|n| format!("block of {n} bytes")));
    wanted.extend([1, 2, 3, 4].map(|n| format!("row over {n} pieces")));
    wanted.retain(|w| !s.covered.contains_key(w));
    wanted
}

fn main() {
    let dir = std::env::args().nth(1).unwrap_or("../crates/test_replay".into());
    let mut s = Sample::default();
    let mut r = Random::new(1);
    documented(&mut s);
    fans(&mut s, &mut r);
    lengths(&mut s, &mut r);
    chains(&mut s, &mut r);
    made(&mut s, 1000, ROOM - 10_000);
    std::fs::create_dir_all(format!("{dir}/data")).unwrap();
    std::fs::write(format!("{dir}/data/recordings"), &s.input).unwrap();
    std::fs::write(format!("{dir}/stdout"), &s.answers).unwrap();
    println!("{} recordings, {} bytes of input, {} of answers", s.recordings, s.input.len(), s.answers.len());
    for (what, n) in &s.covered {
        println!("{n:>6}  {what}");
    }
    let missing = missing(&s);
    if !missing.is_empty() || s.size() >= ROOM {
        println!("missing: {missing:?}");
        std::process::exit(1);
    }
}
