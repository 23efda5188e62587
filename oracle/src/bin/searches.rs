//! Times searches alone, the test of the image taken off, against the published index on the same blocks: many lives at an address,
//! scratch of hardly more places than are counted, lives that enclose others, bytes that occur often, and the usual queries.
//!
//!     ./archive helmapricot && ./archive bench_parts
//!     cd oracle && cargo run --release --offline --features parts --bin searches
use oracle::bench_parts::search_image;
use oracle::benching::{block, blocks, blocks_over, in_turn, middle, middle_of, published, queries, searches, text_of, timed, CHARACTERS, USUAL};
use oracle::index::string_index::StringIndex;
use oracle::index::SpacetimeBlock;
use oracle::sink::Sink;
use std::hint::black_box;

/// A search that takes longer, in microseconds, is timed once.
const LONG: f64 = 3e5;

/// An index of blocks, here and published.
struct Both {
    image: Vec<u8>,
    index: StringIndex<Sink>,
}

fn both(blocks: &[SpacetimeBlock]) -> Both {
    let (index, image) = published(blocks);
    Both { image, index }
}

/// Queries of one length that are searched in turn.
struct Queries<'a> {
    of: Vec<&'a [u8]>,
    len: usize,
}

fn one(query: &[u8]) -> Queries<'_> {
    Queries { of: vec![query], len: query.len() }
}

/// What the test of an image takes: an empty query has nothing to search.
fn test(image: &[u8], scratch: &mut [u8]) -> f64 {
    searches(image, &[], 0, scratch)
}

/// So many searches without the test, in microseconds.
fn proper(image: &[u8], q: &Queries, times: usize, scratch: &mut [u8]) -> f64 {
    let many = in_turn(&q.of, times);
    searches(image, &many, q.len, scratch) - test(image, scratch)
}

/// How many searches take as long as a test of the image and 40 milliseconds, about, and what one takes. The shortest of some timings
/// count, since other work on the machine makes them long.
fn enough(image: &[u8], q: &Queries, scratch: &mut [u8]) -> (usize, f64) {
    let test = (0..3).map(|_| test(image, scratch)).fold(f64::MAX, f64::min);
    let wanted = test + 4e4;
    let mut times = 1;
    loop {
        let many = in_turn(&q.of, times);
        let mut whole = searches(image, &many, q.len, scratch);
        if whole < LONG {
            whole = whole.min(searches(image, &many, q.len, scratch));
        }
        let taken = whole - test;
        if wanted < 2.0 * taken {
            return (((times as f64 * wanted / taken) as usize).max(1), taken / times as f64);
        }
        times *= 4;
    }
}

/// A search here and published, in microseconds: the middle of five of each, in turn.
fn measured(b: &Both, q: &Queries, scratch: &mut [u8]) -> (f64, f64) {
    let (times, port) = enough(&b.image, q, scratch);
    let rust = |times: usize| timed(|| q.of.iter().cycle().take(times).for_each(|q| { black_box(b.index.search(q)); })) / times as f64;
    if LONG < port {
        return (port, rust(1));
    }
    let (ports, rusts) = (0..5).map(|_| (proper(&b.image, q, times, scratch) / times as f64, rust(times))).unzip();
    (middle_of(ports), middle_of(rusts))
}

/// How many rows the queries have, here and published.
fn rows(b: &Both, q: &Queries, scratch: &mut [u8]) -> (u64, u64) {
    let ours = q.of.iter().map(|q| search_image(&b.image, q, q.len(), scratch, usize::MAX).unwrap()).sum();
    let theirs = q.of.iter().map(|q| b.index.search(q).len() as u64).sum();
    (ours, theirs)
}

/// So many lives of a byte at an address, ten ticks each from a tick on, or fewer ticks so that they don't touch.
fn lives(byte: u8, address: u64, from: u64, ticks: u64, n: u64) -> impl Iterator<Item = SpacetimeBlock> {
    (0..n).map(move |i| block(address, 10 * i + from, 10 * i + from + ticks, vec![byte]))
}

fn two_addresses(n: u64, ticks: u64) -> Vec<SpacetimeBlock> {
    lives(b'a', 0, 0, ticks, n).chain(lives(b'b', 1, 5, ticks, n)).collect()
}

/// A byte at each of 256 addresses, so many lives of each.
fn all_bytes(n: u64) -> Vec<SpacetimeBlock> {
    (0..=255).flat_map(|j| lives(j, j as u64, j as u64, 10, n)).collect()
}

/// Lives that each enclose so many others behind them: n times n joins, and n places.
fn enclosing(n: u64) -> Vec<SpacetimeBlock> {
    let outer = (0..n).map(|i| block(0, i, 1_000_000 + i, vec![b'a']));
    outer.chain((0..n).map(|j| block(1, 10_000 + 2 * j, 10_000 + 2 * j + 1, vec![b'b']))).collect()
}

/// Reading the lists of so many locations once, in microseconds.
fn reading(locations: usize) -> f64 {
    let words: Vec<u64> = (0..3 * locations as u64).collect();
    middle(101, || { black_box(black_box(&words).iter().fold(0u64, |s, w| s.wrapping_add(*w))); })
}

fn growth(last: &mut Option<f64>, now: f64) -> String {
    let grown = last.map_or(String::new(), |before| format!("{:.2} times", now / before));
    *last = Some(now);
    grown
}

fn many_lives(scratch: &mut [u8]) {
    println!("`ab`, so many lives of each, milliseconds");
    println!("{:28} {:>10} {:>11} {:>9} {:>10} {:>10}   rows, port and published", "", "port", "growth", "reading", "of reading", "published");
    for (name, ticks, counts) in [("that touch", 10, &[4_000, 8_000, 16_000, 32_000, 64_000][..]), ("that don't touch", 8, &[4_000, 8_000, 16_000])] {
        let mut last = None;
        for &n in counts {
            let (b, q) = (both(&two_addresses(n, ticks)), one(b"ab"));
            let (port, rust) = measured(&b, &q, scratch);
            let (ours, theirs) = rows(&b, &q, scratch);
            let read = reading(2 * n as usize);
            println!("{:28} {:10.3} {:>11} {:9.4} {:10.0} {:10.3}   {ours} {theirs}", format!("{n} {name}"), port / 1e3, growth(&mut last, port), read / 1e3, port / read, rust / 1e3);
        }
    }
}

fn many_addresses(scratch: &mut [u8]) {
    println!("256 bytes at 256 addresses, so many lives of each, milliseconds");
    println!("{:28} {:>10} {:>11} {:>10}   rows, port and published", "", "port", "growth", "published");
    let query: Vec<u8> = (0..=255).collect();
    let mut last = None;
    for n in [128, 256, 512] {
        let (b, q) = (both(&all_bytes(n)), one(&query));
        let (port, rust) = measured(&b, &q, scratch);
        let (ours, theirs) = rows(&b, &q, scratch);
        println!("{n:<28} {:10.2} {:>11} {:10.2}   {ours} {theirs}", port / 1e3, growth(&mut last, port), rust / 1e3);
    }
}

/// The least number of places that scratch must have room for.
fn counted(image: &[u8], query: &[u8], scratch: &mut [u8]) -> usize {
    let (mut low, mut high) = (0, scratch.len() / 24);
    while low < high {
        let middle = (low + high) / 2;
        match search_image(image, query, query.len(), &mut scratch[..24 * middle], usize::MAX) {
            Ok(_) => high = middle,
            Err(n) => { assert_eq!(n, 10); low = middle + 1 }
        }
    }
    low
}

/// A search with scratch for exactly the places that are counted, and for more; in turn.
fn time_scratch(name: &str, image: &[u8], query: &[u8], scratch: &mut [u8]) {
    let exact = counted(image, query, scratch);
    let sizes = [exact, exact + 1, exact + exact / 100, exact * 3 / 2, exact * 2, exact * 4].map(|n| 24 * n);
    let q = one(query);
    let times = sizes.map(|n| enough(image, &q, &mut scratch[..n]).0);
    let mut taken = sizes.map(|_| Vec::new());
    for _ in 0..5 {
        for k in 0..sizes.len() {
            taken[k].push(proper(image, &q, times[k], &mut scratch[..sizes[k]]) / times[k] as f64);
        }
    }
    let figures: Vec<String> = taken.map(|t| format!("{:11.2}", middle_of(t))).into();
    println!("{name:36} {exact:9} {}", figures.join(" "));
}

fn scarce_scratch(scratch: &mut [u8]) {
    println!("search, microseconds, by scratch");
    println!("{:36} {:>9} {:>11} {:>11} {:>11} {:>11} {:>11} {:>11}", "", "places", "exact", "one more", "1 % more", "1.5 times", "2 times", "4 times");
    time_scratch("4,000 lives, `ab`", &both(&two_addresses(4_000, 10)).image, b"ab", scratch);
    let query: Vec<u8> = (0..=255).collect();
    time_scratch("256 addresses, 128 lives, 256 bytes", &both(&all_bytes(128)).image, &query, scratch);
    let made = blocks(3000, 16, 64);
    let (text, b) = (text_of(&made), both(&made));
    for len in [1, 16, 64, 256] {
        time_scratch(&format!("3,000 blocks, {len} bytes"), &b.image, queries(&text, len)[0], scratch);
    }
    for n in [500, 1_000] {
        time_scratch(&format!("{n} lives that enclose {n} others"), &both(&enclosing(n)).image, b"ab", scratch);
    }
}

/// Blocks of one label, so many, at as many addresses as ticks, side by side. Its digits are there once, twice, and six times.
fn labels(n: u64) -> Vec<SpacetimeBlock> {
    let addresses = (n as f64).sqrt() as u64;
    (0..n).map(|i| block(16 * (i % addresses), 10 * (i / addresses), 10 * (i / addresses) + 5, b"A0010 24 000123-".to_vec())).collect()
}

/// A search of some bytes, each alone, that are found as often here as there.
fn time_bytes(name: &str, b: &Both, bytes: &[u8], scratch: &mut [u8]) {
    let q = Queries { of: bytes.chunks(1).collect(), len: 1 };
    let (ours, theirs) = rows(b, &q, scratch);
    assert_eq!(ours, theirs);
    let places = ours as f64 / bytes.len() as f64;
    let (port, rust) = measured(b, &q, scratch);
    println!("{name:36} {places:9.0} {port:11.1} {rust:11.1} {:8.2} {:9.1} {:9.1}", rust / port, 1e3 * port / places, 1e3 * rust / places);
}

fn frequent_bytes(scratch: &mut [u8]) {
    println!("{:36} {:>9} {:>11} {:>11} {:>8} {:>9} {:>9}", "a byte, microseconds", "places", "port", "published", "times", "ns each", "published");
    for (characters, n) in [(36, 900), (36, 2_700), (36, 9_000), (12, 9_000), (4, 10_000), (2, 15_000), (2, 50_000)] {
        let b = both(&blocks_over(&CHARACTERS[..characters], n, 16, 64));
        time_bytes(&format!("{n} blocks over {characters} characters"), &b, &CHARACTERS[..characters.min(4)], scratch);
    }
    for n in [167, 500, 1_667, 5_000, 16_667, 50_000, 166_667] {
        let b = both(&labels(n));
        for (digit, often) in [(b"4", "once"), (b"2", "twice"), (b"0", "six times")] {
            time_bytes(&format!("{n} labels, in each {often}"), &b, digit, scratch);
        }
    }
}

fn usual_queries(scratch: &mut [u8]) {
    println!("{:36} {:>11} {:>11} {:>8}   rows of 41, port and published", "3,000 blocks, microseconds", "port", "published", "times");
    let made = blocks(3000, 16, 64);
    let (text, b) = (text_of(&made), both(&made));
    for (len, _) in USUAL {
        let q = Queries { of: queries(&text, len), len };
        let (port, rust) = measured(&b, &q, scratch);
        let (ours, theirs) = rows(&b, &q, scratch);
        println!("{:36} {port:11.2} {rust:11.2} {:8.2}   {ours} {theirs}", format!("{len} bytes"), rust / port);
    }
}

fn main() {
    let mut scratch = vec![1u8; 256 << 20];
    many_lives(&mut scratch);
    many_addresses(&mut scratch);
    scarce_scratch(&mut scratch);
    frequent_bytes(&mut scratch);
    usual_queries(&mut scratch);
}
