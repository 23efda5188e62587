//! Recordings from a seed.
use crate::level::Level;
use crate::model::Bytes;
use crate::number::{check, CHARACTERS, NUMBER_SIZE};
use crate::random::Random;
use crate::recording::{Block, Call, Domain, Location, Recording};

/// What the Memory blocks of a recording are to be.
#[derive(Clone, Copy, Debug, PartialEq)]
pub enum Want {
    /// consistent, pieces with different ends: the Rust's rows are to be ours
    Met,
    /// consistent
    Consistent,
    /// anything; from request 2 on those that conflict with one before them are turned back
    Any,
}

pub struct Maker {
    pub level: Level,
    pub r: Random,
    want: Want,
    alphabet: Vec<u8>,
    /// bytes that come again, so that a query has several rows
    text: Vec<u8>,
    least: u64,
    span: u64,
    first_tick: u64,
    ticks: u64,
    domain: Domain,
    pub blocks: Vec<Block>,
    /// records among the others that conflict with a block before them, or nearly
    conflicts: bool,
    /// the bytes are characters of donation numbers, and whole numbers are looked for
    numbers: bool,
}

/// So many different bytes, in any order.
pub fn alphabet(r: &mut Random, n: usize) -> Vec<u8> {
    some_of(r, (0..=255).collect(), n)
}

fn some_of(r: &mut Random, mut all: Vec<u8>, n: usize) -> Vec<u8> {
    r.shuffle(&mut all);
    all.truncate(n);
    all
}

/// A number typed with its check character: the query's first 13 bytes, with more behind them where it is shorter. Most are
/// right if all of these are characters; the others have a place changed, neighbours exchanged, small letters or another length.
pub fn typed(r: &mut Random, q: &[u8]) -> Vec<u8> {
    let mut typed = q[..q.len().min(NUMBER_SIZE)].to_vec();
    typed.resize_with(NUMBER_SIZE, || r.pick(&CHARACTERS[..36]));
    let last = check(&typed).unwrap_or(b'0');
    typed.push(last);
    let at = r.below(NUMBER_SIZE as u64 + 1) as usize;
    let next = (at + 1) % typed.len();
    match r.below(12) {
        0 => typed[at] = r.pick(CHARACTERS),
        1 => typed[at] = r.next() as u8,
        2 => typed.swap(at, next),
        3 => typed.make_ascii_lowercase(),
        4 => typed.truncate(at),
        5 => typed.extend(r.bytes(at + 1)),
        _ => {}
    }
    typed
}

impl Maker {
    pub fn new(level: Level, mut r: Random, want: Want) -> Self {
        let letters = r.pick(&[1, 2, 2, 3, 4, 8, 9, 20, 40, 96, 97, 256, 256]);
        let alphabet = alphabet(&mut r, letters);
        let n = r.between(1, 40) as usize;
        let text = (0..n).map(|_| r.pick(&alphabet)).collect();
        let span = r.pick(&[4, 20, 20, 60, 200, 1000]);
        // the last byte of a block can stand at 2^64 - 2
        let least = r.pick(&[0, 0, 1, 100, 1 << 32, u64::MAX - span, u64::MAX - span, u64::MAX - span / 2]);
        let ticks = r.pick(&[2, 4, 10, 10, 50, 1000]);
        let first_tick = r.pick(&[0, 0, 1, 1 << 40, u64::MAX - ticks]);
        Self { level, r, want, alphabet, text, least, span, first_tick, ticks, domain: Domain::default(), blocks: Vec::new(), conflicts: false, numbers: false }
    }

    /// From here on the bytes are characters of donation numbers.
    fn make_numbers(&mut self) {
        let letters = self.r.pick(&[1, 2, 4, 36]);
        self.alphabet = some_of(&mut self.r, CHARACTERS[..36].to_vec(), letters);
        self.numbers = true;
        let n = self.r.between(NUMBER_SIZE as u64, 40) as usize;
        self.text = (0..n).map(|_| self.r.pick(&self.alphabet)).collect();
    }

    fn length(&mut self) -> usize {
        match self.r.below(100) {
            0..=4 => 0,
            5..=29 => 1,
            30..=64 => self.r.between(2, 5) as usize,
            65..=79 => self.r.between(6, 14) as usize,
            80..=91 => self.r.pick(&[15, 16, 17, 31, 32, 33]),
            _ => self.r.between(18, 100) as usize,
        }
    }

    pub fn bytes(&mut self, n: usize, address: u64) -> Vec<u8> {
        let from_text = self.r.once_in(3);
        let t = self.text.len() as u64;
        (0..n as u64).map(|i| if from_text { self.text[(address.wrapping_add(i) % t) as usize] } else { self.r.pick(&self.alphabet) }).collect()
    }

    /// Near a block that is there, mostly: behind it, before it, or in its place.
    fn address(&mut self, near: Option<&Block>, n: usize) -> u64 {
        let anywhere = self.least.saturating_add(self.r.below(self.span));
        let Some(b) = near else { return anywhere };
        match self.r.below(10) {
            0..=4 => b.at.moved(b.bytes.len()).address,
            5 => b.at.address.saturating_sub(n as u64),
            6 | 7 => b.at.address,
            _ => anywhere,
        }
    }

    fn life(&mut self, near: Option<&Block>) -> (u64, u64) {
        let a = self.first_tick + self.r.below(self.ticks);
        let b = self.first_tick + self.r.below(self.ticks);
        let (c, d) = (a.min(b), a.max(b).saturating_add(1));
        let Some(n) = near else { return (c, d) };
        match self.r.below(8) {
            0..=2 => (n.at.created, n.at.destroyed),
            // lives that touch
            3 => (n.at.destroyed, n.at.destroyed.saturating_add(self.r.between(1, 5))),
            4 => (n.at.created.saturating_sub(self.r.between(1, 5)), n.at.created),
            _ => (c, d),
        }
    }

    fn fits(&self, b: &Block) -> bool {
        b.at.created < b.at.destroyed
            && b.at.address.checked_add(b.bytes.len() as u64).is_some()
            && (self.want == Want::Any || self.domain.keeps_consistent(b))
            && (self.want != Want::Met || self.domain.keeps_ends(b))
    }

    /// Adds a block if it is one that is wanted.
    pub fn add(&mut self, b: Block) -> bool {
        let fits = self.fits(&b);
        if fits {
            self.domain.add(&b);
            self.blocks.push(b);
        }
        fits
    }

    pub fn add_one(&mut self) {
        for _ in 0..8 {
            let near = if self.blocks.is_empty() { None } else { Some(self.blocks[self.r.below(self.blocks.len() as u64) as usize].clone()) };
            let n = self.length();
            let address = self.address(near.as_ref(), n);
            let (created, destroyed) = self.life(near.as_ref());
            let mut b = Block { kind: 1, at: Location::new(address, created, destroyed), bytes: self.bytes(n, address) };
            if let Some(old) = near.filter(|_| self.want != Want::Met && self.r.once_in(5)) {
                // the same bytes in the same place once more, at other ticks or even at the same, or just the first of them
                let all = old.bytes.len();
                let n = if self.r.once_in(3) { self.r.below(all as u64 + 1) as usize } else { all };
                b.bytes = old.bytes[..n].to_vec();
                b.at.address = old.at.address;
            }
            if self.add(b) {
                return;
            }
        }
    }

    /// A text side by side in many blocks that share a tick, so that a query runs over many pieces.
    pub fn add_chain(&mut self, count: usize, longest: u64) {
        let middle = self.first_tick.saturating_add(self.ticks / 2).min(u64::MAX - 1);
        let mut chain = Vec::new();
        let mut address = self.least;
        for _ in 0..count {
            let n = self.r.between(1, longest) as usize;
            let created = middle - self.r.below(3).min(middle);
            let destroyed = middle.saturating_add(self.r.between(1, 4));
            let bytes = self.bytes(n, address);
            chain.push(Block { kind: 1, at: Location::new(address, created, destroyed), bytes });
            address = address.wrapping_add(n as u64);
            // the same place again, from where the life before ends
            if self.r.once_in(3) {
                let bytes = self.bytes(n, address);
                chain.push(Block { kind: 1, at: Location::new(address.wrapping_sub(n as u64), destroyed, destroyed.saturating_add(3)), bytes });
            }
        }
        self.r.shuffle(&mut chain);
        chain.into_iter().for_each(|b| {
            self.add(b);
        });
    }

    /// Blocks of a common front and one more byte: the node at the end of the front gets n children.
    pub fn add_fan(&mut self, n: usize, front: usize) {
        let front = self.bytes(front, 0);
        let step = front.len() as u64 + 1 + self.r.below(2);
        let first = self.least.min(u64::MAX - 300 * 18);
        for (i, last) in alphabet(&mut self.r, n).into_iter().enumerate() {
            let (created, destroyed) = self.life(None);
            let bytes = [&front[..], &[last]].concat();
            self.add(Block { kind: 1, at: Location::new(first + step * i as u64, created, destroyed), bytes });
        }
    }

    /// A label buffer: so many bytes, written anew each round while the former label ends, cut the same way or anew. Its pieces begin
    /// and end alike again and again.
    pub fn add_label(&mut self, size: usize, rounds: u64, same_cut: bool) {
        self.want = Want::Consistent;
        let first = self.least.min(u64::MAX - size as u64);
        let mut cuts = self.cuts(size);
        let mut tick = self.first_tick.min(u64::MAX - 8 * rounds);
        for _ in 0..rounds {
            let end = tick + self.r.between(1, 8);
            for w in cuts.windows(2) {
                let bytes = self.bytes(w[1] - w[0], first + w[0] as u64);
                self.add(Block { kind: 1, at: Location::new(first + w[0] as u64, tick, end), bytes });
            }
            tick = end;
            if !same_cut {
                cuts = self.cuts(size);
            }
        }
    }

    /// Where so many bytes are cut into blocks, from 0 to all of them.
    fn cuts(&mut self, size: usize) -> Vec<usize> {
        let longest = self.r.pick(&[1, 3, 8, 20]);
        let mut cuts = vec![0];
        while let Some(at) = cuts.last().copied().filter(|at| *at < size) {
            cuts.push(size.min(at + self.r.between(1, longest) as usize));
        }
        cuts
    }

    /// A block of 4,096 bytes.
    pub fn add_longest(&mut self) {
        let address = self.least.min(u64::MAX - 4096);
        let (created, destroyed) = self.life(None);
        let bytes = self.bytes(4096, address);
        self.add(Block { kind: 1, at: Location::new(address, created, destroyed), bytes });
    }

    /// A record call that is refused, or taken without a change.
    fn other_record(&mut self) -> Block {
        let n = self.length();
        let address = self.address(None, n);
        let (created, destroyed) = self.life(None);
        let mut b = Block { kind: 1, at: Location::new(address, created, destroyed), bytes: self.bytes(n, address) };
        let faults = self.r.pick(&[1, 1, 2, 3]);
        self.spoil(&mut b, faults);
        if b.kind == 1 && b.at.created < b.at.destroyed && b.at.address.checked_add(b.bytes.len() as u64).is_some() && b.bytes.len() <= 4096 {
            b.kind = 2;
        }
        b
    }

    /// So many faults, one or several at once: the order of the checks shows.
    fn spoil(&mut self, b: &mut Block, faults: usize) {
        for _ in 0..faults {
            match self.r.below(6) {
                0 => b.at.destroyed = b.at.created - self.r.below(2).min(b.at.created),
                1 => b.at.address = u64::MAX - (b.bytes.len() as u64).saturating_sub(1) / 2,
                2 => b.bytes = self.r.bytes(4097),
                3 => b.kind = self.r.pick(&[5, 6, 255, 256, 1 << 32, (1 << 32) + 1, u64::MAX]),
                _ => b.kind = self.r.pick(&[0, 2, 3, 4]),
            }
        }
    }

    /// From..end of so many numbers that has one of old..old_end in it, or just touches it: at its first, at its last, or somewhere.
    fn near(&mut self, old: u64, old_end: u64, n: u64) -> u64 {
        let inside = old + self.r.below((old_end - old).max(1));
        match self.r.below(8) {
            0 => old.saturating_sub(n),
            1 => old.saturating_sub(n.saturating_sub(1)),
            2 => old_end.saturating_sub(1),
            3 => old_end,
            _ => inside.saturating_sub(self.r.below(n.max(1))),
        }
    }

    /// A record that conflicts with a block before it, mostly: some only touch it, some are empty or have other faults besides.
    fn conflicting_record(&mut self, before: &Block) -> Block {
        let n = if self.r.once_in(6) { before.bytes.len() } else { self.length() };
        let address = self.near(before.at.address, before.at.moved(before.bytes.len()).address, n as u64);
        let ticks = self.r.pick(&[1, 1, 2, 5, before.at.destroyed - before.at.created]);
        let created = self.near(before.at.created, before.at.destroyed, ticks);
        let bytes = if n == before.bytes.len() && self.r.once_in(2) { before.bytes.clone() } else { self.bytes(n, address) };
        let mut b = Block { kind: 1, at: Location::new(address, created, created.saturating_add(ticks)), bytes };
        let faults = self.r.pick(&[0, 0, 0, 0, 0, 1, 2]);
        self.spoil(&mut b, faults);
        b
    }

    /// A query cut from the blocks at a tick, or from address to address at any ticks, which no tick need bear out.
    fn cut(&mut self, held: &Bytes, n: usize) -> Vec<u8> {
        let full: Vec<usize> = (0..self.blocks.len()).filter(|i| !self.blocks[*i].bytes.is_empty()).collect();
        if full.is_empty() {
            return self.r.bytes(n);
        }
        let b = &self.blocks[self.r.pick(&full)];
        let (tick, start) = (b.at.created + self.r.below(b.at.destroyed - b.at.created), self.r.below(b.bytes.len() as u64));
        let address = b.at.address + start;
        let at_one_tick = !self.r.once_in(6);
        let mut q = Vec::new();
        while q.len() < n {
            let there: Vec<u8> = held.at(address.wrapping_add(q.len() as u64)).iter().filter(|x| !at_one_tick || (x.0 <= tick && tick < x.1)).map(|x| x.2).collect();
            if there.is_empty() {
                break;
            }
            q.push(self.r.pick(&there));
        }
        q
    }

    pub fn query(&mut self, held: &Bytes) -> Vec<u8> {
        if self.numbers && self.r.once_in(2) {
            return self.cut(held, NUMBER_SIZE);
        }
        let n = match self.r.below(20) {
            0 => return Vec::new(),
            1 => return self.r.bytes(257),
            2..=5 => 1,
            6..=9 => 2,
            10..=14 => self.r.between(3, 9) as usize,
            15 | 16 => self.r.between(10, 40) as usize,
            17 => self.r.between(41, 256) as usize,
            _ => 256,
        };
        let mut q = self.cut(held, n);
        match self.r.below(10) {
            0 if !q.is_empty() => {
                let i = self.r.below(q.len() as u64) as usize;
                q[i] = self.r.pick(&self.alphabet);
            }
            1 if q.len() < 256 => q.push(self.r.pick(&self.alphabet)),
            2 => q = (0..n).map(|_| self.r.pick(&self.alphabet)).collect(),
            _ => {}
        }
        q
    }

    /// The nodes and entries that the blocks charge, the root's node among them.
    pub fn charges(&self) -> (u64, u64) {
        (1 + self.blocks.iter().map(Block::nodes_charged).sum::<u64>(), self.blocks.iter().map(Block::entries_charged).sum())
    }

    /// A capacity that holds all blocks, just or with room; now and then it holds some of them only.
    fn capacity(&mut self) -> (u64, u64) {
        let (nodes, entries) = self.charges();
        let mut room = |n: u64| match self.r.below(10) {
            0 | 1 => n,
            2 => n - self.r.below(n / 2 + 1),
            _ => n + self.r.below(40),
        };
        (room(nodes).clamp(1, 1 << 20), room(entries).clamp(1, 1 << 20))
    }

    /// The calls: blocks, other records among them, a finish or two, queries, also too early ones, and records too late.
    pub fn recording(&mut self, queries: usize) -> Recording {
        let (nodes, entries) = self.capacity();
        let held = Bytes::of(&self.blocks);
        let mut calls = Vec::new();
        let blocks = self.blocks.clone();
        for (i, b) in blocks.iter().enumerate() {
            if self.r.once_in(8) {
                calls.push(Call::Record(self.other_record()));
            }
            calls.push(Call::Record(b.clone()));
            // near this one, mostly, or near any before it
            for _ in 0..if self.conflicts { self.r.pick(&[0, 0, 1, 2]) } else { 0 } {
                let before = if self.r.once_in(2) { i } else { self.r.below(i as u64 + 1) as usize };
                calls.push(Call::Record(self.conflicting_record(&blocks[before])));
            }
        }
        if self.r.once_in(4) {
            calls.push(Call::Find(self.query(&held)));
            calls.push(Call::Save);
        }
        calls.push(Call::Finish);
        calls.push(Call::Save);
        for _ in 0..queries {
            calls.push(Call::Find(self.query(&held)));
            if self.r.once_in(20) {
                calls.push(Call::Record(self.other_record()));
            }
            if self.r.once_in(20) {
                calls.push(Call::Finish);
            }
        }
        Recording { nodes, entries, calls }
    }
}

/// Small recordings of which every bit is damaged: document 01's first, fifth, eighth and thirteenth, one with conflicting blocks,
/// and one with empty blocks and nodes of kind 2.
pub fn small() -> Vec<Recording> {
    let b = Block::memory;
    let nine: Vec<Block> = (0..9).map(|i| b(i, 1, 2, &[9 - i as u8])).collect();
    let up: Vec<u8> = (0..17).collect();
    let lists: [(Vec<Block>, &[u8]); 7] = [
        (Vec::new(), b"a"),
        (vec![b(5, 1, 2, b"a")], b"a"),
        (vec![b(100, 10, 50, b"abc"), b(103, 10, 30, b"de"), b(103, 30, 50, b"de")], b"cd"),
        (vec![b(0, 1, 5, b"ab"), b(2, 5, 9, b"c")], b"abc"),
        (vec![b(200, 1, 2, &up)], &up[15..]),
        // the third and the fourth conflict with the first, the last with none
        (vec![b(9, 1, 5, b"ab"), b(3, 2, 9, b"x"), b(10, 4, 6, b"c"), b(9, 1, 5, b"ab"), b(10, 5, 9, b"c")], b"ab"),
        ([vec![b(u64::MAX, 1, 2, b""), b(7, 1, 2, b""), b(7, 2, 3, b"")], nine].concat(), &[9, 8, 7]),
    ];
    lists.into_iter().map(|(blocks, q)| small_recording(blocks, q)).collect()
}

fn small_recording(blocks: Vec<Block>, q: &[u8]) -> Recording {
    let nodes = 1 + blocks.iter().map(Block::nodes_charged).sum::<u64>();
    let entries = blocks.iter().map(Block::entries_charged).sum::<u64>().max(1);
    let records = blocks.into_iter().map(Call::Record);
    let calls = records.chain([Call::Finish, Call::Save, Call::Find(q.to_vec())]).collect();
    Recording { nodes, entries, calls }
}

/// The recording of a seed and a number.
pub fn make(level: Level, seed: u64, number: u64) -> Recording {
    let mut r = Random::new(seed.wrapping_mul(0x2545f4914f6cdd1d) ^ number.wrapping_mul(0x9e3779b97f4a7c15));
    let want = r.pick(&[Want::Met, Want::Met, Want::Met, Want::Met, Want::Consistent, Want::Consistent, Want::Consistent, Want::Any, Want::Any]);
    let conflicts = level.has(2) && r.once_in(4);
    let mut m = Maker::new(level, r, want);
    m.conflicts = conflicts;
    if level.has(3) && m.r.once_in(5) {
        m.make_numbers();
    }
    // the largest capacity, all but used up
    if number % 5000 == 2499 {
        m.least = 1 << 20;
        m.alphabet = alphabet(&mut m.r, 256);
        for k in 0..30 {
            m.least += 4096 + k % 2;
            m.add_longest();
        }
        let mut rec = m.recording(4);
        (rec.nodes, rec.entries) = (1 << 20, 1 << 20);
        return rec;
    }
    // a large label buffer: many lives at each address
    if number % 1000 == 499 {
        m.conflicts = level.has(2);
        let same_cut = m.r.once_in(2);
        m.add_label(64, 300, same_cut);
        return m.recording(8);
    }
    // a few large ones
    if number % 1000 == 999 {
        m.conflicts = level.has(2) && m.r.once_in(2);
        let count = m.r.between(2000, 4000) as usize;
        m.span = 1 << 20;
        m.least = m.least.min(1 << 32);
        m.alphabet = alphabet(&mut m.r, 36);
        for _ in 0..count / 100 {
            m.least += 20_000;
            m.add_chain(50, 24);
            (0..25).for_each(|_| m.add_one());
        }
        return m.recording(24);
    }
    match m.r.below(100) {
        0..=4 => {
            let front = m.r.below(16) as usize;
            let n = m.r.pick(&[1, 7, 8, 9, 10, 95, 96, 97, 98, 255, 256]);
            m.add_fan(n, front);
        }
        5..=14 => {
            let n = m.r.pick(&[8, 9, 10, 95, 96, 96, 97, 97, 98, 256, 256]);
            m.add_fan(n, 0);
        }
        15..=34 => {
            let (count, longest) = m.r.pick(&[(4, 20), (10, 3), (30, 20), (30, 1), (100, 2)]);
            m.add_chain(count, longest);
        }
        35 => m.add_longest(),
        36..=43 => {
            let (size, rounds) = m.r.pick(&[(1, 60), (3, 20), (16, 12), (40, 6)]);
            let same_cut = m.r.once_in(2);
            m.add_label(size, rounds, same_cut);
        }
        _ => {}
    }
    let count = m.r.pick(&[0, 0, 1, 2, 3, 4, 6, 10, 20, 40]);
    (0..count).for_each(|_| m.add_one());
    m.recording(12)
}
