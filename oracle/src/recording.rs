//! Recordings: lists of calls, written in the forms of `places`, and where document 01 says that the Rust is met.
use std::collections::{HashMap, HashSet};
use std::fmt;

#[derive(Clone, Copy, Debug, PartialEq, Eq, PartialOrd, Ord, Hash)]
pub struct Location {
    pub address: u64,
    pub created: u64,
    pub destroyed: u64,
}

impl Location {
    pub fn new(address: u64, created: u64, destroyed: u64) -> Self {
        Self { address, created, destroyed }
    }

    pub fn moved(self, by: usize) -> Self {
        Self { address: self.address.wrapping_add(by as u64), ..self }
    }

    pub fn shares_a_tick(&self, created: u64, destroyed: u64) -> bool {
        self.created < destroyed && created < self.destroyed
    }
}

#[derive(Clone, Debug, PartialEq, Eq)]
pub struct Block {
    pub kind: u64,
    pub at: Location,
    pub bytes: Vec<u8>,
}

/// These bytes, there and then; at most 16 of them.
#[derive(Clone, Debug, PartialEq, Eq)]
pub struct Piece {
    pub at: Location,
    pub bytes: Vec<u8>,
}

impl Block {
    pub fn memory(address: u64, created: u64, destroyed: u64, bytes: &[u8]) -> Self {
        Self { kind: 1, at: Location::new(address, created, destroyed), bytes: bytes.to_vec() }
    }

    /// The pieces, the hindmost first; an empty block is one empty piece.
    pub fn pieces(&self) -> Vec<Piece> {
        if self.bytes.is_empty() {
            return vec![Piece { at: self.at, bytes: Vec::new() }];
        }
        self.bytes.chunks(16).enumerate().map(|(i, c)| Piece { at: self.at.moved(16 * i), bytes: c.to_vec() }).rev().collect()
    }

    /// As it stands in a stream: kind, address, length, ticks, data. A kind over 255 has no byte there.
    pub fn encoded(&self) -> Vec<u8> {
        let mut bytes = vec![u8::try_from(self.kind).unwrap()];
        for n in [self.at.address, self.bytes.len() as u64, self.at.created, self.at.destroyed] {
            bytes.extend(n.to_le_bytes());
        }
        bytes.extend(&self.bytes);
        bytes
    }

    pub fn nodes_charged(&self) -> u64 {
        self.pieces().iter().map(|p| p.bytes.len() as u64).map(|m| m * (m + 1) / 2).sum()
    }

    pub fn entries_charged(&self) -> u64 {
        self.pieces().iter().map(|p| p.bytes.len() as u64).map(|m| if m == 0 { 1 } else { 2 * m }).sum()
    }
}

#[derive(Clone, Debug, PartialEq, Eq)]
pub enum Call {
    Record(Block),
    Finish,
    Find(Vec<u8>),
    Save,
}

#[derive(Clone, Debug)]
pub struct Recording {
    pub nodes: u64,
    pub entries: u64,
    pub calls: Vec<Call>,
}

pub fn hex(bytes: &[u8]) -> String {
    bytes.iter().map(|b| format!("{b:02x}")).collect()
}

impl fmt::Display for Call {
    fn fmt(&self, f: &mut fmt::Formatter) -> fmt::Result {
        match self {
            Call::Record(b) => write!(f, "(block {} {} {} {} ({}))", b.kind, b.at.address, b.at.created, b.at.destroyed, hex(&b.bytes)),
            Call::Finish => write!(f, "(finish)"),
            Call::Find(q) => write!(f, "(find ({}))", hex(q)),
            Call::Save => write!(f, "(save)"),
        }
    }
}

impl fmt::Display for Recording {
    fn fmt(&self, f: &mut fmt::Formatter) -> fmt::Result {
        writeln!(f, "capacity: {} nodes, {} entries", self.nodes, self.entries)?;
        self.calls.iter().try_for_each(|c| writeln!(f, "{c}"))
    }
}

/// What is known of some Memory blocks: whether they are consistent, and whether the Rust's rows and images are met.
#[derive(Clone)]
pub struct Domain {
    lives: HashMap<u64, Vec<(u64, u64)>>,
    firsts: HashSet<(u64, u8)>,
    lasts: HashSet<(u64, u8)>,
    empties: HashSet<(u64, u64)>,
    /// No two blocks share a byte address and a live tick.
    pub consistent: bool,
    /// Pieces that begin at one address have different first bytes, pieces that end at one address different last bytes.
    pub ends_differ: bool,
    /// No two empty blocks share address and created_at.
    pub empties_differ: bool,
}

impl Default for Domain {
    fn default() -> Self {
        Self { lives: HashMap::new(), firsts: HashSet::new(), lasts: HashSet::new(), empties: HashSet::new(), consistent: true, ends_differ: true, empties_differ: true }
    }
}

impl Domain {
    pub fn of(blocks: &[Block]) -> Self {
        let mut d = Self::default();
        blocks.iter().for_each(|b| d.add(b));
        d
    }

    pub fn of_pieces(pieces: &[Piece]) -> Self {
        let blocks: Vec<Block> = pieces.iter().map(|p| Block { kind: 1, at: p.at, bytes: p.bytes.clone() }).collect();
        Self::of(&blocks)
    }

    pub fn keeps_consistent(&self, b: &Block) -> bool {
        (0..b.bytes.len()).all(|i| self.lives.get(&b.at.moved(i).address).is_none_or(|l| l.iter().all(|&(c, d)| !b.at.shares_a_tick(c, d))))
    }

    pub fn keeps_ends(&self, b: &Block) -> bool {
        b.pieces().iter().filter(|p| !p.bytes.is_empty()).all(|p| !self.firsts.contains(&first(p)) && !self.lasts.contains(&last(p)))
    }

    pub fn add(&mut self, b: &Block) {
        self.consistent &= self.keeps_consistent(b);
        self.ends_differ &= self.keeps_ends(b);
        for i in 0..b.bytes.len() {
            self.lives.entry(b.at.moved(i).address).or_default().push((b.at.created, b.at.destroyed));
        }
        for p in b.pieces() {
            if p.bytes.is_empty() {
                self.empties_differ &= self.empties.insert((p.at.address, p.at.created));
            } else {
                self.firsts.insert(first(&p));
                self.lasts.insert(last(&p));
            }
        }
    }

    /// Whether the Rust's rows are to be ours, for a query of n bytes.
    pub fn rows_met(&self, n: usize) -> bool {
        self.consistent && (n <= 1 || self.ends_differ)
    }

    /// Whether the Rust's image is to be ours.
    pub fn image_met(&self) -> bool {
        self.consistent && self.empties_differ
    }
}

fn first(p: &Piece) -> (u64, u8) {
    (p.at.address, p.bytes[0])
}

fn last(p: &Piece) -> (u64, u8) {
    (p.at.moved(p.bytes.len()).address, p.bytes[p.bytes.len() - 1])
}
