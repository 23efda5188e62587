//! Document 01 once more, slowly: every call as a function on bytes, written from the document and from nothing else, so that
//! the port's answers and the bytes it leaves can be foretold for every input, damaged ones too. A level says which requests it
//! goes by besides.
use crate::level::Level;
use crate::number::typed_number;
use crate::recording::{Block, Location, Piece};
use std::collections::{BTreeSet, HashMap, HashSet};

// ── places and rows ──

/// Later creation, earlier end, if there is a tick between.
fn overlap(p: Location, l: Location) -> Option<Location> {
    let (created, destroyed) = (p.created.max(l.created), p.destroyed.min(l.destroyed));
    (created < destroyed).then_some(Location { address: p.address, created, destroyed })
}

/// The places that a piece at the query's byte i gives; later has the places of the query's later bytes.
fn by_piece(at: Location, bytes: &[u8], q: &[u8], i: usize, later: &[HashMap<u64, Vec<Location>>], found: &mut BTreeSet<Location>) {
    let rest = &q[i..];
    if bytes.starts_with(rest) {
        found.insert(at);
    } else if !bytes.is_empty() && rest.starts_with(bytes) {
        let next = at.address + bytes.len() as u64;
        let joined = later[i + bytes.len()].get(&next).into_iter().flatten();
        found.extend(joined.filter_map(|l| overlap(at, *l)));
    }
}

/// T(0) to T(n-1): for i >= 1 the first piece begins at the query's byte i, for i = 0 it may begin earlier.
pub fn places(pieces: &[Piece], q: &[u8]) -> Vec<BTreeSet<Location>> {
    let mut t = vec![BTreeSet::new(); q.len()];
    let mut later: Vec<HashMap<u64, Vec<Location>>> = vec![HashMap::new(); q.len()];
    for i in (0..q.len()).rev() {
        for p in pieces {
            for skip in 0..if i == 0 { p.bytes.len() } else { p.bytes.len().min(1) } {
                by_piece(p.at.moved(skip), &p.bytes[skip..], q, i, &later, &mut t[i]);
            }
        }
        for l in &t[i] {
            later[i].entry(l.address).or_default().push(*l);
        }
    }
    t
}

/// One pass over T(0): while the next has the same address and is created at the current end, the end becomes the next one's.
fn combined(t0: &BTreeSet<Location>) -> Vec<Location> {
    let mut rows: Vec<Location> = Vec::new();
    for l in t0 {
        match rows.last_mut() {
            Some(r) if r.address == l.address && r.destroyed == l.created => r.destroyed = l.destroyed,
            _ => rows.push(*l),
        }
    }
    rows
}

/// What a query comes to in a finished index: the sizes of all T(i) together, and the rows.
pub struct Foretold {
    pub places: u64,
    pub rows: Vec<Location>,
}

pub fn foretell(pieces: &[Piece], q: &[u8]) -> Foretold {
    let t = places(pieces, q);
    Foretold { places: t.iter().map(|s| s.len() as u64).sum(), rows: t.first().map_or(Vec::new(), combined) }
}

impl Foretold {
    /// The answer behind check 9, by bytes of scratch and rows in the lent slice.
    pub fn answer(&self, scratch: usize, room: usize) -> u64 {
        if (scratch as u64) / 24 < self.places {
            10
        } else if room < self.rows.len() {
            11
        } else {
            0
        }
    }
}

// ── longest runs, tick by tick ──

/// The bytes of some blocks, by address: created, destroyed, byte.
pub struct Bytes(pub HashMap<u64, Vec<(u64, u64, u8)>>);

impl Bytes {
    pub fn of(blocks: &[Block]) -> Self {
        let mut held: HashMap<u64, Vec<(u64, u64, u8)>> = HashMap::new();
        for b in blocks {
            for (i, x) in b.bytes.iter().enumerate() {
                held.entry(b.at.moved(i).address).or_default().push((b.at.created, b.at.destroyed, *x));
            }
        }
        Self(held)
    }

    pub fn at(&self, address: u64) -> &[(u64, u64, u8)] {
        self.0.get(&address).map_or(&[], |l| l)
    }

    /// Each byte of the query is held at its address and this tick; a sum over 2^64 - 1 holds none.
    fn stands(&self, q: &[u8], a: u64, tick: u64) -> bool {
        q.iter().enumerate().all(|(i, x)| a.checked_add(i as u64).is_some_and(|a| self.at(a).iter().any(|&(c, d, y)| c <= tick && tick < d && y == *x)))
    }

    /// The longest runs at an address: what stands can change at a creation or an end of one of its bytes only.
    fn runs_at(&self, q: &[u8], a: u64, runs: &mut Vec<Location>) {
        let mut ticks = BTreeSet::new();
        for i in 0..q.len() as u64 {
            for (c, d, _) in a.checked_add(i).map_or(&[][..], |a| self.at(a)) {
                ticks.extend([*c, *d]);
            }
        }
        let mut since = None;
        for t in ticks {
            match (since, self.stands(q, a, t)) {
                (None, true) => since = Some(t),
                (Some(c), false) => {
                    runs.push(Location::new(a, c, t));
                    since = None;
                }
                _ => {}
            }
        }
    }

    /// All longest runs of a query, by address and then by first tick.
    pub fn runs(&self, q: &[u8]) -> Vec<Location> {
        let mut runs = Vec::new();
        let Some(first) = q.first() else { return runs };
        let mut starts: Vec<u64> = self.0.iter().filter(|(_, l)| l.iter().any(|x| x.2 == *first)).map(|(a, _)| *a).collect();
        starts.sort_unstable();
        starts.iter().for_each(|a| self.runs_at(q, *a, &mut runs));
        runs
    }
}

// ── the trie ──

#[derive(Clone, Default, Debug, PartialEq, Eq)]
pub struct Node {
    /// prefixes, chunks, suffixes
    lists: [Vec<Location>; 3],
    /// in the order of arrival; by byte where there are more than 96, since an image has no other order for them
    children: Vec<(u8, Node)>,
}

const PREFIXES: usize = 0;
const CHUNKS: usize = 1;
const SUFFIXES: usize = 2;

impl Node {
    fn child(&mut self, byte: u8) -> &mut Node {
        let i = self.children.iter().position(|c| c.0 == byte).unwrap_or_else(|| {
            self.children.push((byte, Node::default()));
            self.children.len() - 1
        });
        &mut self.children[i].1
    }

    fn insert(&mut self, path: &[u8], at: Location, whole: bool) {
        let mut node = self;
        for b in path {
            if whole {
                node.lists[SUFFIXES].push(at);
            }
            node = node.child(*b);
        }
        node.lists[if whole { CHUNKS } else { PREFIXES }].push(at);
    }

    fn finish(&mut self) {
        for l in &mut self.lists {
            l.sort_unstable();
            l.dedup();
        }
        if self.children.len() > 96 {
            self.children.sort_by_key(|c| c.0);
        }
        self.children.iter_mut().for_each(|c| c.1.finish());
    }

    pub fn nodes(&self) -> u64 {
        1 + self.children.iter().map(|c| c.1.nodes()).sum::<u64>()
    }

    pub fn entries(&self) -> u64 {
        self.lists.iter().map(|l| l.len() as u64).sum::<u64>() + self.children.iter().map(|c| c.1.entries()).sum::<u64>()
    }

    /// Each child count in the trie, for the figures.
    pub fn child_counts(&self, counts: &mut Vec<usize>) {
        counts.push(self.children.len());
        self.children.iter().for_each(|c| c.1.child_counts(counts));
    }

    fn walk<'a>(&'a self, path: &mut Vec<u8>, visit: &mut dyn FnMut(&[u8], &'a Node)) {
        visit(path, self);
        for (b, c) in &self.children {
            path.push(*b);
            c.walk(path, visit);
            path.pop();
        }
    }

    pub fn pieces(&self) -> Vec<Piece> {
        let mut pieces = Vec::new();
        self.walk(&mut Vec::new(), &mut |path, n| pieces.extend(n.lists[CHUNKS].iter().map(|at| Piece { at: *at, bytes: path.to_vec() })));
        pieces
    }
}

/// The finished trie of pieces, none where there are none.
pub fn trie(pieces: &[Piece]) -> Option<Node> {
    let mut root = None;
    for p in pieces {
        let root = root.get_or_insert_with(Node::default);
        for i in 1..p.bytes.len() {
            root.insert(&p.bytes[i..], p.at.moved(i), false);
        }
        root.insert(&p.bytes, p.at, true);
    }
    if let Some(r) = root.as_mut() {
        r.finish();
    }
    root
}

// ── the image ──

fn put(out: &mut Vec<u8>, n: u64) {
    out.extend_from_slice(&n.to_le_bytes());
}

fn put_at(out: &mut [u8], at: usize, n: u64) {
    out[at..at + 8].copy_from_slice(&n.to_le_bytes());
}

fn write_child(node: Option<&Node>, offset_at: usize, out: &mut Vec<u8>) {
    let here = out.len() as u64;
    put_at(out, offset_at, here);
    out.push(node.is_some() as u8);
    if let Some(n) = node {
        write_node(n, out);
    }
}

fn write_node(node: &Node, out: &mut Vec<u8>) {
    let n = node.children.len();
    out.push(if n <= 8 { 3 } else if n <= 96 { 2 } else { 1 });
    for l in &node.lists {
        put(out, l.len() as u64);
        l.iter().for_each(|x| [x.address, x.created, x.destroyed].iter().for_each(|y| put(out, *y)));
    }
    if n > 96 {
        let table = out.len();
        out.resize(table + 256 * 8, 0);
        for b in 0..256 {
            write_child(node.children.iter().find(|c| c.0 as usize == b).map(|c| &c.1), table + 8 * b, out);
        }
        return;
    }
    put(out, n as u64);
    let table = out.len();
    for (b, _) in &node.children {
        out.push(*b);
        put(out, 0);
    }
    let mut order: Vec<usize> = (0..n).collect();
    if n > 8 {
        order.sort_by_key(|i| node.children[*i].0);
    }
    for i in order {
        write_child(Some(&node.children[i].1), table + 9 * i + 1, out);
    }
}

pub fn image(root: Option<&Node>) -> Vec<u8> {
    let mut out = Vec::new();
    match root {
        None => out.resize(25, 0),
        Some(r) => write_node(r, &mut out),
    }
    out
}

/// Reads an image in layout order; the first faulty field decides.
struct Reader<'a> {
    s: &'a [u8],
    at: usize,
}

impl Reader<'_> {
    fn byte(&mut self) -> Result<u8, u64> {
        let b = *self.s.get(self.at).ok_or(13u64)?;
        self.at += 1;
        Ok(b)
    }

    fn number(&mut self) -> Result<u64, u64> {
        let n = self.s.get(self.at..self.at + 8).ok_or(13u64)?;
        self.at += 8;
        Ok(u64::from_le_bytes(n.try_into().unwrap()))
    }

    fn list(&mut self) -> Result<Vec<Location>, u64> {
        let n = self.number()?;
        if n > ((self.s.len() - self.at) / 24) as u64 {
            return Err(13);
        }
        (0..n).map(|_| Ok(Location::new(self.number()?, self.number()?, self.number()?))).collect()
    }

    fn child(&mut self, offset: u64, depth: usize, may_lack: bool) -> Result<Option<Node>, u64> {
        if offset != self.at as u64 {
            return Err(15);
        }
        match self.byte()? {
            0 if may_lack => Ok(None),
            1 if depth < 16 => Ok(Some(self.node(depth + 1)?)),
            _ => Err(15),
        }
    }

    fn dense(&mut self, node: &mut Node, depth: usize) -> Result<(), u64> {
        let offsets = (0..256).map(|_| self.number()).collect::<Result<Vec<_>, _>>()?;
        for (b, offset) in offsets.iter().enumerate() {
            if let Some(c) = self.child(*offset, depth, true)? {
                node.children.push((b as u8, c));
            }
        }
        if node.children.len() < 97 { Err(15) } else { Ok(()) }
    }

    fn sparse(&mut self, node: &mut Node, kind: u8, depth: usize) -> Result<(), u64> {
        let n = self.number()?;
        if !(if kind == 3 { 0..=8 } else { 9..=96 }).contains(&n) {
            return Err(15);
        }
        let mut table: Vec<(u8, u64)> = Vec::new();
        for _ in 0..n {
            let b = self.byte()?;
            if table.iter().any(|x| x.0 == b) {
                return Err(15);
            }
            table.push((b, self.number()?));
        }
        let mut order: Vec<usize> = (0..table.len()).collect();
        if kind == 2 {
            order.sort_by_key(|i| table[*i].0);
        }
        node.children = table.iter().map(|x| (x.0, Node::default())).collect();
        for i in order {
            node.children[i].1 = self.child(table[i].1, depth, false)?.unwrap();
        }
        Ok(())
    }

    fn node(&mut self, depth: usize) -> Result<Node, u64> {
        let kind = self.byte()?;
        if !(1..=3).contains(&kind) {
            return Err(14);
        }
        let mut node = Node { lists: [self.list()?, self.list()?, self.list()?], children: Vec::new() };
        if kind == 1 {
            self.dense(&mut node, depth)?;
        } else {
            self.sparse(&mut node, kind, depth)?;
        }
        Ok(node)
    }

    fn root(&mut self) -> Result<Option<Node>, u64> {
        if self.s.first() != Some(&0) {
            return Ok(Some(self.node(0)?));
        }
        self.at = 1;
        for _ in 0..3 {
            if self.number()? != 0 {
                return Err(15);
            }
        }
        Ok(None)
    }
}

/// The finished index rule, in the document's words.
fn meets_rule(root: &Node) -> bool {
    let mut nodes: HashMap<Vec<u8>, &Node> = HashMap::new();
    root.walk(&mut Vec::new(), &mut |path, n| {
        nodes.insert(path.to_vec(), n);
    });
    let mut owed: HashMap<Vec<u8>, [BTreeSet<Location>; 2]> = HashMap::new();
    let mut paths: HashSet<Vec<u8>> = HashSet::from([Vec::new()]);
    for (path, n) in &nodes {
        if n.lists.iter().any(|l| l.windows(2).any(|w| w[0] >= w[1])) {
            return false;
        }
        for at in &n.lists[CHUNKS] {
            if at.created >= at.destroyed || at.address.checked_add(path.len() as u64).is_none() {
                return false;
            }
            for i in 1..path.len() {
                owed.entry(path[i..].to_vec()).or_default()[0].insert(at.moved(i));
            }
            for i in 0..path.len() {
                owed.entry(path[..i].to_vec()).or_default()[1].insert(*at);
            }
        }
        if !n.lists[CHUNKS].is_empty() {
            for i in 0..path.len() {
                paths.extend((i + 1..=path.len()).map(|j| path[i..j].to_vec()));
            }
        }
    }
    owed.keys().all(|p| nodes.contains_key(p))
        && nodes.iter().all(|(p, n)| {
            let owes = |k: usize, l: &Vec<Location>| l.iter().copied().eq(owed.get(p).map_or(BTreeSet::new(), |o| o[k].clone()));
            paths.contains(p) && owes(0, &n.lists[PREFIXES]) && owes(1, &n.lists[SUFFIXES])
        })
}

/// What an image holds, with its nodes and entries, or the number of its refusal.
pub fn judge(level: Level, s: &[u8]) -> Result<(Option<Node>, u64, u64), u64> {
    let mut r = Reader { s, at: 0 };
    let root = r.root()?;
    if r.at != s.len() || !root.as_ref().is_none_or(meets_rule) {
        return Err(15);
    }
    if level.has(2) && !root.as_ref().is_none_or(|n| are_free(&n.pieces())) {
        return Err(18);
    }
    let (nodes, entries) = root.as_ref().map_or((1, 0), |n| (n.nodes(), n.entries()));
    Ok((root, nodes, entries))
}

// ── conflicts (request 2) ──

/// So many bytes at each of two locations share a byte address and a live tick. The greater of the beginnings is below the lesser
/// of the ends, so that no bytes share nothing, even where they stand inside others. No end is over 2^64 - 1.
fn share((l, m): (Location, usize), (k, n): (Location, usize)) -> bool {
    l.address.max(k.address) < (l.address + m as u64).min(k.address + n as u64) && l.created.max(k.created) < l.destroyed.min(k.destroyed)
}

/// Bytes at a location conflict with one of these pieces.
fn conflicts(at: Location, n: usize, pieces: &[Piece]) -> bool {
    pieces.iter().any(|p| share((at, n), (p.at, p.bytes.len())))
}

/// No two of these pieces conflict; the same one twice does.
pub fn are_free(pieces: &[Piece]) -> bool {
    pieces.iter().enumerate().all(|(i, p)| !conflicts(p.at, p.bytes.len(), &pieces[..i]))
}

/// What stands in the work area of an open memory: for each piece that has a byte, by location and then by number, its number in the
/// log and the greatest end so far at its address.
pub fn certificate(pieces: &[Piece]) -> Vec<u8> {
    let mut order: Vec<usize> = (0..pieces.len()).filter(|k| !pieces[*k].bytes.is_empty()).collect();
    order.sort_by_key(|k| (pieces[*k].at, *k));
    let mut out = Vec::with_capacity(16 * order.len());
    let mut before: Option<(u64, u64)> = None;
    for k in order {
        let at = pieces[k].at;
        let reach = before.filter(|b| b.0 == at.address).map_or(at.destroyed, |b| b.1.max(at.destroyed));
        put(&mut out, k as u64);
        put(&mut out, reach);
        before = Some((at.address, reach));
    }
    out
}

// ── the lent memory ──

#[derive(Clone, Debug, PartialEq)]
pub enum Held {
    Broken,
    Open(Vec<Piece>),
    Finished(Option<Node>),
}

/// A lent memory and what it holds.
#[derive(Clone)]
pub struct Memory {
    pub level: Level,
    pub bytes: Vec<u8>,
    pub held: Held,
}

pub fn needed(nodes: u64, entries: u64) -> usize {
    64 + 64 * nodes as usize + 104 * entries as usize
}

/// Where the work area begins, behind header and payload.
pub fn work_at(nodes: u64, entries: u64) -> usize {
    64 + 64 * nodes as usize + 48 * entries as usize
}

fn within_limits(n: u64) -> bool {
    (1..=1_048_576).contains(&n)
}

fn number(bytes: &[u8], at: usize) -> u64 {
    u64::from_le_bytes(bytes[at..at + 8].try_into().unwrap())
}

fn location(bytes: &[u8], at: usize) -> Location {
    Location::new(number(bytes, at), number(bytes, at + 8), number(bytes, at + 16))
}

/// The pieces of an open index's log, if they are sound and the tally is right, and they are free of conflicts and certified.
fn log(level: Level, m: &[u8]) -> Option<Vec<Piece>> {
    let (mut pieces, mut nodes, mut entries) = (Vec::new(), 1, 0);
    for k in 0..number(m, 40) as usize {
        let at = 64 + 48 * k;
        let n = number(m, at);
        let l = location(m, at + 24);
        if n > 16 || l.created >= l.destroyed || l.address.checked_add(n).is_none() {
            return None;
        }
        nodes += n * (n + 1) / 2;
        entries += if n == 0 { 1 } else { 2 * n };
        pieces.push(Piece { at: l, bytes: m[at + 8..at + 8 + n as usize].to_vec() });
    }
    let tallied = number(m, 24) == nodes && number(m, 32) == entries;
    let certified = || m[work_at(number(m, 0), number(m, 8))..].starts_with(&certificate(&pieces)) && are_free(&pieces);
    (tallied && (!level.has(2) || certified())).then_some(pieces)
}

/// What bytes hold: docs/DECISIONS.md has the layout.
pub fn held(level: Level, m: &[u8]) -> Held {
    if m.len() < 64 || !within_limits(number(m, 0)) || !within_limits(number(m, 8)) {
        return Held::Broken;
    }
    let (nodes, entries, phase, payload) = (number(m, 0), number(m, 8), number(m, 16), number(m, 40));
    let most = if phase == 0 { entries } else { 64 * nodes + 48 * entries };
    if m.len() < needed(nodes, entries) || m[48..64] != [0; 16] || phase > 1 || number(m, 24) > nodes || number(m, 32) > entries || payload > most {
        return Held::Broken;
    }
    if phase == 0 {
        return log(level, m).map_or(Held::Broken, Held::Open);
    }
    match judge(level, &m[64..64 + payload as usize]) {
        Ok((root, n, e)) if n == number(m, 24) && e == number(m, 32) => Held::Finished(root),
        _ => Held::Broken,
    }
}

impl Memory {
    pub fn of(level: Level, bytes: &[u8]) -> Self {
        Self { level, bytes: bytes.to_vec(), held: held(level, bytes) }
    }

    fn nodes_room(&self) -> u64 {
        number(&self.bytes, 0)
    }

    fn entries_room(&self) -> u64 {
        number(&self.bytes, 8)
    }

    pub fn open(&mut self, nodes: u64, entries: u64) -> u64 {
        if !within_limits(nodes) || !within_limits(entries) || self.bytes.len() < needed(nodes, entries) {
            return 16;
        }
        for (i, n) in [nodes, entries, 0, 1, 0, 0, 0, 0].iter().enumerate() {
            put_at(&mut self.bytes, 8 * i, *n);
        }
        self.held = Held::Open(Vec::new());
        0
    }

    /// Whether a block shares a byte address and a live tick with a piece that an open index holds.
    fn is_struck(&self, b: &Block) -> bool {
        matches!(&self.held, Held::Open(pieces) if conflicts(b.at, b.bytes.len(), pieces))
    }

    /// The number of the refusal of a Memory block in an open index, 0 where it is taken.
    fn block_refusal(&self, b: &Block) -> u64 {
        if b.bytes.len() > 4096 {
            4
        } else if b.at.created >= b.at.destroyed {
            5
        } else if b.at.address.checked_add(b.bytes.len() as u64).is_none() {
            6
        } else if self.level.has(2) && self.is_struck(b) {
            18
        } else if number(&self.bytes, 24) + b.nodes_charged() > self.nodes_room() {
            7
        } else if number(&self.bytes, 32) + b.entries_charged() > self.entries_room() {
            8
        } else {
            0
        }
    }

    fn append(&mut self, p: Piece) {
        let Held::Open(pieces) = &mut self.held else { return };
        let at = 64 + 48 * pieces.len();
        self.bytes[at..at + 48].fill(0);
        put_at(&mut self.bytes, at, p.bytes.len() as u64);
        self.bytes[at + 8..at + 8 + p.bytes.len()].copy_from_slice(&p.bytes);
        for (i, n) in [p.at.address, p.at.created, p.at.destroyed].iter().enumerate() {
            put_at(&mut self.bytes, at + 24 + 8 * i, *n);
        }
        pieces.push(p);
    }

    /// Writes the certificate of what an open index holds.
    pub fn certify(&mut self) {
        let Held::Open(pieces) = &self.held else { return };
        let (at, certificate) = (work_at(self.nodes_room(), self.entries_room()), certificate(pieces));
        self.bytes[at..at + certificate.len()].copy_from_slice(&certificate);
    }

    pub fn record(&mut self, b: &Block) -> u64 {
        match self.held {
            Held::Broken => return 1,
            Held::Finished(_) => return 2,
            Held::Open(_) if b.kind > 4 => return 14,
            Held::Open(_) if b.kind != 1 => return 0,
            Held::Open(_) => {}
        }
        let refusal = self.block_refusal(b);
        if refusal == 0 {
            let pieces = b.pieces();
            let (nodes, entries, count) = (number(&self.bytes, 24) + b.nodes_charged(), number(&self.bytes, 32) + b.entries_charged(), number(&self.bytes, 40) + pieces.len() as u64);
            pieces.into_iter().for_each(|p| self.append(p));
            put_at(&mut self.bytes, 24, nodes);
            put_at(&mut self.bytes, 32, entries);
            put_at(&mut self.bytes, 40, count);
            if self.level.has(2) {
                self.certify();
            }
        }
        refusal
    }

    /// Request 1: 1 and 2 first, then each block is read and recorded, up to the first refusal. Its number, 0 for none, and how many
    /// blocks were taken.
    pub fn record_stream(&mut self, s: &[u8]) -> (u64, u64) {
        assert!(self.level.has(1), "there is no such call");
        match self.held {
            Held::Broken => return (1, 0),
            Held::Finished(_) => return (2, 0),
            Held::Open(_) => {}
        }
        let (mut at, mut taken) = (0, 0);
        loop {
            let number = match read_block(s, at) {
                Err(number) => number,
                Ok(None) => return (0, taken),
                Ok(Some((b, next))) => {
                    at = next;
                    self.record(&b)
                }
            };
            if number != 0 {
                return (number, taken);
            }
            taken += 1;
        }
    }

    /// Header, image, and zeros up to what the capacity needs; bytes behind that stay.
    fn close(&mut self, root: Option<Node>) {
        let image = image(root.as_ref());
        let (nodes, entries) = root.as_ref().map_or((1, 0), |n| (n.nodes(), n.entries()));
        for (i, n) in [1, nodes, entries, image.len() as u64].iter().enumerate() {
            put_at(&mut self.bytes, 16 + 8 * i, *n);
        }
        let end = needed(self.nodes_room(), self.entries_room());
        self.bytes[64..64 + image.len()].copy_from_slice(&image);
        self.bytes[64 + image.len()..end].fill(0);
        self.held = Held::Finished(root);
    }

    pub fn finish(&mut self) -> u64 {
        match &self.held {
            Held::Broken => return 1,
            Held::Finished(_) => {}
            Held::Open(pieces) => {
                let root = trie(pieces);
                self.close(root);
            }
        }
        0
    }

    /// What a search answers before its query is looked at.
    pub fn search_refusal(&self) -> u64 {
        match self.held {
            Held::Broken => 1,
            Held::Open(_) => 3,
            Held::Finished(_) => 0,
        }
    }

    /// What a search for a typed number answers before the number is looked for.
    pub fn search_number_refusal(&self, typed: &[u8]) -> u64 {
        assert!(self.level.has(3), "there is no such call");
        match self.search_refusal() {
            0 if typed_number(typed).is_none() => 19,
            n => n,
        }
    }

    pub fn pieces(&self) -> Vec<Piece> {
        match &self.held {
            Held::Finished(Some(root)) => root.pieces(),
            Held::Open(pieces) => pieces.clone(),
            _ => Vec::new(),
        }
    }

    /// The image, or the number of the refusal.
    pub fn save(&self, buffer: usize) -> Result<Vec<u8>, u64> {
        match &self.held {
            Held::Broken => Err(1),
            Held::Open(_) => Err(3),
            Held::Finished(root) => Some(image(root.as_ref())).filter(|i| i.len() <= buffer).ok_or(12),
        }
    }

    pub fn load(&mut self, image: &[u8]) -> u64 {
        if self.held == Held::Broken {
            return 1;
        }
        match judge(self.level, image) {
            Err(n) => n,
            Ok((_, nodes, _)) if nodes > self.nodes_room() => 7,
            Ok((_, _, entries)) if entries > self.entries_room() => 8,
            Ok((root, _, _)) => {
                self.close(root);
                0
            }
        }
    }
}

// ── the block stream ──

/// The block at a cursor and the cursor behind it, none at the stream's end, or the number of a refusal.
pub fn read_block(s: &[u8], at: usize) -> Result<Option<(Block, usize)>, u64> {
    if at == s.len() {
        return Ok(None);
    }
    let kind = *s.get(at).ok_or(13u64)?;
    if kind > 4 {
        return Err(14);
    }
    if s.len() - at < 33 || number(s, at + 9) > (s.len() - at - 33) as u64 {
        return Err(13);
    }
    let end = at + 33 + number(s, at + 9) as usize;
    let at_ = Location::new(number(s, at + 1), number(s, at + 17), number(s, at + 25));
    Ok(Some((Block { kind: kind as u64, at: at_, bytes: s[at + 33..end].to_vec() }, end)))
}
