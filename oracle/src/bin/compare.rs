//! Compares the port's calls with the published index, with documents 01 and 02 done slowly (src/model.rs), and with longest runs
//! counted tick by tick, on recordings made from a seed. Half of them are recorded block by block, half by streams. A good third
//! have blocks that conflict with one before them: the published index is given what was taken, and apart from that all of
//! them, so that its images have conflicts. Behind each query a donation number is typed that begins as it does,
//! right or wrong, and a fifth of the recordings are of the characters of such numbers.
//!
//!     ./archive helmapricot && cd oracle && cargo run --release --offline --features calls --bin compare -- SEED COUNT
//!
//! SEED is 1 and COUNT 10,000 where they are left out; a third number, FIRST, begins at that recording. Prints how much of
//! each thing was compared. At the first difference it prints the recording in the forms of `places`, and the smallest one
//! found that still differs, and ends with 1.
use oracle::fenced::Fenced;
use oracle::level::Level;
use oracle::linked;
use oracle::making::{make, small, typed};
use oracle::model::{self, Bytes, Foretold, Held, Memory, Node};
use oracle::number::NUMBER_SIZE;
use oracle::published::{self, Published};
use oracle::random::Random;
use oracle::recording::{hex, Block, Call, Domain, Location, Piece, Recording};
use std::collections::BTreeMap;
use std::fmt::Debug;
use std::ops::Range;
use std::panic::{catch_unwind, AssertUnwindSafe};

/// How much was compared.
#[derive(Default)]
struct Counts(BTreeMap<String, u64>);

impl Counts {
    fn add(&mut self, what: &str, n: u64) {
        *self.0.entry(what.to_string()).or_default() += n;
    }

    fn one(&mut self, what: &str) {
        self.add(what, 1);
    }
}

type Compared = Result<(), String>;

fn same<T: PartialEq + Debug>(what: &str, expected: T, got: T) -> Compared {
    if expected == got {
        return Ok(());
    }
    Err(format!("{what}:\n  expected {}\n  got      {}", short(&expected), short(&got)))
}

fn short<T: Debug>(x: &T) -> String {
    format!("{x:?}").chars().take(2000).collect()
}

fn same_bytes(what: &str, expected: &[u8], got: &[u8]) -> Compared {
    if expected == got {
        return Ok(());
    }
    let at = expected.iter().zip(got).position(|(a, b)| a != b).unwrap_or(expected.len().min(got.len()));
    let around = |s: &[u8]| hex(&s[at.min(s.len())..(at + 32).min(s.len())]);
    Err(format!("{what}: {} and {} bytes, from byte {at} on:\n  expected {}\n  got      {}", expected.len(), got.len(), around(expected), around(got)))
}

// ── the port ──

/// The port's calls on fenced buffers. Each call checks that nothing changes but what may.
struct Port {
    mem: Fenced,
    input: Fenced,
    scratch: Fenced,
    rows: Fenced,
    out: Fenced,
}

struct Answer {
    number: u64,
    rows: Vec<Location>,
}

/// One of the two searches, by its name in the counts.
struct Search {
    name: &'static str,
    call: linked::Search,
}

/// What is looked for where this was typed.
fn number_in(typed: &[u8]) -> &[u8] {
    &typed[..typed.len().min(NUMBER_SIZE)]
}

const QUERY: Search = Search { name: "searches", call: linked::search };
const NUMBER: Search = Search { name: "searches for typed numbers", call: linked::search_number };

impl Port {
    fn new() -> Self {
        let small = || Fenced::new(1 << 20);
        Self { mem: small(), input: small(), scratch: small(), rows: small(), out: small() }
    }

    fn fences(&self) -> Compared {
        let all = [&self.mem, &self.input, &self.scratch, &self.rows, &self.out];
        if all.iter().all(|f| f.intact()) { Ok(()) } else { Err("bytes before a buffer were written".into()) }
    }

    fn record(&mut self, b: &Block) -> Result<u64, String> {
        self.input.set(&b.bytes);
        let n = linked::record(self.mem.bytes(), b.kind, b.at.address, b.at.created, b.at.destroyed, self.input.bytes());
        same_bytes("a record's data afterwards", &b.bytes, self.input.bytes())?;
        self.fences()?;
        Ok(n)
    }

    /// The number, and how many blocks were taken.
    fn record_stream(&mut self, stream: &[u8]) -> Result<(u64, u64), String> {
        self.input.set(stream);
        let answer = linked::record_stream(self.mem.bytes(), self.input.bytes());
        same_bytes("a recorded stream afterwards", stream, self.input.bytes())?;
        self.fences()?;
        Ok(answer)
    }

    fn finish(&mut self) -> Result<u64, String> {
        let n = linked::finish(self.mem.bytes());
        self.fences()?;
        Ok(n)
    }

    fn load(&mut self, image: &[u8]) -> Result<u64, String> {
        self.input.set(image);
        let n = linked::load(self.mem.bytes(), self.input.bytes());
        same_bytes("a loaded image afterwards", image, self.input.bytes())?;
        self.fences()?;
        Ok(n)
    }

    /// A search with so many bytes of scratch and so many rows in the lent slice.
    fn search(&mut self, by: &Search, q: &[u8], scratch: usize, room: usize, r: &mut Random) -> Result<Answer, String> {
        let before_rows = r.bytes(24 * room);
        let before_scratch = r.bytes(scratch);
        self.input.set(q);
        self.rows.set(&before_rows);
        self.scratch.set(&before_scratch);
        let (number, count) = (by.call)(self.mem.bytes(), self.input.bytes(), self.scratch.bytes(), self.rows.rows());
        self.fences()?;
        same_bytes("a query afterwards", q, self.input.bytes())?;
        if ![0, 10, 11].contains(&number) {
            same_bytes("scratch after a refusal", &before_scratch, self.scratch.bytes())?;
        }
        let count = written("the row count", number, count)?;
        if count > room as u64 {
            return Err(format!("{count} rows in a slice of {room}, answer {number}"));
        }
        let end = 24 * count as usize;
        same_bytes("the rows after the last", &before_rows[end..], &self.rows.bytes()[end..])?;
        let rows = self.rows.rows()[..count as usize].iter().map(|x| Location::new(x.address, x.created, x.destroyed)).collect();
        Ok(Answer { number, rows })
    }

    /// The image, saved to a buffer of so many bytes, or the number of the refusal.
    fn save(&mut self, buffer: usize, r: &mut Random) -> Result<Result<Vec<u8>, u64>, String> {
        let before = r.bytes(buffer);
        self.out.set(&before);
        let (number, size) = linked::save(self.mem.bytes(), self.out.bytes());
        self.fences()?;
        let size = written("the size", number, size)?;
        if size > buffer as u64 {
            return Err(format!("save answers {number} and {size} bytes in a buffer of {buffer}"));
        }
        let size = size as usize;
        same_bytes("the save buffer after the image", &before[size..], &self.out.bytes()[size..])?;
        Ok(if number == 0 { Ok(self.out.bytes()[..size].to_vec()) } else { Err(number) })
    }
}

/// What a call wrote into a place of the caller's: 0 stands for a refusal, which must leave it as it was.
fn written(what: &str, number: u64, value: u64) -> Result<u64, String> {
    if number == 0 {
        return Ok(value);
    }
    same(&format!("{what} after refusal {number}"), linked::UNWRITTEN, value)?;
    Ok(0)
}

// ── one recording ──

struct Run<'a> {
    port: &'a mut Port,
    counts: &'a mut Counts,
    r: Random,
    /// what document 01 says of the same memory
    model: Memory,
    /// the memory as it was before the first finish
    open: Option<Memory>,
    taken: Vec<Block>,
    /// the Memory blocks that were taken, byte by byte
    domain: Domain,
    /// and with them those that were turned back for a conflict
    offered: Vec<Block>,
    finished: Option<Finished>,
    calls: usize,
}

/// What is compared with once the blocks are all there.
struct Finished {
    domain: Domain,
    bytes: Bytes,
    pieces: Vec<Piece>,
    published: Published,
    queries: Vec<(Vec<u8>, Vec<Location>)>,
}

/// Memory from which comparing it whole after every call takes too long.
const LARGE: usize = 1 << 20;

impl Run<'_> {
    fn is_large(&self) -> bool {
        self.model.bytes.len() > LARGE
    }

    fn same_memory(&mut self, what: &str) -> Compared {
        self.counts.one("memories compared byte by byte");
        same_bytes(what, &self.model.bytes, self.port.mem.bytes())
    }

    /// Opens with too little of everything, which changes nothing, then as the recording asks.
    fn open(&mut self, nodes: u64, entries: u64) -> Compared {
        let limit = 1 << 20;
        let over = [(0, entries), (nodes, 0), (limit + 1, entries), (nodes, limit + 1), (u64::MAX, u64::MAX), (1 << 63, 1 << 58), (limit, limit)];
        for (n, e) in over {
            // a large memory may hold the largest capacity
            let (n, e) = if (n, e) == (limit, limit) && self.is_large() { (0, 0) } else { (n, e) };
            same("opening over the limits", self.model.open(n, e), linked::open(self.port.mem.bytes(), n, e))?;
        }
        let short = model::needed(nodes, entries) - 1;
        same("opening with a byte too few", 16, linked::open(&mut self.port.mem.bytes()[..short], nodes, entries))?;
        self.same_memory("memory after refused openings")?;
        same("opening", self.model.open(nodes, entries), linked::open(self.port.mem.bytes(), nodes, entries))?;
        self.counts.add("openings", 9);
        self.same_memory("memory after opening")
    }

    fn record(&mut self, b: &Block) -> Compared {
        let number = self.model.record(b);
        same("record", number, self.port.record(b)?)?;
        self.counts.one(&format!("records answered {number}"));
        self.note_answer(b, number)?;
        self.same_memory_now_and_then("memory after record")
    }

    /// What was answered to a block, which is judged once more where it comes to conflicts, address by address.
    fn note_answer(&mut self, b: &Block, number: u64) -> Compared {
        if b.kind != 1 || ![0, 7, 8, 18].contains(&number) {
            return Ok(());
        }
        let what = "whether a block shares a byte address and a tick with one that was taken";
        same(what, !self.domain.keeps_consistent(b), number == 18)?;
        if number == 0 {
            self.domain.add(b);
            self.taken.push(b.clone());
            self.counts.add("blocks of 4,096 bytes taken", (b.bytes.len() == 4096) as u64);
        }
        if number == 0 || number == 18 {
            self.offered.push(b.clone());
        }
        Ok(())
    }

    fn same_memory_now_and_then(&mut self, what: &str) -> Compared {
        if !self.is_large() || self.calls % 500 == 0 { self.same_memory(what) } else { Ok(()) }
    }

    fn finish(&mut self) -> Compared {
        if self.finished.is_none() {
            self.open = Some(self.model.clone());
        }
        same("finish", self.model.finish(), self.port.finish()?)?;
        self.counts.one("finishes");
        self.same_memory("memory after finish")?;
        if self.finished.is_none() {
            self.finished = Some(Finished { domain: self.domain.clone(), bytes: Bytes::of(&self.taken), pieces: self.taken.iter().flat_map(Block::pieces).collect(), published: Published::of(&self.taken), queries: Vec::new() });
            self.count_nodes();
        }
        Ok(())
    }

    fn count_nodes(&mut self) {
        let Held::Finished(Some(root)) = &self.model.held else { return };
        let mut children = Vec::new();
        root.child_counts(&mut children);
        if [8, 9, 96, 97, 256].contains(&children[0]) {
            self.counts.one(&format!("roots with {} children", children[0]));
        }
        for n in children {
            self.counts.one(&format!("nodes of kind {}", if n <= 8 { 3 } else if n <= 96 { 2 } else { 1 }));
        }
    }

    /// Searches for a query, and for a number that is typed from it.
    fn find(&mut self, q: &[u8]) -> Compared {
        let refusal = match self.model.search_refusal() {
            0 if q.len() > 256 => 9,
            n => n,
        };
        self.find_by(&QUERY, q, q, refusal)?;
        let typed = typed(&mut self.r, q);
        self.find_by(&NUMBER, &typed, number_in(&typed), self.model.search_number_refusal(&typed))
    }

    /// A search that is handed one thing and looks for another, if it is not refused before.
    fn find_by(&mut self, by: &Search, handed: &[u8], q: &[u8], refusal: u64) -> Compared {
        if refusal != 0 {
            let (scratch, room) = (self.r.below(100) as usize, self.r.below(7) as usize);
            let a = self.port.search(by, handed, scratch, room, &mut self.r)?;
            self.counts.one(&format!("{} answered {}", by.name, a.number));
            return same(&format!("{} ({}), one that is refused", by.name, hex(handed)), (refusal, 0), (a.number, a.rows.len()));
        }
        let told = model::foretell(&self.finished.as_ref().unwrap().pieces, q);
        for (scratch, room) in self.rooms(&told) {
            self.search(by, handed, &told, scratch, room)?;
        }
        self.judge_rows(q, told.rows)
    }

    /// Room for all, just enough, and one byte or row too few.
    fn rooms(&mut self, told: &Foretold) -> Vec<(usize, usize)> {
        let (places, rows) = (24 * told.places as usize, told.rows.len());
        let mut rooms = vec![(places + self.r.below(30) as usize, rows + self.r.below(3) as usize), (places, rows)];
        if places > 0 {
            rooms.extend([(places - 1, rows), (self.r.below(places as u64) as usize, rows.saturating_sub(1)), (0, 0)]);
        }
        if rows > 0 {
            rooms.extend([(places, rows - 1), (places + 24, self.r.below(rows as u64) as usize)]);
        }
        if self.is_large() {
            rooms.drain(..1);
        }
        rooms
    }

    fn search(&mut self, by: &Search, handed: &[u8], told: &Foretold, scratch: usize, room: usize) -> Compared {
        let number = told.answer(scratch, room);
        let a = self.port.search(by, handed, scratch, room, &mut self.r)?;
        self.counts.one(&format!("{} answered {number}", by.name));
        let what = format!("{} ({}) with {scratch} bytes of scratch, {} places, a slice of {room} rows", by.name, hex(handed), told.places);
        same(&what, number, a.number)?;
        let none = Vec::new();
        same(&what, if number == 0 { &told.rows } else { &none }, &a.rows)
    }

    /// The rows against the longest runs and against the Rust's.
    fn judge_rows(&mut self, q: &[u8], rows: Vec<Location>) -> Compared {
        let f = self.finished.as_mut().unwrap();
        if f.domain.consistent {
            same(&format!("longest runs of ({}), rows", hex(q)), &f.bytes.runs(q), &rows)?;
            self.counts.one("row lists equal to the longest runs");
            let theirs = f.published.rows(q);
            if f.domain.rows_met(q.len()) {
                same(&format!("the Rust's rows of ({}), ours", hex(q)), &theirs, &rows)?;
                self.counts.one("row lists equal to the Rust's");
                self.counts.add("rows in the lists equal to the Rust's", rows.len() as u64);
            } else {
                inside(q, &theirs, &rows)?;
                self.counts.one("row lists with every Rust row inside one of ours");
                self.counts.add("row lists with every Rust row inside one of ours, and not the same", (theirs != rows) as u64);
            }
        }
        self.counts.one(match rows.len() {
            0 => "row lists of no row",
            1 => "row lists of one row",
            _ => "row lists of two rows or more",
        });
        self.counts.one(match q.len() {
            0 => "queries of 0 bytes",
            1 => "queries of 1 byte",
            2..=16 => "queries of 2 to 16 bytes",
            17..=255 => "queries of 17 to 255 bytes",
            _ => "queries of 256 bytes",
        });
        f.queries.push((q.to_vec(), rows));
        Ok(())
    }

    /// Saves to buffers that are long enough, just, and not.
    fn save(&mut self) -> Compared {
        let size = self.model.save(usize::MAX).map_or(0, |i| i.len());
        for buffer in [size, size + self.r.below(50) as usize, size.saturating_sub(1), self.r.below(size as u64 + 1) as usize] {
            let expected = self.model.save(buffer);
            let got = self.port.save(buffer, &mut self.r)?;
            self.counts.one(&format!("saves answered {}", expected.as_ref().err().copied().unwrap_or(0)));
            match (&expected, &got) {
                (Ok(e), Ok(g)) => same_bytes("the saved image", e, g)?,
                _ => same("save", expected.map(|i| i.len()), got.map(|i| i.len()))?,
            }
        }
        Ok(())
    }

    /// All calls of a recording; by streams, records that follow one another are put together.
    fn all_calls(&mut self, calls: &[Call], by_streams: bool) -> Compared {
        let mut rest = calls;
        while let Some(c) = rest.first() {
            let blocks = if by_streams { leading_blocks(rest) } else { Vec::new() };
            if blocks.is_empty() {
                self.call(c)?;
            } else {
                self.record_by_streams(&blocks)?;
            }
            rest = &rest[blocks.len().max(1)..];
        }
        Ok(())
    }

    fn call(&mut self, c: &Call) -> Compared {
        self.calls += 1;
        match c {
            Call::Record(b) => self.record(b),
            Call::Finish => self.finish(),
            Call::Find(q) => self.find(q),
            Call::Save => self.save(),
        }
    }

    // ── images ──

    /// The Rust's image is ours where it is to be, each reads the other's, and finds the same rows in it.
    fn images(&mut self) -> Compared {
        let Some(f) = self.finished.as_mut() else { return Ok(()) };
        let ours = self.model.save(usize::MAX).unwrap();
        let theirs = f.published.image();
        if f.domain.image_met() {
            same_bytes("the Rust's image, ours", &theirs, &ours)?;
            self.counts.one("images equal to the Rust's");
            self.counts.add("bytes of images equal to the Rust's", theirs.len() as u64);
        }
        let read = published::Read::of(&ours);
        for (q, rows) in f.queries.iter().filter(|x| f.domain.rows_met(x.0.len())) {
            same(&format!("rows of ({}) that the Rust finds in our image", hex(q)), rows, &read.rows(q))?;
            self.counts.one("row lists that the Rust found in our image");
        }
        self.exchange(&theirs)
    }

    /// Loads the Rust's image into another memory, searches there, and saves it again.
    fn exchange(&mut self, theirs: &[u8]) -> Compared {
        let Ok((_, nodes, entries)) = model::judge(Level::LANDED, theirs) else { return self.load_into(self.open.clone().unwrap(), theirs).map(|_| ()) };
        let entries = entries.max(1);
        for (n, e) in [(nodes, entries), (nodes, entries - 1), (nodes - 1, entries), (nodes - 1, entries - 1)] {
            let mut other = Memory::of(Level::LANDED, &self.r.bytes(model::needed(n, e) + 5));
            if other.open(n, e) == 0 && self.load_into(other.clone(), theirs)? == 0 {
                let saved = self.port.save(theirs.len(), &mut self.r)?.map_err(|n| format!("saving what was loaded: refused {n}"))?;
                same_bytes("a loaded image, saved again", theirs, &saved)?;
                self.counts.one("the Rust's images loaded and saved again");
                self.search_loaded()?;
            }
        }
        Ok(())
    }

    fn search_loaded(&mut self) -> Compared {
        let f = self.finished.as_ref().unwrap();
        for (q, rows) in f.queries.iter().take(if self.model.bytes.len() > LARGE { 4 } else { 99 }) {
            let places = model::foretell(&f.pieces, q).places as usize;
            let a = self.port.search(&QUERY, q, 24 * places, rows.len(), &mut self.r)?;
            same(&format!("rows of ({}) in the Rust's image, loaded", hex(q)), (0, rows), (a.number, &a.rows))?;
            self.counts.one("row lists found in the Rust's image, loaded");
        }
        Ok(())
    }

    /// Loads an image into a memory, the port's being set to it: the answer.
    fn load_into(&mut self, mut into: Memory, image: &[u8]) -> Result<u64, String> {
        self.port.mem.set(&into.bytes);
        let number = into.load(image);
        same("load", number, self.port.load(image)?)?;
        same_bytes("memory after load", &into.bytes, self.port.mem.bytes())?;
        self.counts.one(&format!("loads answered {number}"));
        Ok(number)
    }

    fn damaged_images(&mut self, times: usize) -> Compared {
        let Some(open) = self.open.clone() else { return Ok(()) };
        let image = self.model.save(usize::MAX).unwrap();
        for _ in 0..times {
            let bad = damaged(&image, &mut self.r);
            let into = if self.r.once_in(2) { open.clone() } else { self.model.clone() };
            let number = self.load_into(into, &bad)?;
            self.counts.one("damaged images");
            if number == 0 {
                self.counts.one(if bad == image { "damaged images accepted, their bytes being the same" } else { "damaged images accepted, being sound images of something else" });
            }
        }
        Ok(())
    }

    // ── conflicts ──

    /// Where blocks were turned back for a conflict: the images and the logs that there would be with them. The Rust makes such
    /// images, the model too, by the layout alone.
    fn conflicting(&mut self, times: usize) -> Compared {
        if self.finished.is_none() || self.offered.len() == self.taken.len() {
            return Ok(());
        }
        let mut pieces: Vec<Piece> = self.offered.iter().flat_map(Block::pieces).collect();
        let root = model::trie(&pieces).unwrap();
        let image = model::image(Some(&root));
        let theirs = Published::of(&self.offered).image();
        self.counts.one(if theirs == image { "conflicting blocks, the Rust's image is the model's" } else { "conflicting blocks, the Rust's image is another" });
        self.conflicting_logs(&pieces, &image)?;
        // a piece that stands twice in the log stands once in the image
        pieces.sort_unstable_by(|p, r| (p.at, &p.bytes).cmp(&(r.at, &r.bytes)));
        pieces.dedup();
        let free = model::are_free(&pieces);
        same("whether the blocks of an image are free of conflicts", Domain::of_pieces(&pieces).consistent, free)?;
        self.conflicting_images(&root, &image, &theirs, free)?;
        for _ in 0..times {
            let bad = damaged(if self.r.once_in(3) { &theirs } else { &image }, &mut self.r);
            let number = self.load_into(self.open.clone().unwrap(), &bad)?;
            self.counts.one(&format!("damaged images of conflicting blocks, answered {number}"));
        }
        Ok(())
    }

    /// Both images, each into four capacities, two of which are too small; a byte more; and a memory that holds the image.
    fn conflicting_images(&mut self, root: &Node, image: &[u8], theirs: &[u8], free: bool) -> Compared {
        let (nodes, entries) = (root.nodes(), root.entries());
        for (n, e) in [(nodes, entries), (nodes, entries - 1), (nodes - 1, entries), (nodes - 1, entries - 1)] {
            if n == 0 || e == 0 || n > 1 << 20 || e > 1 << 20 {
                continue;
            }
            let mut other = Memory { level: Level::LANDED, bytes: self.r.bytes(model::needed(n, e) + 5), held: Held::Broken };
            same("opening", 0, other.open(n, e))?;
            let fits = if n < nodes { 7 } else if e < entries { 8 } else { 0 };
            let number = self.load_into(other.clone(), image)?;
            same("loading the image of conflicting blocks", if free { fits } else { 18 }, number)?;
            self.counts.one(&format!("images of conflicting blocks, answered {number}"));
            let number = self.load_into(other.clone(), theirs)?;
            self.counts.one(&format!("images of conflicting blocks made by the Rust, answered {number}"));
            same("the same and one byte", 15, self.load_into(other.clone(), &[image, &[0]].concat())?)?;
            other.bytes[64..64 + image.len()].copy_from_slice(image);
            for (i, x) in [1, nodes, entries, image.len() as u64].iter().enumerate() {
                other.bytes[16 + 8 * i..24 + 8 * i].copy_from_slice(&x.to_le_bytes());
            }
            self.broken_by_conflicts("images", &other.bytes, free && fits == 0, image)?;
        }
        Ok(())
    }

    /// Images of few pieces, into a memory that is large enough or not: 18 or anything but that.
    fn conflicts_by_hand(&mut self) -> Compared {
        for (pieces, conflict) in pieces_by_hand() {
            let image = model::image(model::trie(&pieces).as_ref());
            let mut roomy = Memory { level: Level::LANDED, bytes: self.r.bytes(model::needed(400, 200)), held: Held::Broken };
            same("opening", 0, roomy.open(400, 200))?;
            for into in [self.model.clone(), roomy] {
                let number = self.load_into(into, &image)?;
                same(&format!("whether 18 is answered to the image of {pieces:?}"), conflict, number == 18)?;
                self.counts.one(&format!("images of pieces by hand: answered {number}"));
            }
        }
        Ok(())
    }

    /// A memory whose log has the conflicting pieces, with the tally and the certificate that they have.
    fn conflicting_logs(&mut self, pieces: &[Piece], image: &[u8]) -> Compared {
        let charged = |f: fn(&Block) -> u64| self.offered.iter().map(f).sum::<u64>();
        let (nodes, entries) = (1 + charged(Block::nodes_charged), charged(Block::entries_charged));
        if nodes > 1 << 20 || entries > 1 << 20 {
            return Ok(());
        }
        let mut m = Memory { level: Level(1), bytes: self.r.bytes(model::needed(nodes, entries) + 5), held: Held::Broken };
        same("opening", 0, m.open(nodes, entries))?;
        self.offered.iter().try_for_each(|b| same("a record before request 2", 0, m.record(b)))?;
        m.certify();
        self.broken_by_conflicts("logs", &m.bytes, model::are_free(pieces), image)
    }

    /// Every call on a memory that holds conflicting pieces; sound ones are those in which a piece stood twice.
    fn broken_by_conflicts(&mut self, what: &str, bytes: &[u8], sound: bool, image: &[u8]) -> Compared {
        let m = Memory::of(Level::LANDED, bytes);
        same("whether a memory with these pieces is sound", sound, m.held != Held::Broken)?;
        self.counts.one(&format!("memories with {what} of conflicting blocks"));
        let q = self.offered[0].bytes.iter().copied().take(3).collect::<Vec<_>>();
        self.calls_on(&m, &q, image)
    }

    // ── damaged memories ──

    fn damaged_memories(&mut self, times: usize) -> Compared {
        let (Some(open), Some(f)) = (self.open.clone(), self.finished.as_ref()) else { return Ok(()) };
        let image = self.model.save(usize::MAX).unwrap();
        let queries: Vec<Vec<u8>> = f.queries.iter().map(|x| x.0.clone()).collect();
        for k in 0..times {
            let whole = if k % 2 == 0 { open.clone() } else { self.model.clone() };
            let bytes = damaged_memory(&whole, &mut self.r);
            let bad = Memory::of(Level::LANDED, &bytes);
            self.counts.one("damaged memories");
            self.counts.one(&format!("damaged memories that {}", if bytes == whole.bytes { "have the same bytes" } else { becomes(&whole, &bad) }));
            let q = if queries.is_empty() { vec![97] } else { queries[self.r.below(queries.len() as u64) as usize].clone() };
            self.calls_on(&bad, &q, &image)?;
        }
        Ok(())
    }

    /// Every bit of a small memory flipped, open and finished; behind what it holds, some.
    fn every_bit(&mut self) -> Compared {
        let image = self.model.save(usize::MAX).unwrap();
        let q = self.finished.as_ref().unwrap().queries[0].0.clone();
        for whole in [self.open.clone().unwrap(), self.model.clone()] {
            let (end, order) = (held_end(&whole.bytes), certified(&whole));
            let behind = (8 * end..8 * whole.bytes.len()).step_by(37).filter(|bit| !order.contains(&(bit / 8)));
            for bit in (0..8 * end).chain(8 * order.start..8 * order.end).chain(behind) {
                let mut bytes = whole.bytes.clone();
                bytes[bit / 8] ^= 1 << (bit % 8);
                let bad = Memory::of(Level::LANDED, &bytes);
                let place = if bit / 8 < 64 { "in the header" } else if bit / 8 < end { "in the log or image" } else if order.contains(&(bit / 8)) { "in the certificate" } else { "behind the log or image" };
                self.counts.one(&format!("bit flips of small memories, {place}: {}", becomes(&whole, &bad)));
                self.calls_on(&bad, &q, &image)?;
            }
        }
        Ok(())
    }

    /// Every bit of a small image flipped, every cut, and for the smallest every cut of every changed byte, where two faults
    /// stand side by side and the first in layout order decides.
    fn every_image(&mut self, image: &[u8]) -> Compared {
        let step = if image.len() > 2500 { 11 } else { 1 };
        for bit in (0..8 * image.len()).step_by(step) {
            let mut bad = image.to_vec();
            bad[bit / 8] ^= 1 << (bit % 8);
            self.load_small("bit flips of small images", &bad)?;
        }
        for cut in (0..image.len()).step_by(step) {
            self.load_small("cuts of small images", &image[..cut])?;
        }
        for (at, cut) in (0..image.len()).flat_map(|at| (at..image.len()).map(move |cut| (at, cut))).filter(|_| image.len() < 130) {
            for value in [image[at] ^ 1, image[at] ^ 128, 0, 2, 4, 255] {
                let mut bad = image[..cut + 1].to_vec();
                bad[at] = value;
                self.load_small("cuts of small images with a changed byte", &bad)?;
            }
        }
        Ok(())
    }

    fn odd_images(&mut self) -> Compared {
        odd_images().iter().try_for_each(|s| self.load_small("images made by hand", s))
    }

    fn load_small(&mut self, what: &str, image: &[u8]) -> Compared {
        let number = self.load_into(self.model.clone(), image)?;
        self.counts.one(&format!("{what}: answered {number}"));
        Ok(())
    }

    /// A search that is handed one thing and looks for another, on a damaged memory, with just enough room.
    fn search_damaged(&mut self, by: &Search, bad: &Memory, handed: &[u8], q: &[u8], refusal: u64) -> Compared {
        let told = model::foretell(&if refusal == 0 { bad.pieces() } else { Vec::new() }, q);
        let a = self.port.search(by, handed, 24 * told.places as usize, told.rows.len(), &mut self.r)?;
        same(&format!("{} on a damaged memory", by.name), refusal, a.number)?;
        same(&format!("{}: rows in a damaged memory", by.name), told.rows, a.rows)?;
        same_bytes(&format!("{}: a damaged memory afterwards", by.name), &bad.bytes, self.port.mem.bytes())
    }

    /// Every call but opening, each on its own copy of a memory.
    fn calls_on(&mut self, bad: &Memory, q: &[u8], image: &[u8]) -> Compared {
        self.port.mem.set(&bad.bytes);
        // faulty arguments now and then: the test of the memory comes before all else
        let mut block = Block::memory(self.r.below(100), 1, self.r.pick(&[9, 9, 9, 1]), &q[..q.len().min(20)]);
        block.kind = self.r.pick(&[1, 1, 1, 1, 4, 5]);
        let bad_image = damaged(image, &mut self.r);
        let image = if self.r.once_in(3) { &bad_image } else { image };
        let mut m = bad.clone();
        same("record on a damaged memory", m.record(&block), self.port.record(&block)?)?;
        same_bytes("a damaged memory after record", &m.bytes, self.port.mem.bytes())?;

        self.port.mem.set(&bad.bytes);
        let mut m = bad.clone();
        // the same again conflicts with the first
        let mut second = block.clone();
        second.at.address += self.r.pick(&[0, 0, 20, 100]);
        let mut stream = encoded(&[&block, &second]);
        stream.truncate(self.r.pick(&[stream.len(), stream.len(), stream.len() - 1, 0]));
        same("a stream on a damaged memory", m.record_stream(&stream), self.port.record_stream(&stream)?)?;
        same_bytes("a damaged memory after a stream", &m.bytes, self.port.mem.bytes())?;

        self.port.mem.set(&bad.bytes);
        let mut m = bad.clone();
        same("finish on a damaged memory", m.finish(), self.port.finish()?)?;
        same_bytes("a damaged memory after finish", &m.bytes, self.port.mem.bytes())?;

        self.port.mem.set(&bad.bytes);
        self.search_damaged(&QUERY, bad, q, q, bad.search_refusal())?;
        let typed = typed(&mut self.r, q);
        self.search_damaged(&NUMBER, bad, &typed, number_in(&typed), bad.search_number_refusal(&typed))?;

        let size = image.len() + self.r.below(60) as usize;
        same("save on a damaged memory", bad.save(size), self.port.save(size, &mut self.r)?)?;
        same_bytes("a damaged memory after save", &bad.bytes, self.port.mem.bytes())?;

        let mut m = bad.clone();
        same("load on a damaged memory", m.load(image), self.port.load(image)?)?;
        same_bytes("a damaged memory after load", &m.bytes, self.port.mem.bytes())?;
        self.counts.add("calls on damaged memories", 7);
        Ok(())
    }

    // ── blocks recorded by streams ──

    /// Blocks that follow one another. A refused block is passed over and the next stream begins behind it, so that the same
    /// blocks are taken as by single records; a few are recorded singly between.
    fn record_by_streams(&mut self, blocks: &[&Block]) -> Compared {
        let mut rest = blocks;
        while !rest.is_empty() {
            self.calls += 1;
            if self.r.once_in(8) {
                self.record(rest[0])?;
                rest = &rest[1..];
                continue;
            }
            let n = if self.r.once_in(2) { rest.len() } else { self.r.between(1, rest.len() as u64) as usize };
            let mut stream = encoded(&rest[..n]);
            if self.r.once_in(4) {
                stream.extend(faulty(rest[n - 1], &mut self.r));
            }
            let (number, taken) = self.record_stream(&stream)?;
            rest[..taken].iter().try_for_each(|b| self.note_answer(b, 0))?;
            // behind all n of them it is the faulty one that was refused
            let judged = n.min(taken + (number != 0) as usize);
            rest[taken..judged].iter().try_for_each(|b| self.note_answer(b, number))?;
            rest = &rest[judged..];
        }
        if self.r.once_in(4) {
            self.counts.one("streams recorded that are empty");
            self.record_stream(&[])?;
        }
        Ok(())
    }

    /// The number, and how many blocks were taken.
    fn record_stream(&mut self, stream: &[u8]) -> Result<(u64, usize), String> {
        let told = self.model.record_stream(stream);
        same("the number and the blocks taken", told, self.port.record_stream(stream)?).map_err(in_stream(stream))?;
        self.count_stream("streams recorded", told);
        self.same_memory_now_and_then("memory afterwards").map_err(in_stream(stream))?;
        Ok((told.0, told.1 as usize))
    }

    fn count_stream(&mut self, what: &str, (number, taken): (u64, u64)) {
        self.counts.one(what);
        self.counts.one(&format!("{what}, answered {number}"));
        self.counts.add(&format!("{what}: blocks taken"), taken);
        self.counts.add(&format!("{what} that stopped behind blocks taken"), (number != 0 && taken > 0) as u64);
    }

    /// All blocks that were taken, as one stream into the memory opened anew: it is then what it was before the finish, and finished
    /// what it is now.
    fn as_one_stream(&mut self) -> Compared {
        let Some(open) = self.open.clone() else { return Ok(()) };
        let stream = encoded(&self.taken.iter().collect::<Vec<_>>());
        let count = self.taken.len() as u64;
        let number = |at: usize| u64::from_le_bytes(open.bytes[at..at + 8].try_into().unwrap());
        let mem = self.port.mem.set(&open.bytes);
        // log and certificate are spoilt, so that what the stream does not write is seen
        for part in [64..held_end(&open.bytes), certified(&open)] {
            mem[part].iter_mut().for_each(|b| *b = !*b);
        }
        same("opening anew", 0, linked::open(mem, number(0), number(8)))?;
        same("all blocks as one stream", (0, count), self.port.record_stream(&stream)?)?;
        same_bytes("memory after all blocks as one stream", &open.bytes, self.port.mem.bytes())?;
        same("finish after one stream", 0, self.port.finish()?)?;
        self.counts.one("recordings, their blocks as one stream");
        self.counts.add("recordings, their 100 blocks or more as one stream", (count >= 100) as u64);
        self.counts.add("recordings, their 1,000 blocks or more as one stream", (count >= 1000) as u64);
        self.same_memory("memory after one stream and finish")
    }

    /// Records a stream into a memory, the port's being set to it.
    fn record_stream_into(&mut self, what: &str, mut into: Memory, stream: &[u8]) -> Compared {
        self.port.mem.set(&into.bytes);
        let told = into.record_stream(stream);
        same("the number and the blocks taken", told, self.port.record_stream(stream)?).map_err(in_stream(stream))?;
        same_bytes("memory afterwards", &into.bytes, self.port.mem.bytes()).map_err(in_stream(stream))?;
        self.count_stream(what, told);
        Ok(())
    }

    /// Streams, damaged mostly, each into a copy of a memory.
    fn damaged_streams(&mut self, calls: &[Call], times: usize) -> Compared {
        let blocks: Vec<&Block> = known_blocks(calls).take(12).collect();
        let whole = encoded(&blocks);
        for _ in 0..times {
            let into = self.memory_for(&blocks);
            match self.r.below(8) {
                0 => self.record_stream_into("empty streams", into, &[])?,
                1 => self.record_stream_into("whole streams", into, &whole)?,
                _ => {
                    let bad = damaged(&whole, &mut self.r);
                    self.record_stream_into("damaged streams", into, &bad)?;
                }
            }
        }
        Ok(())
    }

    /// One with about as much room as these blocks need, mostly; or the recording's own, as it is, as it was open, or damaged.
    fn memory_for(&mut self, blocks: &[&Block]) -> Memory {
        let open = self.open.as_ref().unwrap_or(&self.model);
        match self.r.below(12) {
            0 => self.model.clone(),
            1 => open.clone(),
            2 => Memory::of(Level::LANDED, &damaged_memory(&self.model, &mut self.r)),
            3 => Memory::of(Level::LANDED, &damaged_memory(open, &mut self.r)),
            _ => opened_for(blocks, &mut self.r),
        }
    }

    /// Every bit of a small recording's stream flipped, every cut, and for short ones every cut of every changed byte, where two
    /// faults stand side by side.
    fn every_stream(&mut self, calls: &[Call], nodes: u64, entries: u64) -> Compared {
        let blocks: Vec<&Block> = known_blocks(calls).collect();
        let stream = encoded(&blocks);
        let mut fresh = self.model.clone();
        same("opening anew", 0, fresh.open(nodes, entries))?;
        for bit in 0..8 * stream.len() {
            let mut bad = stream.clone();
            bad[bit / 8] ^= 1 << (bit % 8);
            self.record_stream_into("bit flips of small streams", fresh.clone(), &bad)?;
        }
        for cut in 0..=stream.len() {
            self.record_stream_into("cuts of small streams", fresh.clone(), &stream[..cut])?;
        }
        for (at, cut) in (0..stream.len()).flat_map(|at| (at..stream.len()).map(move |cut| (at, cut))).filter(|_| stream.len() < 130) {
            for value in [stream[at] ^ 1, stream[at] ^ 128, 0, 2, 4, 5, 255] {
                let mut bad = stream[..cut + 1].to_vec();
                bad[at] = value;
                self.record_stream_into("cuts of small streams with a changed byte", fresh.clone(), &bad)?;
            }
        }
        Ok(())
    }

    // ── streams read ──

    fn streams(&mut self, calls: &[Call]) -> Compared {
        let blocks: Vec<Block> = known_blocks(calls).take(6).cloned().collect();
        let stream = published::stream(&blocks);
        same_bytes("the Rust's stream, ours", &stream, &encoded(&blocks.iter().collect::<Vec<_>>()))?;
        let mut at = 0;
        for b in &blocks {
            let expected = published::read_block(&stream, at);
            same("the Rust's block", b, &expected.0)?;
            self.read_block(&stream, at)?;
            at = expected.1;
            self.counts.one("blocks of streams equal to the Rust's");
        }
        self.read_block(&stream, stream.len())?;
        for _ in 0..6 {
            let bad = damaged(&stream, &mut self.r);
            let past = [usize::MAX, usize::MAX - 33, bad.len() + 1, bad.len()];
            let at = if self.r.once_in(6) { self.r.pick(&past) } else { self.r.below(bad.len() as u64 + 1).min(40) as usize };
            self.read_block(&bad, at)?;
            self.read_block(&bad, 0)?;
        }
        Ok(())
    }

    fn read_block(&mut self, stream: &[u8], at: usize) -> Compared {
        let mut expected = [self.r.next(); 7];
        let mut fields = expected;
        self.port.input.set(stream);
        let got = linked::read_block(self.port.input.bytes(), at, &mut fields);
        self.port.fences()?;
        same_bytes("a stream afterwards", stream, self.port.input.bytes())?;
        let told = model::read_block(stream, at);
        let number = told.as_ref().err().copied().unwrap_or(0);
        match told {
            Ok(Some((b, next))) => {
                expected = [1, b.kind, b.at.address, b.bytes.len() as u64, b.at.created, b.at.destroyed, next as u64];
                same_bytes("a block's data", &b.bytes, &stream[next - b.bytes.len()..next])?;
            }
            Ok(None) => expected[0] = 0,
            Err(_) => {}
        }
        self.counts.one(&format!("blocks of streams read, answered {number}"));
        same(&format!("the block at {at} of ({})", hex(stream)), (number, expected), (got, fields))
    }
}

/// The blocks that a list of calls begins with, as far as a stream can have them.
fn leading_blocks(calls: &[Call]) -> Vec<&Block> {
    calls.iter().map_while(|c| if let Call::Record(b) = c { Some(b) } else { None }).take_while(|b| b.kind <= 255).collect()
}

/// The blocks of all records whose kind is known.
fn known_blocks(calls: &[Call]) -> impl Iterator<Item = &Block> {
    calls.iter().filter_map(|c| if let Call::Record(b) = c { Some(b) } else { None }).filter(|b| b.kind <= 4)
}

fn encoded(blocks: &[&Block]) -> Vec<u8> {
    blocks.iter().flat_map(|b| b.encoded()).collect()
}

/// A block with which a stream cannot go on: cut, of an unknown kind, both, or longer than what is left.
fn faulty(b: &Block, r: &mut Random) -> Vec<u8> {
    let mut s = b.encoded();
    let fault = r.below(4);
    if fault == 0 || fault == 2 {
        s.truncate(r.between(1, s.len() as u64 - 1) as usize);
    }
    if fault == 1 || fault == 2 {
        s[0] = r.pick(&[5, 6, 128, 255]);
    }
    if fault == 3 {
        let n = b.bytes.len() as u64;
        s[9..17].copy_from_slice(&r.pick(&[n + 1, n + (1 << 32), 1 << 63, u64::MAX - 33, u64::MAX]).to_le_bytes());
    }
    s
}

/// An open memory with room for these blocks, or for some of them.
fn opened_for(blocks: &[&Block], r: &mut Random) -> Memory {
    let charged = || blocks.iter().filter(|b| b.kind == 1 && b.bytes.len() <= 4096);
    let (nodes, entries) = (1 + charged().map(|b| b.nodes_charged()).sum::<u64>(), charged().map(|b| b.entries_charged()).sum::<u64>());
    let mut room = |n: u64| if r.once_in(3) { n - r.below(n / 2 + 1) } else { n + r.below(3) }.clamp(1, 1 << 20);
    let (nodes, entries) = (room(nodes), room(entries));
    let mut m = Memory { level: Level::LANDED, bytes: r.bytes(model::needed(nodes, entries) + 5), held: Held::Broken };
    m.open(nodes, entries);
    m
}

/// Names the stream in which something differs, as far as a line holds it.
fn in_stream(stream: &[u8]) -> impl FnOnce(String) -> String + '_ {
    |why| format!("a stream of {} bytes ({}): {why}", stream.len(), hex(&stream[..stream.len().min(500)]))
}

/// Every Rust row lies inside one row of ours.
fn inside(q: &[u8], theirs: &[Location], rows: &[Location]) -> Compared {
    let lies = |t: &Location| rows.iter().any(|r| r.address == t.address && r.created <= t.created && t.destroyed <= r.destroyed);
    match theirs.iter().find(|t| !lies(t)) {
        Some(t) => Err(format!("a Rust row of ({}) in none of ours: {t:?}\n  ours {}", hex(q), short(&rows))),
        None => Ok(()),
    }
}

/// Bytes with a bit flipped, a byte or a number changed, a part copied over another, cut short or lengthened.
fn damaged(s: &[u8], r: &mut Random) -> Vec<u8> {
    let mut s = s.to_vec();
    if s.is_empty() || r.once_in(8) {
        s.extend(vec![r.pick(&[0u8, 1, 255]); r.between(1, 30) as usize]);
        return s;
    }
    let at = r.below(s.len() as u64) as usize;
    match r.below(6) {
        0 | 1 => s[at] ^= 1 << r.below(8),
        2 => s[at] = r.pick(&[0, 1, 2, 3, 4, 16, 17, 255]),
        3 => s.truncate(at),
        4 => {
            let n = (r.pick(&[8, 9, 24, 33, 100]) as usize).min(s.len() - at);
            let from = r.below((s.len() - n + 1) as u64) as usize;
            s.copy_within(from..from + n, at);
        }
        _ => {
            let n = s.len().min(at + 8) - at;
            let number = r.pick(&[0, 1, 1 << 32, 1 << 60, u64::MAX / 24, u64::MAX / 24 + 1, u64::MAX - 1, u64::MAX]);
            s[at..at + n].copy_from_slice(&number.to_le_bytes()[..n]);
        }
    }
    s
}

/// What damage made of a memory.
fn becomes(whole: &Memory, bad: &Memory) -> &'static str {
    if matches!(bad.held, Held::Broken) {
        "break the rule (1)"
    } else if bad.held == whole.held && bad.bytes[..16] == whole.bytes[..16] {
        "hold the same (the rule does not test these bytes)"
    } else {
        "are sound and hold something else"
    }
}

/// Where the log or the image of a sound memory ends.
fn held_end(m: &[u8]) -> usize {
    64 + u64::from_le_bytes(m[40..48].try_into().unwrap()) as usize * if m[16] == 0 { 48 } else { 1 }
}

/// Where the certificate of an open memory stands, nothing in a finished one.
fn certified(m: &Memory) -> Range<usize> {
    let number = |at: usize| u64::from_le_bytes(m.bytes[at..at + 8].try_into().unwrap());
    let size = if let Held::Open(pieces) = &m.held { model::certificate(pieces).len() } else { 0 };
    let at = model::work_at(number(0), number(8));
    at..at + size
}

/// A node of a kind without entries, and the count of its children.
fn bare(kind: u8, children: Option<u64>) -> Vec<u8> {
    let mut s = vec![kind];
    s.extend([0; 24]);
    s.extend(children.into_iter().flat_map(u64::to_le_bytes));
    s
}

/// Images that chance does not make: long paths, whole and without the last node; a sibling's byte again, its offset cut off;
/// counts beyond the ranges of their kinds; counts that run past the image or past all numbers.
fn odd_images() -> Vec<Vec<u8>> {
    let mut all = Vec::new();
    for nodes in 15..20 {
        let mut s = Vec::new();
        for _ in 1..nodes {
            s.extend(bare(3, Some(1)));
            s.push(7);
            let flag = s.len() as u64 + 8;
            s.extend(flag.to_le_bytes());
            s.push(1);
        }
        all.push(s.clone());
        s.extend(bare(3, Some(0)));
        all.push(s);
    }
    let twice = [&bare(3, Some(2))[..], &[7], &51u64.to_le_bytes(), &[7]].concat();
    all.push([&twice[..], &[0; 8]].concat());
    all.push(twice);
    for (kind, n) in [(3, 8), (3, 9), (3, u64::MAX), (2, 8), (2, 9), (2, 96), (2, 97), (0, 1), (1, 1), (4, 0)] {
        all.push(bare(kind, Some(n)));
    }
    let mut dense = bare(1, None);
    dense.extend((0..256).flat_map(|b| (25 + 2048 + b as u64).to_le_bytes()));
    dense.extend([0; 256]);
    all.push(dense[..dense.len() - 1].to_vec());
    all.push(dense);
    for n in [1, 2, 1 << 32, u64::MAX / 24, u64::MAX / 24 + 1, 1 << 61, 1 << 63, u64::MAX] {
        for list in 0..3 {
            let mut s = bare(3, Some(0));
            s[1 + 8 * list..9 + 8 * list].copy_from_slice(&n.to_le_bytes());
            all.push(s);
        }
    }
    all
}

/// Few pieces, and whether two of them conflict.
fn pieces_by_hand() -> Vec<(Vec<Piece>, bool)> {
    let p = |bytes: &[u8], address: u64, created: u64, destroyed: u64| Piece { at: Location::new(address, created, destroyed), bytes: bytes.to_vec() };
    let up: Vec<u8> = (0..16).collect();
    let conflicting = [
        // at one location, with one string in the other, at one address, and a string in its own life
        vec![p(b"a", 0, 1, 3), p(b"b", 0, 1, 3)],
        vec![p(b"ab", 0, 1, 3), p(b"a", 0, 1, 3)],
        vec![p(b"a", 0, 1, 3), p(b"b", 0, 2, 4)],
        vec![p(b"a", 0, 1, 3), p(b"a", 0, 2, 4)],
        vec![p(b"a", 0, 1, 9), p(b"a", 0, 2, 4)],
        vec![p(b"a", 0, 1, 3), p(b"a", 0, 1, 4)],
        // inside another, over its end, at its last byte, and a long life behind short ones
        vec![p(b"abc", 0, 1, 3), p(b"b", 1, 1, 3)],
        vec![p(b"ab", 0, 1, 3), p(b"ab", 1, 2, 4)],
        vec![p(&up, 0, 1, 3), p(b"x", 15, 2, 3)],
        vec![p(&up, u64::MAX - 16, 1, 3), p(b"x", u64::MAX - 1, 0, 2)],
        vec![p(b"a", 1, 1, 2), p(b"a", 1, 2, 3), p(b"a", 1, 3, 4), p(b"xy", 0, 3, 9)],
        vec![p(b"a", 1, 1, 9), p(b"a", 1, 9, 10), p(b"a", 1, 11, 12), p(b"xy", 0, 8, 9)],
    ];
    let free = [
        vec![p(b"a", 0, 1, 3), p(b"a", 0, 3, 4), p(b"b", 0, 4, 5)],
        vec![p(b"ab", 0, 1, 3), p(b"b", 1, 3, 4), p(b"b", 2, 1, 3)],
        vec![p(b"abc", 0, 1, 3), p(b"", 1, 1, 3), p(b"", 1, 2, 9), p(b"", 1, 1, 3)],
        vec![p(&up, 0, 1, 3), p(b"x", 16, 1, 3), p(b"x", 15, 0, 1), p(b"x", 15, 3, 4)],
        vec![p(b"a", 1, 1, 2), p(b"a", 1, 3, 4), p(b"xy", 0, 2, 3), p(b"xy", 0, 4, 9)],
    ];
    conflicting.map(|ps| (ps, true)).into_iter().chain(free.map(|ps| (ps, false))).collect()
}

/// Damage to the header, to what is held, to its certificate, or anywhere.
fn damaged_memory(whole: &Memory, r: &mut Random) -> Vec<u8> {
    let m = &whole.bytes;
    let (held, order) = (held_end(m), certified(whole));
    let mut s = m.to_vec();
    match r.below(13) {
        0 => s.truncate(r.below(66) as usize),
        1 => s = damaged(m, r),
        9..=11 if !order.is_empty() => damage_certificate(&mut s[order], r),
        2..=4 => {
            let at = 8 * r.below(8) as usize;
            let n = u64::from_le_bytes(m[at..at + 8].try_into().unwrap());
            let changed = r.pick(&[0, 1, n ^ 1, n.wrapping_add(1), n.wrapping_sub(1), n ^ (1 << 63), 1 << 20, (1 << 20) + 1, u64::MAX, n ^ (1 << 32)]);
            s[at..at + 8].copy_from_slice(&changed.to_le_bytes());
        }
        5..=8 if held > 64 => {
            let at = r.between(64, held as u64 - 1) as usize;
            s[at] ^= 1 << r.below(8);
        }
        _ => {
            let at = r.below(m.len() as u64) as usize;
            s[at] ^= 1 << r.below(8);
        }
    }
    s
}

/// An entry's number or end changed, two entries exchanged, one put in another's place, or a bit flipped.
fn damage_certificate(order: &mut [u8], r: &mut Random) {
    let n = order.len() as u64 / 16;
    let [at, other] = [0, 1].map(|_| 16 * r.below(n) as usize);
    match r.below(5) {
        0 | 1 => {
            let field = at + 8 * r.below(2) as usize;
            let old = u64::from_le_bytes(order[field..field + 8].try_into().unwrap());
            let new = r.pick(&[0, n - 1, n, old ^ 1, old.wrapping_add(1), old.wrapping_sub(1), old ^ (1 << 32), u64::MAX]);
            order[field..field + 8].copy_from_slice(&new.to_le_bytes());
        }
        2 => (0..16).for_each(|i| order.swap(at + i, other + i)),
        3 => order.copy_within(at..at + 16, other),
        _ => order[at + r.below(16) as usize] ^= 1 << r.below(8),
    }
}

// ── all recordings ──

/// Whether the recording with this seed is made by streams: every second one is.
fn by_streams(seed: u64) -> bool {
    Random::new(!seed).once_in(2)
}

fn compare(rec: &Recording, seed: u64, port: &mut Port, counts: &mut Counts, every_bit: bool) -> Compared {
    let mut r = Random::new(seed);
    let garbage = r.below(70) as usize;
    let lent = r.bytes(model::needed(rec.nodes, rec.entries) + garbage);
    port.mem.set(&lent);
    let model = Memory { level: Level::LANDED, bytes: lent, held: Held::Broken };
    let mut run = Run { port, counts, r, model, open: None, taken: Vec::new(), domain: Domain::default(), offered: Vec::new(), finished: None, calls: 0 };
    run.open(rec.nodes, rec.entries)?;
    let by_streams = by_streams(seed);
    run.all_calls(&rec.calls, by_streams)?;
    run.same_memory("memory after all calls")?;
    if run.finished.is_some() && run.model.bytes.len() < LARGE {
        same("what the memory holds, read back", &run.model.held, &model::held(Level::LANDED, &run.model.bytes))?;
    }
    run.as_one_stream()?;
    run.images()?;
    let times = if run.is_large() { 2 } else { 8 };
    run.conflicting(times)?;
    run.damaged_images(times)?;
    run.damaged_memories(times)?;
    run.streams(&rec.calls)?;
    if by_streams {
        run.damaged_streams(&rec.calls, times)?;
        run.counts.one("recordings by streams");
    }
    if every_bit {
        run.every_stream(&rec.calls, rec.nodes, rec.entries)?;
        run.every_image(&run.model.save(usize::MAX).unwrap())?;
        if run.offered.len() > run.taken.len() {
            run.every_image(&Published::of(&run.offered).image())?;
        }
        run.odd_images()?;
        run.conflicts_by_hand()?;
        run.every_bit()?;
    }
    if let Some(f) = &run.finished {
        same("whether what was taken is consistent", true, f.domain.consistent)?;
        run.counts.one(if f.domain.ends_differ { "recordings, every row list met" } else { "recordings, one-byte rows met" });
        run.counts.add("recordings with blocks turned back for a conflict", (run.offered.len() > run.taken.len()) as u64);
    }
    if run.is_large() {
        run.counts.one("recordings with over 1 MB of memory");
        run.counts.add("blocks taken in recordings with over 1 MB of memory", run.taken.len() as u64);
    }
    run.counts.one("recordings");
    Ok(())
}

/// A panic, the Rust's own too, is a difference like any other.
fn tried(rec: &Recording, seed: u64, port: &mut Port, counts: &mut Counts, every_bit: bool) -> Compared {
    catch_unwind(AssertUnwindSafe(|| compare(rec, seed, port, counts, every_bit))).unwrap_or_else(|_| Err("panic".into()))
}

/// Leaves out calls, many at once at first, and then bytes of blocks and queries, as long as something still differs.
fn shrink(mut rec: Recording, seed: u64) -> (Recording, String) {
    let differs = |r: &Recording| tried(r, seed, &mut Port::new(), &mut Counts::default(), false).err();
    let mut why = String::new();
    let mut part = rec.calls.len() / 2;
    while part > 0 {
        let mut i = 0;
        while i < rec.calls.len() {
            let mut less = rec.clone();
            less.calls.drain(i..(i + part).min(rec.calls.len()));
            match differs(&less) {
                Some(e) => (rec, why) = (less, e),
                None => i += part,
            }
        }
        part /= 2;
    }
    while let Some((less, e)) = (0..rec.calls.len()).flat_map(|i| lesser(&rec, i)).find_map(|less| differs(&less).map(|e| (less, e))) {
        (rec, why) = (less, e);
    }
    (rec, why)
}

/// The recording without call i, and with fewer bytes in it.
fn lesser(rec: &Recording, i: usize) -> Vec<Recording> {
    let mut all = Vec::new();
    let mut with = |c: Option<Call>| {
        let mut calls = rec.calls.clone();
        match c {
            Some(c) => calls[i] = c,
            None => drop(calls.remove(i)),
        }
        all.push(Recording { calls, ..rec.clone() });
    };
    with(None);
    match &rec.calls[i] {
        Call::Record(b) if !b.bytes.is_empty() => {
            with(Some(Call::Record(Block { bytes: b.bytes[..b.bytes.len() / 2].to_vec(), ..b.clone() })));
            with(Some(Call::Record(Block { bytes: b.bytes[..b.bytes.len() - 1].to_vec(), ..b.clone() })));
        }
        Call::Find(q) if !q.is_empty() => {
            with(Some(Call::Find(q[1..].to_vec())));
            with(Some(Call::Find(q[..q.len() - 1].to_vec())));
        }
        _ => {}
    }
    all
}

fn report(number: u64, rec: Recording, seed: u64, why: String) -> ! {
    println!("recording {number}{} differs: {why}\n{rec}", if by_streams(seed) { ", made by streams," } else { "" });
    std::panic::set_hook(Box::new(|_| {}));
    let (small, still) = shrink(rec, seed);
    if !still.is_empty() {
        println!("the smallest recording found that differs: {still}\n{small}");
    }
    std::process::exit(1);
}

fn main() {
    let given: Vec<u64> = std::env::args().skip(1).map(|a| a.parse().expect("SEED COUNT FIRST are numbers")).collect();
    let (seed, count, first) = (given.first().copied().unwrap_or(1), given.get(1).copied().unwrap_or(10_000), given.get(2).copied().unwrap_or(0));
    let (mut port, mut counts) = (Port::new(), Counts::default());
    for rec in small() {
        if let Err(why) = tried(&rec, seed, &mut port, &mut counts, true) {
            println!("{why}\n{rec}");
            std::process::exit(1);
        }
    }
    for number in first..first + count {
        let rec = make(Level::LANDED, seed, number);
        let own = seed ^ number.wrapping_mul(0xd1342543de82ef95);
        if let Err(why) = tried(&rec, own, &mut port, &mut counts, false) {
            report(number, rec, own, why);
        }
        if number % 1000 == 999 {
            eprintln!("{} recordings", number + 1 - first);
        }
    }
    println!("seed {seed}, recordings {first} to {}: no difference", first + count - 1);
    for (what, n) in &counts.0 {
        println!("{n:>12}  {what}");
    }
}
