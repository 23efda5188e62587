//! Answers to lines in the forms of `places`, by the published index as it is: blocks are recorded, finish finalizes, find
//! gives rows, (save) the saved image in hexadecimal, and (new) begins a new recording and says nothing.
//! No check of document 01 is made here: hand over only the blocks that were taken.
use crate::index::string_index::StringIndex;
use crate::index::{Index, SpacetimeBlock};
use crate::recording::hex;
use crate::sink::Sink;
use dataflow::prelude::SpaceKind;

pub fn bytes(hex: &str) -> Vec<u8> {
    (0..hex.len() / 2).map(|i| u8::from_str_radix(&hex[2 * i..2 * i + 2], 16).unwrap()).collect()
}

/// The words of a form, its brackets left out.
pub fn words(line: &str) -> Vec<&str> {
    line.split(|c| " ()".contains(c)).filter(|w| !w.is_empty()).collect()
}

pub struct Answering {
    index: StringIndex<Sink>,
    sink: Sink,
}

impl Default for Answering {
    fn default() -> Self {
        let sink = Sink::default();
        Self { index: StringIndex::new(sink.clone()), sink }
    }
}

impl Answering {
    fn block(&mut self, words: &[&str]) {
        let data = bytes(words.get(5).copied().unwrap_or(""));
        self.index.record(SpacetimeBlock {
            space: SpaceKind::Memory,
            address: words[2].parse().unwrap(),
            len: data.len(),
            created_at: words[3].parse().unwrap(),
            destroyed_at: words[4].parse().unwrap(),
            data,
        });
    }

    fn find(&self, q: &[u8]) -> String {
        let rows = self.index.search(q);
        let places: String = rows.iter().map(|r| format!("(place {} {} {})\n", r.address, r.created_at, r.destroyed_at)).collect();
        format!("{places}(end {})\n", rows.len())
    }

    /// What a line is answered, with the newlines.
    pub fn line(&mut self, line: &str) -> String {
        let words = words(line);
        match words.first().copied() {
            Some("block") => {
                if words[1] == "1" {
                    self.block(&words);
                }
                "(taken)\n".into()
            }
            Some("finish") => {
                self.index.finalize();
                "(finished)\n".into()
            }
            Some("save") => {
                self.index.save().unwrap();
                format!("(image {})\n", hex(&self.sink.take()))
            }
            Some("find") => self.find(&bytes(words.get(1).copied().unwrap_or(""))),
            Some("new") => {
                *self = Self::default();
                String::new()
            }
            _ => "(refused 17)\n".into(),
        }
    }
}
