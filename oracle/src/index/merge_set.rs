//! Stand-in for a module that is not at hand: just what mod.rs names, and nothing that the search uses.
use std::any::Any;

pub enum OverlapComparison {
    Less,
    Overlap,
    Greater,
}

pub trait OverlapComparable: Sized {
    fn cmp(&self, other: &Self) -> OverlapComparison;
    fn combine(self, overlapping: Vec<Self>, combine_ctx: &mut dyn Any) -> Vec<Self>;
}

pub struct MergeSet<T> {
    members: Vec<T>,
}

impl<T> MergeSet<T> {
    pub fn new() -> Self {
        Self { members: Vec::new() }
    }

    pub fn insert(&mut self, member: T, _ctx: &mut dyn Any) {
        self.members.push(member);
    }

    pub fn extract_members(&mut self) -> Vec<T> {
        std::mem::take(&mut self.members)
    }
}
