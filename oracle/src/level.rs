//! What the model and the recordings go by.

/// 0 is document 01 alone, k has requests 1 to k besides.
#[derive(Clone, Copy, Debug, PartialEq, Eq, PartialOrd, Ord)]
pub struct Level(pub u32);

impl Level {
    /// What the calls do now.
    pub const LANDED: Level = Level(3);

    pub fn has(self, request: u32) -> bool {
        request <= self.0
    }
}
