//! The one name that the index takes from this crate: SpaceKind, as document 01 gives it.
pub mod prelude {
    #[derive(Clone, Copy, PartialEq, Eq, Debug)]
    pub enum SpaceKind {
        Constant,
        Memory,
        Register,
        Unique,
        Other,
    }
}
