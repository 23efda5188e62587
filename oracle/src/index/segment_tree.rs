//! Stand-in for a module that is not at hand.
