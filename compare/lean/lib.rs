//! Builds the crates behind it, and is nothing itself.
