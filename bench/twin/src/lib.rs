//! The step machine of the line in plain Rust, without proofs: what the proved line is compared with.
//!
//! Words and trays lie where they lie for the proved line, every grant makes the same access, and every call tests in the
//! same order.
pub mod board;
pub mod collector;
pub mod crew;
pub mod lane;
pub mod shape;
