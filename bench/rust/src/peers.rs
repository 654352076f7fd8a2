//! The other indexes.
pub mod owned;
pub mod threads;
