//! A second program, written from the paper and not from the board's sources, that compares the board with its own model of the same tools.
//!
//! Read top to bottom:
//! `model` is every tool in the plainest way that follows the paper's sentences,
//! `board` is the library under comparison,
//! `comparison` calls both and compares answers and buffers,
//! `sheets` makes orders and sheets of every kind,
//! `parts` is what is compared,
//! `plain` is straightforward Rust beside the board in the benchmark.

pub mod model;

pub mod board;

pub mod random;

pub mod comparison;

pub mod sheets;

pub mod parts;

pub mod plain;
