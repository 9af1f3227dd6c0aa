//! What is compared, part by part.

pub mod by_hand;
pub mod cards;
pub mod columns;
pub mod orders;
pub mod plain_agrees;
pub mod prices;
pub mod refusals;
pub mod runs;
pub mod verdicts;
