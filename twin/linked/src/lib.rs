//! The exports of the proved board in Rust (`board`, over `exports`), a test that holds them against
//! the twin (`differ`), and what both cost (`bench`).

pub mod bench;
pub mod board;
pub mod deed;
pub mod differ;
pub mod exports;
pub mod faults;
pub mod lent;
pub mod pair;
pub mod side;
pub mod trace;
