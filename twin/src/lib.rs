//! A second telling of the record board, written from document 01 and request 1 of document 02.

pub mod area;
pub mod board;
pub mod cases;
pub mod random;
pub mod runfile;
pub mod script;
pub mod text;
