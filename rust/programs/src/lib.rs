//! What the line programs are made of: each reads a line and prints a line.

pub mod lines;
pub mod lister;
pub mod replay;
pub mod text;
