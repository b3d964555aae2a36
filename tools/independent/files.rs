//! The writer of test files: pieces of files from a description or from a seed, and damage to them.

pub mod blocks;
pub mod climb;
pub mod damage;
pub mod mesh;
pub mod piece;
