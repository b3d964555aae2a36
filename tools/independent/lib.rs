//! Universal 3D blocks, meshes and the bit coder, read independently.

#![forbid(unsafe_code)]

pub mod blocks;
pub mod climb;
pub mod coder;
mod fields;
pub mod files;
pub mod mesh;
pub mod random;
pub mod refusal;
pub mod steps;
