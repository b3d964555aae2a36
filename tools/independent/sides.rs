//! The two sides of a comparison: the library's functions, and what the independent program says of each.

pub mod expected;
#[path = "../../include/oysterfold.rs"]
pub mod library;

pub use library::Request;

/// Words of a result: place and one other; of a header's; of a declaration's; of a mesh's.
pub const RESULT_WORDS: usize = 2;
pub const HEADER_RESULT_WORDS: usize = 8;
pub const DECLARATION_RESULT_WORDS: usize = 4;
pub const MESH_RESULT_WORDS: usize = 9;
/// Words of a coder's state, and of the present counts.
pub const READER_WORDS: usize = 4;
pub const WRITER_WORDS: usize = 5;
pub const COUNT_WORDS: usize = 2;

/// Reads bytes into a table; the result is place and one other word.
pub type Reading<T> = fn(&[u8], &mut [T], &mut [u64]) -> u32;
/// Reads a declaration's and a continuation's data into six tables.
pub type MeshReading = fn(&[u8], &[u8], [&mut [u32]; 6], &mut [u64]) -> u32;
/// Reads with state, data, histogram and result.
pub type DynamicReading = fn(&mut [u64], &[u8], &mut [u32], &mut [u64]) -> u32;
/// One step, with list, shading count, faces, positions and counts.
pub type Step = fn(&[u32], u32, &mut [u32], &mut [u32], &mut [u32]) -> u32;
/// A walk, with list, shading count, requests, faces, positions, counts and result.
pub type Steps = fn(&[u32], u32, &[Request], &mut [u32], &mut [u32], &mut [u32], &mut [u64]) -> u32;

/// Each answers the number; parameters are those of the exported function.
pub struct Side {
    pub header: fn(&[u8], &mut [u64]) -> u32,
    pub walk: Reading<u32>,
    pub listing: Reading<u8>,
    pub declaration: Reading<u32>,
    pub read_mesh: MeshReading,
    pub writer_fresh: fn(&mut [u64]) -> u32,
    pub reader_fresh: fn(&mut [u64]) -> u32,
    pub histogram_fresh: fn(&mut [u32]) -> u32,
    pub write_static: fn(&mut [u64], &mut [u8], u32, u32) -> u32,
    pub write_dynamic: fn(&mut [u64], &mut [u8], &mut [u32], u32) -> u32,
    pub write_plain: fn(&mut [u64], &mut [u8], u32, u32) -> u32,
    pub write_end: fn(&mut [u64], &mut [u8], &mut [u64]) -> u32,
    pub read_static: fn(&mut [u64], &[u8], u32, &mut [u64]) -> u32,
    pub read_dynamic: DynamicReading,
    pub read_plain: fn(&mut [u64], &[u8], u32, &mut [u64]) -> u32,
    pub read_climb: Reading<u32>,
    pub up: Step,
    pub down: Step,
    pub steps: Steps,
}

macro_rules! side {
    ($module:ident) => {
        Side {
            header: $module::header,
            walk: $module::walk,
            listing: $module::listing,
            declaration: $module::declaration,
            read_mesh: $module::read_mesh,
            writer_fresh: $module::writer_fresh,
            reader_fresh: $module::reader_fresh,
            histogram_fresh: $module::histogram_fresh,
            write_static: $module::write_static,
            write_dynamic: $module::write_dynamic,
            write_plain: $module::write_plain,
            write_end: $module::write_end,
            read_static: $module::read_static,
            read_dynamic: $module::read_dynamic,
            read_plain: $module::read_plain,
            read_climb: $module::read_climb,
            up: $module::up,
            down: $module::down,
            steps: $module::steps,
        }
    };
}

pub const LIBRARY: Side = side!(library);
pub const INDEPENDENT: Side = side!(expected);
