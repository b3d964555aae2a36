//! Block files: header, declarations, chains in chains, continuations (clauses 9.2, 9.4.1, 9.4.3).

use super::damage::other_value;
use super::piece::Piece;
use crate::random::Random;
use crate::refusal::{MAX_LEVELS, MAX_NAME};

pub const HEADER: u32 = 0x0044_3355;
pub const GROUP_NODE: u32 = 0xFFFF_FF21;
const MESH_DECLARATION: u32 = 0xFFFF_FF31;
const BASE_MESH: u32 = 0xFFFF_FF3B;
const CHAIN: u32 = 0xFFFF_FF14;
const KNOWN: u32 = 0xFFFF_FF00;
/// Last bytes of the known types, the chain left out.
const DECLARATIONS: [u8; 21] = [
    0x12, 0x16, 0x21, 0x22, 0x23, 0x24, 0x31, 0x36, 0x37, 0x41, 0x42, 0x43, 0x44, 0x45, 0x46, 0x51,
    0x52, 0x53, 0x54, 0x55, 0x56,
];
const CONTINUATIONS: [u8; 6] = [0x15, 0x3B, 0x3C, 0x3E, 0x3F, 0x5C];

/// Bytes of the header's data, without units and with them.
const HEADER_DATA: u32 = 24;
const HEADER_DATA_WITH_UNITS: u32 = 32;
const PROFILES: [u32; 4] = [0x0, 0x2, 0x8, 0xA];
const DEFINED_UNITS: u32 = 0x8;
const UTF8: u32 = 106;
/// Where the header's profile and sizes stand.
const PROFILE_AT: usize = 16;
const DECLARATION_SIZE_AT: usize = 20;
const FILE_SIZE_AT: usize = 24;

const DATA_SIZE_AT: usize = 4;
const META_SIZE_AT: usize = 8;
/// Bytes of a block before its data.
pub const HEAD: usize = 12;

const LEVELS: usize = MAX_LEVELS as usize;
const CHAIN_TYPES: u32 = 3;
const MOST_DATA: usize = 20;
const MOST_IN_CHAIN: usize = 4;
const MOST_BLOCKS: usize = 5;

/// A header without meta data; its sizes are set when the file is whole. The units scaling factor's pattern is put where the profile has
/// units.
fn put_header(file: &mut Piece, profile: u32, units: u64) {
    let has_units = profile & DEFINED_UNITS != 0;
    let size = if has_units {
        HEADER_DATA_WITH_UNITS
    } else {
        HEADER_DATA
    };
    for number in [HEADER, size, 0, 0, profile, 0, 0, 0, UTF8] {
        file.put_u32(number);
    }
    if has_units {
        file.put_u32(units as u32);
        file.put_u32((units >> 32) as u32);
    }
}

/// Both sizes in the header follow from the file's length.
pub fn set_sizes(file: &mut Piece, declaration_size: u32) {
    let length = file.bytes.len() as u32;
    file.set_u32(DECLARATION_SIZE_AT, declaration_size);
    file.set_u32(FILE_SIZE_AT, length);
    file.set_u32(FILE_SIZE_AT + 4, 0);
}

/// Type, and sizes that are set when data and meta data are known; gives the block's start.
fn open_block(file: &mut Piece, block_type: u32) -> usize {
    let start = file.bytes.len();
    file.put_u32(block_type);
    file.put_u32(0);
    file.put_u32(0);
    start
}

/// All since the head is the block's data.
fn close_data(file: &mut Piece, start: usize) {
    let size = file.bytes.len() - start - HEAD;
    file.set_u32(start + DATA_SIZE_AT, size as u32);
    file.pad_from(start + HEAD);
}

fn put_meta(file: &mut Piece, start: usize, meta: &[u8]) {
    let meta_start = file.bytes.len();
    file.set_u32(start + META_SIZE_AT, meta.len() as u32);
    file.put_bytes(meta);
    file.pad_from(meta_start);
}

pub fn put_block(file: &mut Piece, block_type: u32, data: &[u8], meta: &[u8]) {
    let start = open_block(file, block_type);
    file.put_bytes(data);
    close_data(file, start);
    put_meta(file, start, meta);
}

/// A chain to its modifier count; gives the block's start.
pub fn open_chain(file: &mut Piece, name: &[u8], chain_type: u32, count: u32) -> usize {
    let start = open_block(file, CHAIN);
    file.put_name(name);
    file.put_u32(chain_type);
    file.put_u32(0);
    file.pad_from(start + HEAD);
    file.put_u32(count);
    start
}

pub fn close_chain(file: &mut Piece, start: usize, meta: &[u8]) {
    close_data(file, start);
    put_meta(file, start, meta);
}

/// Names up to the limit, at times above it.
pub fn random_name(random: &mut Random) -> Vec<u8> {
    let length = match random.below(60) {
        0 => random.from_to(MAX_NAME - 2, MAX_NAME + 2),
        _ => random.below(7),
    };
    (0..length).map(|_| b'a' + random.below(26) as u8).collect()
}

fn random_bytes(random: &mut Random) -> Vec<u8> {
    let length = if random.once_in(2) {
        0
    } else {
        random.below(MOST_DATA + 1)
    };
    random.bytes(length)
}

fn random_block(file: &mut Piece, random: &mut Random, types: &[u8]) {
    let block_type = KNOWN + u32::from(random.pick(types));
    let (data, meta) = (random_bytes(random), random_bytes(random));
    put_block(file, block_type, &data, &meta);
}

/// A chain of blocks; `deeper` more levels can follow inside.
fn random_chain(file: &mut Piece, random: &mut Random, deeper: usize) {
    let count = random.below(MOST_IN_CHAIN);
    let name = random_name(random);
    let chain_type = random.u32_below(CHAIN_TYPES);
    let start = open_chain(file, &name, chain_type, count as u32);
    for _ in 0..count {
        random_declaration(file, random, deeper);
    }
    let meta = random_bytes(random);
    close_chain(file, start, &meta);
}

fn random_declaration(file: &mut Piece, random: &mut Random, deeper: usize) {
    if deeper > 0 && random.once_in(2) {
        random_chain(file, random, deeper - 1);
    } else {
        random_block(file, random, &DECLARATIONS);
    }
}

/// Chains in one another and nothing else.
fn put_bare_nest(file: &mut Piece, levels: usize) {
    if levels == 0 {
        return;
    }
    let start = open_chain(file, b"", 0, u32::from(levels > 1));
    put_bare_nest(file, levels - 1);
    close_chain(file, start, b"");
}

fn random_blocks(file: &mut Piece, random: &mut Random) -> u32 {
    for _ in 0..random.below(MOST_BLOCKS) {
        random_declaration(file, random, LEVELS);
    }
    if random.once_in(8) {
        let levels = random.from_to(1, LEVELS + 2);
        put_bare_nest(file, levels);
    }
    let declared = file.bytes.len() as u32;
    for _ in 0..random.below(MOST_BLOCKS) {
        random_block(file, random, &CONTINUATIONS);
    }
    declared
}

/// A file that is mostly taken: at times a name is too long or a nest too deep.
pub fn random_file(random: &mut Random) -> Piece {
    let mut file = Piece::new();
    let profile = random.pick(&PROFILES);
    let units = random.u64();
    put_header(&mut file, profile, units);
    if random.once_in(6) {
        let meta = random_bytes(random);
        put_meta(&mut file, 0, &meta);
    }
    let declared = random_blocks(&mut file, random);
    set_sizes(&mut file, declared);
    file
}

/// The sizes in a damaged header follow its length again, so that damage behind it is reached.
pub fn mend_sizes(file: &mut Piece, random: &mut Random) {
    let declared = if random.once_in(2) {
        0
    } else {
        file.bytes.len() as u32
    };
    set_sizes(file, declared);
}

/// The blocks of another file after this one's, and the meta data of its header before them.
pub fn append(file: &mut Piece, other: &Piece) {
    let data = other.u32_at(DATA_SIZE_AT).unwrap_or(HEADER_DATA) as usize;
    let blocks = other.bytes.get(HEAD + data..).unwrap_or(&[]);
    file.put_bytes(blocks);
}

/// Bytes in which a header's fields stand, and a little more.
const ABOUT_HEADER: usize = 56;
/// Profiles that a damaged header may have: all with no bit above 0x8.
const LOW_PROFILES: u32 = 0x10;

/// A file that is cut about its header's end, or has another number in its header.
pub fn damage_header(file: &mut Piece, random: &mut Random) {
    match random.below(4) {
        0 => file.bytes.truncate(random.below(ABOUT_HEADER)),
        1 => file.set_u32(PROFILE_AT, random.u32_below(LOW_PROFILES)),
        2 => file.set_u32(DATA_SIZE_AT, random.pick(&[24, 32, 0, 28, 36, u32::MAX])),
        _ => {
            let at = random.below(ABOUT_HEADER / 4) * 4;
            let value = file.u32_at(at).unwrap_or(0);
            file.set_u32(at, other_value(random, value));
        }
    }
}

const CHAIN_BLOCKS: usize = 50;
const TOP_BLOCKS: usize = 150;
/// More than one round of blocks takes.
const ROUND_ROOM: usize = 8 * 1024;

/// Every fifth has data.
fn put_small_blocks(file: &mut Piece, count: usize) {
    for at in 0..count {
        let data: &[u8] = if at % 5 == 4 { b"abcde" } else { b"" };
        put_block(file, GROUP_NODE, data, b"");
    }
}

fn put_small_chain(file: &mut Piece) {
    let start = open_chain(file, b"ab", 1, CHAIN_BLOCKS as u32);
    put_small_blocks(file, CHAIN_BLOCKS);
    close_chain(file, start, b"");
}

/// Chains in one another, a chain of blocks in the innermost.
fn put_nest(file: &mut Piece, levels: usize) {
    if levels == 1 {
        return put_small_chain(file);
    }
    let start = open_chain(file, b"ab", 1, 1);
    put_nest(file, levels - 1);
    close_chain(file, start, b"");
}

/// A file of small blocks, of `limit` bytes or a little less: a multiple of 4.
pub fn large_file(limit: usize) -> Vec<u8> {
    let mut file = Piece::new();
    put_header(&mut file, 0, 0);
    put_nest(&mut file, LEVELS);
    while file.bytes.len() + ROUND_ROOM <= limit {
        put_small_blocks(&mut file, TOP_BLOCKS);
        put_small_chain(&mut file);
    }
    while file.bytes.len() + HEAD <= limit {
        put_block(&mut file, GROUP_NODE, b"", b"");
    }
    let length = file.bytes.len() as u32;
    set_sizes(&mut file, length);
    file.bytes
}

/// A file of meshes: all declarations, then all base meshes.
pub fn mesh_file(declarations: &[Vec<u8>], base_meshes: &[Vec<u8>]) -> Vec<u8> {
    let mut file = Piece::new();
    put_header(&mut file, 0, 0);
    let mut put_blocks = |block_type: u32, all: &[Vec<u8>]| {
        all.iter()
            .for_each(|data| put_block(&mut file, block_type, data, b""));
        file.bytes.len() as u32
    };
    let declared = put_blocks(MESH_DECLARATION, declarations);
    put_blocks(BASE_MESH, base_meshes);
    set_sizes(&mut file, declared);
    file.bytes
}
