//! The numbers given back, the limits they speak of, and the widths of records.

/// A refusal: its number, and the place of the offending field.
#[derive(Clone, Copy, PartialEq, Eq, Debug)]
pub struct Refusal {
    pub number: u32,
    pub place: usize,
}

impl Refusal {
    pub const fn new(number: u32, place: usize) -> Refusal {
        Refusal { number, place }
    }
}

/// The bytes end before a field does.
pub const CUT: u32 = 1;
/// The first block is no file header.
pub const NO_HEADER: u32 = 2;
/// The header's sizes disagree with the file's length.
pub const FILE_SIZE: u32 = 3;
/// A profile bit that isn't supported.
pub const PROFILE: u32 = 4;
/// A padding byte that isn't 0.
pub const PADDING: u32 = 5;
/// An unknown block type.
pub const BLOCK_TYPE: u32 = 6;
/// A modifier chain too deep, not filled exactly, or with bad fields.
pub const CHAIN: u32 = 7;
/// A name too long, or unlike its declaration's.
pub const NAME: u32 = 8;
/// A length or count above its limit, a bone count that isn't 0, or a request
/// neither up nor down.
pub const LIMIT: u32 = 9;
/// A coded value outside its range.
pub const VALUE: u32 = 10;
/// Blocks out of order, a chain index, attributes or counts that disagree.
pub const ORDER: u32 = 11;
/// The caller's buffer or table can't hold the result.
pub const ROOM: u32 = 12;
/// Climb text or step table not of its form.
pub const FORM: u32 = 13;
/// A step that its rules don't allow.
pub const STEP: u32 = 14;
/// Present counts that disagree with the step table.
pub const COUNTS: u32 = 15;
/// No step that way.
pub const NO_STEP: u32 = 16;
/// Bytes left after a declaration's last field.
pub const LEFT_OVER: u32 = 17;
/// Table records, coder state or histogram not well formed.
pub const STATE: u32 = 18;

/// A file, mesh data or coder buffer: 16 MiB.
pub const MAX_BYTES: usize = 16 << 20;
/// Records of a pool, and faces.
pub const MAX_RECORDS: u32 = 65_536;
pub const MAX_SHADINGS: usize = 64;
pub const MAX_NAME: usize = 255;
/// Levels of modifier chains.
pub const MAX_LEVELS: u32 = 4;
/// Steps of a list, and of a request.
pub const MAX_STEPS: u32 = 4_096;
/// Moves in a step.
pub const MAX_MOVES: u32 = 64;
/// New faces in a step.
pub const MAX_NEW_FACES: u32 = 64;

/// Texture layers of a shading, at most.
pub const TEXTURE_LAYERS: usize = 2;
pub const CORNERS: usize = 3;
/// A corner's numbers: position, normal, diffuse, specular, the layers.
pub const CORNER: usize = 4 + TEXTURE_LAYERS;
/// A face's numbers: shading, then its corners.
pub const FACE: usize = 1 + CORNERS * CORNER;
/// A position's numbers.
pub const POSITION: usize = 3;
/// A corner number that the face doesn't have.
pub const ABSENT: u32 = 0xFFFF_FFFF;

/// Nothing where all is fine, else the number.
pub(crate) fn judge(fine: bool, number: u32) -> Result<(), u32> {
    if fine {
        Ok(())
    } else {
        Err(number)
    }
}
