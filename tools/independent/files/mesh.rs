//! The data of a mesh declaration and of a base mesh continuation (clauses 9.6.1.1, 9.6.1.2).

use super::blocks::random_name;
use super::piece::Piece;
use crate::coder::{fresh_histogram, Histogram, State, Writer};
use crate::random::Random;
use crate::refusal::{ABSENT, CORNER, FACE, MAX_SHADINGS, POSITION, TEXTURE_LAYERS};

/// The tables of a mesh, in the order of their counts.
pub const TABLES: usize = 6;
pub const FACES: usize = 0;
pub const POSITIONS: usize = 1;
const TEXTURE: usize = 5;
/// Numbers in a record of each table.
pub const WIDTHS: [usize; TABLES] = [FACE, POSITION, 3, 4, 4, 4];

pub const NO_NORMALS: u32 = 1;
pub const DIFFUSE_BIT: u32 = 1;
pub const SPECULAR_BIT: u32 = 2;
/// Above this range a number is coded as a plain U32.
pub const LARGEST_RANGE: u32 = 0x3FFE;
const LARGEST_DYNAMIC: u32 = 255;
/// From this total on all weights are halved before one rises.
const HALVING_TOTAL: u32 = 0x1FFF;

const DIMENSIONS: u32 = 2;
const QUALITY: u32 = 1000;
const ONE: u32 = 0x3F80_0000;
/// Inverse quants and resource parameters.
const RESOURCE_NUMBERS: usize = 8;
/// Bytes that suffice for a coded number, and for the end.
const NUMBER_ROOM: usize = 6;
const END_ROOM: usize = 64;

#[derive(Clone, Copy, Default)]
pub struct Shading {
    pub attributes: u32,
    pub layers: u32,
}

/// What is to be written. Nothing here is judged, so that a mesh may be one that is refused.
#[derive(Clone, Default)]
pub struct MeshPlan {
    pub name: Vec<u8>,
    pub attributes: u32,
    pub declared: [u32; TABLES],
    pub base: [u32; TABLES],
    pub shadings: Vec<Shading>,
}

/// Picks the numbers of a mesh.
pub trait Picks {
    fn pool_word(&mut self) -> u32;
    fn shading(&mut self, plan: &MeshPlan) -> u32;
    /// `range` is not 0.
    fn corner(&mut self, state: &State, range: u32) -> u32;
    /// Whether a shading already seen is written as an escape, where the coder lets it.
    fn escapes(&mut self) -> bool {
        false
    }
}

/// What the coded faces are like.
#[derive(Default)]
pub struct CodedFaces {
    pub bytes: Vec<u8>,
    /// Bits, before the end was written.
    pub settled: u64,
    pub most_pending: u64,
    pub records: Vec<u32>,
}

fn put_start(piece: &mut Piece, plan: &MeshPlan) {
    piece.put_name(&plan.name);
    piece.put_u32(0);
}

fn put_counts(piece: &mut Piece, counts: &[u32; TABLES]) {
    counts.iter().for_each(|&count| piece.put_u32(count));
}

fn put_shading(piece: &mut Piece, shading: &Shading, id: u32) {
    piece.put_u32(shading.attributes);
    piece.put_u32(shading.layers);
    (0..shading.layers).for_each(|_| piece.put_u32(DIMENSIONS));
    piece.put_u32(id);
}

pub fn declaration(plan: &MeshPlan) -> Piece {
    let mut piece = Piece::new();
    put_start(&mut piece, plan);
    piece.put_u32(plan.attributes);
    put_counts(&mut piece, &plan.declared);
    piece.put_u32(plan.shadings.len() as u32);
    for (id, shading) in plan.shadings.iter().enumerate() {
        put_shading(&mut piece, shading, id as u32);
    }
    piece.put_u32(plan.base[POSITIONS]);
    piece.put_u32(plan.declared[POSITIONS]);
    (0..3).for_each(|_| piece.put_u32(QUALITY));
    (0..RESOURCE_NUMBERS).for_each(|_| piece.put_u32(ONE));
    piece.put_u32(0);
    piece
}

/// Whether a corner under this shading has the field.
fn has_field(plan: &MeshPlan, shading: u32, field: usize) -> bool {
    let Some(shading) = plan.shadings.get(shading as usize) else {
        return field == 0;
    };
    [
        true,
        plan.attributes & NO_NORMALS == 0,
        shading.attributes & DIFFUSE_BIT != 0,
        shading.attributes & SPECULAR_BIT != 0,
        shading.layers > 0,
        shading.layers > 1,
    ][field]
}

/// A weight of a histogram rises by 1; index 0 is escape's.
fn raise(histogram: &mut Histogram, symbol: usize) {
    if histogram.iter().sum::<u32>() >= HALVING_TOTAL {
        histogram.iter_mut().for_each(|weight| *weight /= 2);
        histogram[0] += 1;
    }
    histogram[symbol] += 1;
}

struct FaceWriter<'a> {
    plan: &'a MeshPlan,
    writer: Writer,
    buffer: Vec<u8>,
    histogram: Histogram,
    coded: CodedFaces,
}

const ROOM: &str = "the buffer has room for every face";

impl FaceWriter<'_> {
    fn new(plan: &MeshPlan) -> FaceWriter<'_> {
        let faces = plan.base[FACES] as usize;
        FaceWriter {
            plan,
            writer: Writer::fresh(),
            buffer: vec![0; faces * WIDTHS[FACES] * NUMBER_ROOM + END_ROOM],
            histogram: fresh_histogram(),
            coded: CodedFaces::default(),
        }
    }

    /// Escape has the same part of the limits as 0 has in this static range, if there is one.
    fn escape_range(&self) -> Option<u32> {
        let (escape, total) = (self.histogram[0], self.histogram.iter().sum::<u32>());
        (total % escape == 0).then_some(total / escape)
    }

    /// Any value after an escape, also one already seen, or one that no dynamic context holds.
    fn write_escaped(&mut self, range: u32, value: u32) {
        self.writer
            .write_static(&mut self.buffer, range, 0)
            .expect(ROOM);
        self.writer
            .write_plain(&mut self.buffer, 4, value)
            .expect(ROOM);
        raise(&mut self.histogram, 0);
        if value <= LARGEST_DYNAMIC {
            raise(&mut self.histogram, value as usize + 1);
        }
    }

    fn write_shading(&mut self, value: u32, escaped: bool) {
        let too_large = value > LARGEST_DYNAMIC;
        match self.escape_range() {
            Some(range) if escaped || too_large => self.write_escaped(range, value),
            _ => self
                .writer
                .write_dynamic(
                    &mut self.buffer,
                    &mut self.histogram,
                    value.min(LARGEST_DYNAMIC),
                )
                .expect(ROOM),
        }
    }

    /// A number not below its range can only be written plain.
    fn write_corner(&mut self, range: u32, value: u32) {
        let (writer, buffer) = (&mut self.writer, &mut self.buffer);
        let written = match value < range {
            true => writer.write_static(buffer, range, value),
            false => writer.write_plain(buffer, 4, value),
        };
        written.expect(ROOM);
        self.coded.most_pending = self.coded.most_pending.max(self.writer.state.pending);
    }

    /// A field of range 0 is left out of the coded bits.
    fn write_field(&mut self, picks: &mut impl Picks, shading: u32, field: usize) {
        let range = self.plan.base[(POSITIONS + field).min(TEXTURE)];
        let mut value = ABSENT;
        if has_field(self.plan, shading, field) && range > 0 {
            value = picks.corner(&self.writer.state, range);
            self.write_corner(range, value);
        }
        self.coded.records.push(value);
    }

    fn write_face(&mut self, picks: &mut impl Picks) {
        let shading = picks.shading(self.plan);
        let escaped = picks.escapes();
        self.write_shading(shading, escaped);
        self.coded.records.push(shading);
        for number in 0..WIDTHS[FACES] - 1 {
            self.write_field(picks, shading, number % CORNER);
        }
    }

    fn end(mut self) -> CodedFaces {
        self.coded.settled = self.writer.state.settled;
        let used = self.writer.end(&mut self.buffer).expect(ROOM);
        self.buffer.truncate(used);
        self.coded.bytes = self.buffer;
        self.coded
    }
}

fn put_pools(piece: &mut Piece, plan: &MeshPlan, picks: &mut impl Picks) {
    for (&count, &width) in plan.base.iter().zip(&WIDTHS).skip(POSITIONS) {
        let numbers = count as usize * width;
        (0..numbers).for_each(|_| piece.put_bytes(&picks.pool_word().to_le_bytes()));
    }
}

pub fn continuation(plan: &MeshPlan, picks: &mut impl Picks) -> (Piece, CodedFaces) {
    let mut piece = Piece::new();
    put_start(&mut piece, plan);
    put_counts(&mut piece, &plan.base);
    put_pools(&mut piece, plan, picks);
    let mut faces = FaceWriter::new(plan);
    for _ in 0..plan.base[FACES] {
        faces.write_face(picks);
    }
    let coded = faces.end();
    piece.put_bytes(&coded.bytes);
    (piece, coded)
}

const MOST_POOL: usize = 5;
const MOST_FACES: usize = 20;
/// Pools about the range from which numbers are plain.
const LARGE_POOL: u32 = 0x3FFC;
const LARGE_SPREAD: u32 = 6;

fn random_shadings(random: &mut Random) -> Vec<Shading> {
    let count = match random.below(30) {
        0 => random.below(MAX_SHADINGS + 1),
        _ => random.from_to(1, 3),
    };
    let shading = |_| Shading {
        attributes: random.u32_below(4),
        layers: random.below(TEXTURE_LAYERS + 1) as u32,
    };
    (0..count).map(shading).collect()
}

fn random_base(random: &mut Random) -> [u32; TABLES] {
    let mut base = [0; TABLES];
    for count in &mut base[POSITIONS..] {
        *count = if random.once_in(12) {
            0
        } else {
            random.from_to(1, MOST_POOL) as u32
        };
    }
    base[FACES] = random.below(MOST_FACES + 1) as u32;
    if random.once_in(200) {
        let table = random.from_to(POSITIONS, TEXTURE);
        base[table] = LARGE_POOL + random.u32_below(LARGE_SPREAD);
    }
    base
}

/// A small mesh: mostly one that is taken, at times a pool that its faces need is empty.
pub fn random_plan(random: &mut Random) -> MeshPlan {
    let base = random_base(random);
    let mut declared = base;
    if random.once_in(3) {
        declared
            .iter_mut()
            .for_each(|count| *count += random.u32_below(3));
    }
    MeshPlan {
        name: random_name(random),
        attributes: random.u32_below(2),
        declared,
        base,
        shadings: random_shadings(random),
    }
}

/// Any numbers that the plan allows.
pub struct RandomPicks<'a> {
    pub random: &'a mut Random,
    /// Whether at times a number is one that is refused.
    pub strays: bool,
}

impl Picks for RandomPicks<'_> {
    fn pool_word(&mut self) -> u32 {
        self.random.u32()
    }

    fn shading(&mut self, plan: &MeshPlan) -> u32 {
        if plan.shadings.is_empty() || self.strays && self.random.once_in(300) {
            return self.random.u32_below(300);
        }
        self.random.below(plan.shadings.len()) as u32
    }

    fn corner(&mut self, _state: &State, range: u32) -> u32 {
        if range > LARGEST_RANGE && self.strays && self.random.once_in(40) {
            return range + self.random.u32_below(2) * 0x1_0000;
        }
        self.random.u32_below(range)
    }

    fn escapes(&mut self) -> bool {
        self.random.once_in(4)
    }
}
