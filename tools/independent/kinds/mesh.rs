//! Mesh declarations and base meshes.

use super::{random_result, random_room};
use crate::call::{both, Call, Lent};
use crate::report::{Difference, Part};
use crate::tally::{Function, Tally};
use independent::files::damage::{damage, damage_some};
use independent::files::mesh::{
    self as files, random_plan, MeshPlan, RandomPicks, FACES, TABLES, WIDTHS,
};
use independent::files::piece::Piece;
use independent::random::Random;
use sides::{Side, DECLARATION_RESULT_WORDS, MESH_RESULT_WORDS};

/// Fields from chain index to bone count, without those of the shadings.
const FIELDS: usize = 23;

#[derive(Clone, PartialEq)]
pub struct DeclarationCall<'a> {
    pub data: &'a [u8],
    pub fields: Lent<u32>,
    pub result: Lent<u64>,
}

#[derive(Clone, PartialEq)]
pub struct MeshCall<'a> {
    pub declaration: &'a [u8],
    pub continuation: &'a [u8],
    pub tables: [Lent<u32>; TABLES],
    pub result: Lent<u64>,
}

impl Call for DeclarationCall<'_> {
    fn function(&self) -> Function {
        Function::Declaration
    }

    fn make(&mut self, side: &Side) -> u32 {
        (side.declaration)(self.data, self.fields.lend(), self.result.lend())
    }

    fn take_result(&mut self, from: &Self) {
        self.result.clone_from(&from.result);
    }

    fn parts(&self) -> Vec<Part> {
        vec![
            Part::input("data", self.data),
            Part::output("fields", &self.fields),
            Part::output("result", &self.result),
        ]
    }
}

const TABLE_NAMES: [&str; TABLES] = [
    "faces",
    "positions",
    "normals",
    "diffuse",
    "specular",
    "texture",
];

impl Call for MeshCall<'_> {
    fn function(&self) -> Function {
        Function::ReadMesh
    }

    fn make(&mut self, side: &Side) -> u32 {
        let tables = self.tables.each_mut().map(Lent::lend);
        (side.read_mesh)(
            self.declaration,
            self.continuation,
            tables,
            self.result.lend(),
        )
    }

    fn take_result(&mut self, from: &Self) {
        self.result.clone_from(&from.result);
    }

    fn parts(&self) -> Vec<Part> {
        let tables = TABLE_NAMES.iter().zip(&self.tables);
        let mut parts = vec![
            Part::input("declaration", self.declaration),
            Part::input("continuation", self.continuation),
            Part::output("result", &self.result),
        ];
        parts.extend(tables.map(|(name, table)| Part::output(name, table)));
        parts
    }
}

pub fn declaration(random: &mut Random, tally: &mut Tally) -> Result<(), Difference> {
    let plan = random_plan(random);
    let mut piece = files::declaration(&plan);
    damage_some(&mut piece, random, 3);
    let read = independent::mesh::declaration(&piece.bytes);
    let room = random_room(random, read.map_or(FIELDS, |read| read.fields.len()));
    let call = DeclarationCall {
        data: &piece.bytes,
        fields: Lent::patterned(room),
        result: random_result(random, DECLARATION_RESULT_WORDS),
    };
    both(&call, tally).map(drop)
}

/// Mostly room for the mesh and a few numbers more.
fn random_tables(random: &mut Random, plan: &MeshPlan) -> [Lent<u32>; TABLES] {
    let some_short = random.once_in(12);
    std::array::from_fn(|table| {
        let needed = plan.base[table] as usize * WIDTHS[table];
        let spare = if random.once_in(2) { 2 } else { 60 };
        let length = match some_short && random.once_in(3) {
            true => random.below(needed + 1),
            false => needed + random.below(spare),
        };
        Lent::patterned(length)
    })
}

/// Zeros from the start of the face table on: none, those that the faces take, or any number.
fn clear_some(faces: &mut [u32], needed: usize, random: &mut Random) {
    let zeros = match random.below(3) {
        0 => 0,
        1 => needed,
        _ => random.below(faces.len() + 1),
    };
    let zeros = zeros.min(faces.len());
    faces[..zeros].fill(0);
}

/// The declaration is damaged less often: most damage there hides the continuation.
fn damage_both(declaration: &mut Piece, continuation: &mut Piece, random: &mut Random) {
    if random.once_in(4) {
        damage_some(declaration, random, 2);
    }
    if !random.once_in(8) {
        damage(continuation, random);
        damage_some(continuation, random, 2);
    }
}

/// Where nothing was damaged and the mesh is read, its faces are those that were written.
fn judge_faces(call: &MeshCall, records: &[u32]) -> Result<(), Difference> {
    match call.tables[FACES].words().starts_with(records) {
        true => Ok(()),
        false => Err(Difference(
            "read_mesh: not the faces that were written".to_string(),
        )),
    }
}

pub fn read_mesh(random: &mut Random, tally: &mut Tally) -> Result<(), Difference> {
    let plan = random_plan(random);
    let mut declaration = files::declaration(&plan);
    let (mut continuation, coded) = files::continuation(
        &plan,
        &mut RandomPicks {
            random,
            strays: true,
        },
    );
    let whole = random.once_in(6);
    if !whole {
        damage_both(&mut declaration, &mut continuation, random);
    }
    let mut tables = random_tables(random, &plan);
    let result = random_result(random, MESH_RESULT_WORDS);
    let needed = plan.base[FACES] as usize * WIDTHS[FACES];
    clear_some(tables[FACES].lend(), needed, random);
    let (declaration, continuation) = (&declaration.bytes[..], &continuation.bytes[..]);
    let call = MeshCall {
        declaration,
        continuation,
        tables,
        result,
    };
    let (number, read) = both(&call, tally)?;
    if whole && number == 0 {
        judge_faces(&read, &coded.records)?;
    }
    Ok(())
}
