//! Meshes, also hostile ones.
//!
//! Of a hostile mesh every corner number is the one whose part of the limits holds the middle, so that from some face on no bit is settled
//! any more and the bits put off grow with every number. A reader that passes over them at every number, as Annex A's does, takes time that
//! grows with the square of the faces. The counts were searched for: with these no bit is settled to the last face, once the weight of
//! escape is small enough. With others the middle sooner or later is where two parts meet; always the second of three settles bits after
//! nine numbers.
//!
//! Every mesh is read into tables that are all 0 before each read, and into tables that are all 7: the second are not fresh.

use super::{grouped, print_heading, print_row, rates, Best, ROUNDS};
use independent::coder::State;
use independent::files::mesh::{
    continuation, declaration, CodedFaces, MeshPlan, Picks, Shading, DIFFUSE_BIT, FACES,
    NO_NORMALS, POSITIONS, SPECULAR_BIT, TABLES, WIDTHS,
};
use independent::random::Random;
use independent::refusal::CUT;
use sides::{Side, INDEPENDENT, LIBRARY, MESH_RESULT_WORDS};

/// Numbers of each table past the base mesh.
const SPARE: usize = 7;
/// So many that bits settle past the end: after the last 1 a reader sees zeros, and at first puts all bits off.
const CUT_BYTES: usize = 1024;
const MIDDLE: u64 = 0x8000;
/// The word that all tables hold before a read.
const FRESH: u32 = 0;
const USED: u32 = 7;
/// Rates are in thousand faces a second.
const THOUSAND: f64 = 1e3;

/// How the coded faces end: as written; earlier, which is refused as 1; or, hostile only, with a 1 after the settled bits, from which on a
/// reader sees zeros.
#[derive(Clone, Copy, PartialEq)]
enum Ending {
    Whole,
    Cut,
    OneBit,
}

pub struct Case {
    name: &'static str,
    faces: u32,
    positions: u32,
    /// Records of each other pool.
    others: u32,
    shadings: usize,
    /// The first so many of a corner's fields.
    fields: u32,
    ending: Ending,
}

const fn case(
    name: &'static str,
    counts: [u32; 3],
    shadings: usize,
    fields: u32,
    ending: Ending,
) -> Case {
    let [faces, positions, others] = counts;
    Case {
        name,
        faces,
        positions,
        others,
        shadings,
        fields,
        ending,
    }
}

/// As many faces as there may be, in a few bytes.
pub const FEW_BYTES: Case = case(
    "one shading, one position",
    [65536, 1, 0],
    1,
    1,
    Ending::Whole,
);

const CASES: [Case; 7] = [
    case(
        "all fields, 1,000 of each",
        [65536, 1000, 1000],
        8,
        6,
        Ending::Whole,
    ),
    case(
        "all fields, 10,000 of each",
        [65536, 10000, 10000],
        8,
        6,
        Ending::Whole,
    ),
    case(
        "all fields, 65,536 positions, 1,000 of the others",
        [65536, 65536, 1000],
        8,
        6,
        Ending::Whole,
    ),
    case(
        "all fields, 65,536 of each",
        [65536, 65536, 65536],
        8,
        6,
        Ending::Whole,
    ),
    case(
        "positions only, 64 shadings",
        [65536, 1000, 0],
        64,
        1,
        Ending::Whole,
    ),
    FEW_BYTES,
    case(
        "all fields, end cut: refused (1)",
        [65536, 1000, 1000],
        8,
        6,
        Ending::Cut,
    ),
];

const HOSTILE: [Case; 10] = [
    case(
        "114 of each, four fields",
        [8192, 114, 114],
        1,
        4,
        Ending::Whole,
    ),
    case(
        "114 of each, four fields",
        [16384, 114, 114],
        1,
        4,
        Ending::Whole,
    ),
    case(
        "114 of each, four fields",
        [32768, 114, 114],
        1,
        4,
        Ending::Whole,
    ),
    case(
        "114 of each, four fields",
        [65536, 114, 114],
        1,
        4,
        Ending::Whole,
    ),
    case(
        "the same, zeros past the end",
        [8192, 114, 114],
        1,
        4,
        Ending::OneBit,
    ),
    case(
        "the same, zeros past the end",
        [16384, 114, 114],
        1,
        4,
        Ending::OneBit,
    ),
    case(
        "the same, zeros past the end",
        [32768, 114, 114],
        1,
        4,
        Ending::OneBit,
    ),
    case(
        "the same, zeros past the end",
        [65536, 114, 114],
        1,
        4,
        Ending::OneBit,
    ),
    case("641 positions only", [65536, 641, 0], 1, 1, Ending::Whole),
    case(
        "1,291 of each, all fields",
        [65536, 1291, 1291],
        1,
        6,
        Ending::Whole,
    ),
];

struct AnyPicks {
    random: Random,
    hostile: bool,
}

impl Picks for AnyPicks {
    fn pool_word(&mut self) -> u32 {
        self.random.u32()
    }

    fn shading(&mut self, plan: &MeshPlan) -> u32 {
        self.random.below(plan.shadings.len()) as u32
    }

    /// Hostile: the number whose part of the limits holds the middle.
    fn corner(&mut self, state: &State, range: u32) -> u32 {
        if !self.hostile {
            return self.random.u32_below(range);
        }
        let width = state.high - state.low + 1;
        (((MIDDLE - state.low) * u64::from(range) - 1) / width) as u32
    }
}

pub fn plan_of(case: &Case) -> MeshPlan {
    let mut base = [case.others; TABLES];
    base[FACES] = case.faces;
    base[POSITIONS] = case.positions;
    let attributes = match case.fields {
        0..=2 => 0,
        3 => DIFFUSE_BIT,
        _ => DIFFUSE_BIT | SPECULAR_BIT,
    };
    MeshPlan {
        name: b"mesh".to_vec(),
        attributes: if case.fields < 2 { NO_NORMALS } else { 0 },
        declared: base,
        base,
        shadings: vec![
            Shading {
                attributes,
                layers: case.fields.saturating_sub(4)
            };
            case.shadings
        ],
    }
}

pub struct Mesh {
    pub declaration: Vec<u8>,
    pub continuation: Vec<u8>,
    coded: CodedFaces,
}

/// The settled bits, a 1, and no more.
fn end_in_one_bit(mesh: &mut Mesh) {
    let start = mesh.continuation.len() - mesh.coded.bytes.len();
    let last = (mesh.coded.settled / 8) as usize;
    let bit = 1u8 << (mesh.coded.settled % 8);
    mesh.continuation.truncate(start + last + 1);
    let byte = &mut mesh.continuation[start + last];
    *byte = *byte & (bit - 1) | bit;
    mesh.coded.bytes.truncate(last + 1);
}

fn cut_end(mesh: &mut Mesh) {
    mesh.continuation
        .truncate(mesh.continuation.len() - CUT_BYTES);
    mesh.coded
        .bytes
        .truncate(mesh.coded.bytes.len() - CUT_BYTES);
}

pub fn mesh_of(case: &Case, plan: &MeshPlan, hostile: bool) -> Mesh {
    let mut picks = AnyPicks {
        random: Random::of_input(0, 0),
        hostile,
    };
    let (continuation, coded) = continuation(plan, &mut picks);
    let declaration = declaration(plan).bytes;
    let mut mesh = Mesh {
        declaration,
        continuation: continuation.bytes,
        coded,
    };
    match case.ending {
        Ending::Whole => {}
        Ending::Cut => cut_end(&mut mesh),
        Ending::OneBit => end_in_one_bit(&mut mesh),
    }
    mesh
}

pub struct Reader {
    pub side: Side,
    tables: [Vec<u32>; TABLES],
    result: [u64; MESH_RESULT_WORDS],
}

impl Reader {
    pub fn new(side: Side, plan: &MeshPlan) -> Reader {
        let table = |table: usize| vec![USED; plan.base[table] as usize * WIDTHS[table] + SPARE];
        Reader {
            side,
            tables: std::array::from_fn(table),
            result: [0; MESH_RESULT_WORDS],
        }
    }

    fn fill(&mut self, word: u32) {
        self.tables.iter_mut().for_each(|table| table.fill(word));
    }

    /// Reads into the tables as they are.
    pub fn read(&mut self, declaration: &[u8], continuation: &[u8]) -> u32 {
        let tables = self.tables.each_mut().map(|table| &mut table[..]);
        (self.side.read_mesh)(declaration, continuation, tables, &mut self.result)
    }

    fn is_filled(&self, word: u32) -> bool {
        self.tables.iter().flatten().all(|&held| held == word)
    }
}

/// The two agree, and have the faces that were written.
pub fn judge_done(name: &str, mesh: &Mesh, independent: &Reader, library: &Reader) {
    assert!(
        independent.result == library.result && independent.tables == library.tables,
        "{name}: the two disagree"
    );
    let written = library.tables[FACES].starts_with(&mesh.coded.records);
    assert!(written, "{name}: not the faces that were written");
}

/// Only the library's tables must be as they were.
fn judge_refused(name: &str, filled: u32, independent: &Reader, library: &Reader) {
    assert!(
        independent.result == library.result,
        "{name}: the two disagree"
    );
    let kept = library.is_filled(filled);
    assert!(kept, "{name}: a refusal changed a table");
}

/// Reads into tables that hold just this word before; both rates, and the ratio of the times.
fn run_tables(case: &Case, mesh: &Mesh, readers: &mut [Reader; 2], filled: u32) -> [String; 3] {
    let mut bests = [Best::new(), Best::new()];
    let due = if case.ending == Ending::Cut { CUT } else { 0 };
    for _ in 0..ROUNDS {
        for (reader, best) in readers.iter_mut().zip(&mut bests) {
            reader.fill(filled);
            let number = best.of(|| reader.read(&mesh.declaration, &mesh.continuation));
            assert_eq!(number, due, "{}: another answer", case.name);
        }
        let [independent, library] = &*readers;
        match due {
            0 => judge_done(case.name, mesh, independent, library),
            _ => judge_refused(case.name, filled, independent, library),
        }
    }
    let [independent, library] = &bests;
    rates(f64::from(case.faces) / THOUSAND, independent, library)
}

fn run_case(case: &Case, hostile: bool) {
    let plan = plan_of(case);
    let mesh = mesh_of(case, &plan, hostile);
    let mut readers = [INDEPENDENT, LIBRARY].map(|side| Reader::new(side, &plan));
    let mut cells = vec![
        case.name.to_string(),
        grouped(u64::from(case.faces)),
        grouped(mesh.coded.bytes.len() as u64),
        grouped(mesh.coded.most_pending),
    ];
    for filled in [FRESH, USED] {
        cells.extend(run_tables(case, &mesh, &mut readers, filled));
    }
    print_row(&cells);
}

pub fn print_tables() {
    let columns = [
        "Mesh",
        "Faces",
        "Coded bytes",
        "Most bits pending",
        "Fresh tables (all 0), thousand faces a second: independent",
        "Library",
        "Time library / independent",
        "Other tables (all 7), thousand faces a second: independent",
        "Library",
        "Time library / independent",
    ];
    for (title, cases, hostile) in [
        ("Meshes", &CASES[..], false),
        ("Hostile meshes", &HOSTILE[..], true),
    ] {
        print_heading(title, &columns);
        cases.iter().for_each(|case| run_case(case, hostile));
        println!();
    }
}
