//! Files of many meshes, each of as many faces as there may be, in a few bytes.
//!
//! A side walks the file, then reads every base mesh with its declaration. All are read into the same tables, and each finds them as the
//! one before left them.

use super::mesh::{judge_done, mesh_of, plan_of, Mesh, Reader, FEW_BYTES};
use super::{grouped, print_heading, print_row, ratio, Best, ROUNDS};
use independent::blocks::ROW;
use independent::files::blocks::{mesh_file, HEAD};
use independent::files::mesh::{MeshPlan, FACES};
use sides::{Side, INDEPENDENT, LIBRARY, RESULT_WORDS};
use std::ops::Range;

const MESHES: [usize; 3] = [16, 64, 256];
/// Where the name stands in the data of both blocks.
const NAME: Range<usize> = 2..6;
/// Where a row has a block's offset, and its data size.
const OFFSET_AT: usize = 0;
const DATA_SIZE_AT: usize = 2;
const MILLISECOND: f64 = 1e-3;

/// The data under so many names.
fn named(data: &[u8], names: usize) -> Vec<Vec<u8>> {
    let rename = |name: usize| {
        let mut renamed = data.to_vec();
        renamed[NAME].copy_from_slice(format!("{name:04}").as_bytes());
        renamed
    };
    (0..names).map(rename).collect()
}

fn data_of<'a>(file: &'a [u8], row: &[u32]) -> &'a [u8] {
    let start = row[OFFSET_AT] as usize + HEAD;
    &file[start..start + row[DATA_SIZE_AT] as usize]
}

struct FileReader {
    reader: Reader,
    rows: Vec<u32>,
    result: [u64; RESULT_WORDS],
    best: Best,
}

impl FileReader {
    /// Room for the header's row, and two of each mesh.
    fn new(side: Side, plan: &MeshPlan, meshes: usize) -> FileReader {
        FileReader {
            reader: Reader::new(side, plan),
            rows: vec![u32::MAX; (1 + 2 * meshes) * ROW],
            result: [0; RESULT_WORDS],
            best: Best::new(),
        }
    }

    /// Base meshes stand in the order of their declarations.
    fn read(&mut self, file: &[u8]) {
        let FileReader {
            reader,
            rows,
            result,
            best,
        } = self;
        let numbers = best.of(|| {
            let number = (reader.side.walk)(file, rows, result);
            let blocks = &rows[ROW..];
            let (declarations, base_meshes) = blocks.split_at(blocks.len() / 2);
            let pairs = declarations
                .chunks_exact(ROW)
                .zip(base_meshes.chunks_exact(ROW));
            pairs.fold(number, |numbers, (declaration, base_mesh)| {
                numbers | reader.read(data_of(file, declaration), data_of(file, base_mesh))
            })
        });
        assert_eq!(numbers, 0, "the file or a mesh is refused");
    }
}

fn run_file(meshes: usize, plan: &MeshPlan, mesh: &Mesh) {
    let file = mesh_file(
        &named(&mesh.declaration, meshes),
        &named(&mesh.continuation, meshes),
    );
    let [mut independent, mut library] =
        [INDEPENDENT, LIBRARY].map(|side| FileReader::new(side, plan, meshes));
    for _ in 0..ROUNDS {
        independent.read(&file);
        library.read(&file);
        assert!(independent.rows == library.rows, "the two walks disagree");
        judge_done("a file", mesh, &independent.reader, &library.reader);
    }
    let millis = |best: &Best| format!("{:.1}", best.seconds() / MILLISECOND);
    print_row(&[
        grouped(file.len() as u64),
        grouped(meshes as u64),
        grouped(meshes as u64 * u64::from(plan.base[FACES])),
        millis(&independent.best),
        millis(&library.best),
        ratio(&independent.best, &library.best),
    ]);
}

pub fn print_table() {
    let columns = [
        "Bytes of the file",
        "Meshes",
        "Faces in all",
        "Independent, ms",
        "Library, ms",
        "Time library / independent",
    ];
    print_heading(
        "Many meshes in a file, into tables as the mesh before left them",
        &columns,
    );
    let plan = plan_of(&FEW_BYTES);
    let mesh = mesh_of(&FEW_BYTES, &plan, false);
    MESHES
        .into_iter()
        .for_each(|meshes| run_file(meshes, &plan, &mesh));
    println!();
}
