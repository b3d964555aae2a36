//! Reads the units and the first base mesh of a file and a climb text, goes up as far as there are steps, comes down again, and prints what
//! was done.
//!
//!     climb FILE CLIMB

#[path = "../include/oysterfold.rs"]
mod oysterfold;

use std::process::exit;

const DECLARATION: u32 = 0xFFFFFF31;
const BASE_MESH: u32 = 0xFFFFFF3B;
const BLOCK_HEAD: usize = 12;
const ROW: usize = 5;
const FACE: usize = 19;
const POSITION: usize = 3;
const FACE_ROOM: usize = 1024;
const POSITION_ROOM: usize = 1024;
const POOL_ROOM: usize = 4096;

struct Mesh {
    faces: Vec<u32>,
    positions: Vec<u32>,
    /// Positions, faces.
    counts: [u32; 2],
    shadings: u32,
}

fn stop(message: String) -> ! {
    eprintln!("{message}");
    exit(1)
}

/// Ends the program where a call was refused.
fn expect_done(what: &str, number: u32, result: &[u64]) {
    if number != 0 {
        stop(format!("{what}: refused, {number} at {}", result[0]));
    }
}

fn read_input(name: &str) -> Vec<u8> {
    std::fs::read(name).unwrap_or_else(|error| stop(format!("{name}: {error}")))
}

/// How many metres a unit of the file is.
fn print_units(file: &[u8]) {
    let header = oysterfold::Header::read(file).unwrap_or_else(|refused| {
        stop(format!(
            "header: refused, {} at {}",
            refused.number, refused.place
        ))
    });
    match header.metres() {
        Some(metres) => println!("header: {metres} metres a unit"),
        None => println!("header: no units"),
    }
}

/// The rows of the file's blocks.
fn walk(file: &[u8]) -> Vec<u32> {
    let mut rows = vec![0; file.len() / BLOCK_HEAD * ROW];
    let mut result = [0; 2];
    expect_done(
        "file",
        oysterfold::walk(file, &mut rows, &mut result),
        &result,
    );
    println!("file: {} blocks", result[1]);
    rows.truncate(result[1] as usize * ROW);
    rows
}

/// The data of the first block of a type.
fn data_of<'a>(file: &'a [u8], rows: &[u32], kind: u32) -> &'a [u8] {
    let Some(row) = rows.chunks_exact(ROW).find(|row| row[1] == kind) else {
        stop("the file has no base mesh".to_string())
    };
    let from = row[0] as usize + BLOCK_HEAD;
    &file[from..from + row[2] as usize]
}

fn read_mesh(declaration: &[u8], continuation: &[u8]) -> Mesh {
    let mut faces = vec![0; FACE_ROOM * FACE];
    let mut positions = vec![0; POSITION_ROOM * POSITION];
    let mut pools = vec![0; 4 * POOL_ROOM];
    let mut result = [0; 9];
    let mut pool = pools.chunks_exact_mut(POOL_ROOM);
    let mut next = || pool.next().unwrap_or_default();
    let tables = [
        &mut faces[..],
        &mut positions,
        next(),
        next(),
        next(),
        next(),
    ];
    let number = oysterfold::read_mesh(declaration, continuation, tables, &mut result);
    expect_done("mesh", number, &result);
    let counts = [result[3] as u32, result[2] as u32];
    let shadings = result[8] as u32;
    println!(
        "mesh: {} positions, {} faces, {shadings} shadings",
        counts[0], counts[1]
    );
    Mesh {
        faces,
        positions,
        counts,
        shadings,
    }
}

/// The step table of a climb text.
fn read_climb(text: &[u8]) -> Vec<u32> {
    let mut list = vec![0; text.len()];
    let mut result = [0; 2];
    expect_done(
        "climb",
        oysterfold::read_climb(text, &mut list, &mut result),
        &result,
    );
    list.truncate(result[1] as usize);
    println!("climb: {} steps", list[2]);
    list
}

/// Steps one way until a step is refused.
fn climb(mesh: &mut Mesh, list: &[u32], way: &str) {
    let step = if way == "up" {
        oysterfold::up
    } else {
        oysterfold::down
    };
    loop {
        let Mesh {
            faces,
            positions,
            counts,
            shadings,
        } = mesh;
        let number = step(list, *shadings, faces, positions, counts);
        if number != 0 {
            println!("{way}: refused, {number}");
            return;
        }
        println!("{way}: {} positions, {} faces", counts[0], counts[1]);
    }
}

/// Three steps up, one down and ten up, in one call.
fn walk_steps(mesh: &mut Mesh, list: &[u32]) {
    let requests = [(0, 3), (1, 1), (0, 10)]
        .map(|(direction, count)| oysterfold::Request { direction, count });
    let mut result = [0; 2];
    let Mesh {
        faces,
        positions,
        counts,
        shadings,
    } = mesh;
    let number = oysterfold::steps(
        list,
        *shadings,
        &requests,
        faces,
        positions,
        counts,
        &mut result,
    );
    println!(
        "walk: {number} after {} steps, {} positions, {} faces",
        result[1], counts[0], counts[1]
    );
}

fn main() {
    let args: Vec<String> = std::env::args().collect();
    let [_, file, text] = &args[..] else {
        stop("usage: climb FILE CLIMB".to_string())
    };
    let (file, text) = (read_input(file), read_input(text));
    print_units(&file);
    let rows = walk(&file);
    let declaration = data_of(&file, &rows, DECLARATION);
    let mut mesh = read_mesh(declaration, data_of(&file, &rows, BASE_MESH));
    let list = read_climb(&text);
    climb(&mut mesh, &list, "up");
    climb(&mut mesh, &list, "down");
    walk_steps(&mut mesh, &list);
}
