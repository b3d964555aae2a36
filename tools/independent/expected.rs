//! What each exported function should do, by the independent program: the same parameters and answers as the library's.

use crate::{
    Request, COUNT_WORDS, DECLARATION_RESULT_WORDS, HEADER_RESULT_WORDS, MESH_RESULT_WORDS,
    READER_WORDS, RESULT_WORDS, WRITER_WORDS,
};
use independent::coder::{fresh_histogram, Histogram, State, Writer};
use independent::refusal::{Refusal, ROOM};
use independent::steps::{Counts, Mesh};
use independent::{blocks, climb, mesh, steps};

/// A declaration starts with its name's U16 length.
const NAME_AT: u64 = 2;

/// Place and the one other word, which is 0 in a refusal.
fn told(given: Result<usize, Refusal>, result: &mut [u64]) -> u32 {
    let (number, place, word) = match given {
        Ok(word) => (0, 0, word),
        Err(refusal) => (refusal.number, refusal.place, 0),
    };
    result[..RESULT_WORDS].copy_from_slice(&[place as u64, word as u64]);
    number
}

pub fn header(file: &[u8], result: &mut [u64]) -> u32 {
    let Some(result) = result.first_chunk_mut::<HEADER_RESULT_WORDS>() else {
        return ROOM;
    };
    *result = [0; HEADER_RESULT_WORDS];
    match blocks::header(file) {
        Ok(header) => {
            result[1] = header.minor_version.into();
            result[2] = header.profile.into();
            result[3] = header.declaration_size.into();
            result[4] = header.file_size;
            result[5] = header.encoding.into();
            result[6] = header.units;
            result[7] = header.end as u64;
            0
        }
        Err(refusal) => {
            result[0] = refusal.place as u64;
            refusal.number
        }
    }
}

pub fn walk(file: &[u8], rows: &mut [u32], result: &mut [u64]) -> u32 {
    if result.len() < RESULT_WORDS {
        return ROOM;
    }
    told(blocks::walk(file, rows), result)
}

pub fn listing(file: &[u8], text: &mut [u8], result: &mut [u64]) -> u32 {
    if result.len() < RESULT_WORDS {
        return ROOM;
    }
    told(blocks::listing(file, text), result)
}

pub fn read_climb(text: &[u8], table: &mut [u32], result: &mut [u64]) -> u32 {
    if result.len() < RESULT_WORDS {
        return ROOM;
    }
    told(climb::read(text, table), result)
}

pub fn declaration(data: &[u8], fields: &mut [u32], result: &mut [u64]) -> u32 {
    if result.len() < DECLARATION_RESULT_WORDS {
        return ROOM;
    }
    result[..DECLARATION_RESULT_WORDS].fill(0);
    let read = match mesh::declaration(data) {
        Ok(read) => read,
        Err(refusal) => {
            result[0] = refusal.place as u64;
            return refusal.number;
        }
    };
    let Some(room) = fields.get_mut(..read.fields.len()) else {
        return ROOM;
    };
    room.copy_from_slice(&read.fields);
    result[1] = read.fields.len() as u64;
    result[2] = NAME_AT;
    result[3] = read.name.len() as u64;
    0
}

pub fn read_mesh(decl: &[u8], cont: &[u8], tables: [&mut [u32]; 6], result: &mut [u64]) -> u32 {
    if result.len() < MESH_RESULT_WORDS {
        return ROOM;
    }
    let [faces, positions, normals, diffuse, specular, texture] = tables;
    let mut tables = mesh::Tables {
        faces,
        positions,
        normals,
        diffuse,
        specular,
        texture,
    };
    result[..MESH_RESULT_WORDS].fill(0);
    match mesh::read(decl, cont, &mut tables) {
        Ok(c) => {
            let counts = [
                c.faces,
                c.positions,
                c.normals,
                c.diffuse,
                c.specular,
                c.texture,
                c.shadings,
            ];
            result[RESULT_WORDS..MESH_RESULT_WORDS].copy_from_slice(&counts.map(u64::from));
            0
        }
        Err((part, refusal)) => {
            result[..RESULT_WORDS].copy_from_slice(&[refusal.place as u64, u64::from(part)]);
            refusal.number
        }
    }
}

fn state_in(words: &[u64]) -> State {
    State {
        low: words[0],
        high: words[1],
        pending: words[2],
        settled: words[3],
    }
}

fn state_out(state: &State, words: &mut [u64]) {
    words[..READER_WORDS].copy_from_slice(&[state.low, state.high, state.pending, state.settled]);
}

fn writer_in(words: &[u64]) -> Writer {
    Writer {
        state: state_in(words),
        compressed: words[READER_WORDS],
    }
}

fn writer_out(writer: &Writer, words: &mut [u64]) {
    state_out(&writer.state, words);
    words[READER_WORDS] = writer.compressed;
}

pub fn writer_fresh(state: &mut [u64]) -> u32 {
    if state.len() < WRITER_WORDS {
        return ROOM;
    }
    writer_out(&Writer::fresh(), state);
    0
}

pub fn reader_fresh(state: &mut [u64]) -> u32 {
    if state.len() < READER_WORDS {
        return ROOM;
    }
    state_out(&State::fresh(), state);
    0
}

pub fn histogram_fresh(histogram: &mut [u32]) -> u32 {
    let fresh = fresh_histogram();
    let Some(room) = histogram.get_mut(..fresh.len()) else {
        return ROOM;
    };
    room.copy_from_slice(&fresh);
    0
}

/// One call of a writer whose state is lent as words, changed only where the call is granted.
fn with_writer<T>(
    state: &mut [u64],
    call: impl FnOnce(&mut Writer) -> Result<T, u32>,
) -> Result<T, u32> {
    if state.len() < WRITER_WORDS {
        return Err(ROOM);
    }
    let mut writer = writer_in(state);
    let given = call(&mut writer)?;
    writer_out(&writer, state);
    Ok(given)
}

/// The same for a reader; the value goes to the result.
fn with_reader(
    state: &mut [u64],
    result: &mut [u64],
    call: impl FnOnce(&mut State) -> Result<u32, u32>,
) -> u32 {
    if result.len() < RESULT_WORDS {
        return ROOM;
    }
    result[..RESULT_WORDS].fill(0);
    if state.len() < READER_WORDS {
        return ROOM;
    }
    let mut reader = state_in(state);
    match call(&mut reader) {
        Ok(value) => {
            state_out(&reader, state);
            result[1] = u64::from(value);
            0
        }
        Err(number) => number,
    }
}

fn number_of(given: Result<(), u32>) -> u32 {
    given.err().unwrap_or(0)
}

/// A call with a histogram that is lent as words, changed only where the call is granted.
fn with_histogram<T>(
    words: &mut [u32],
    call: impl FnOnce(&mut Histogram) -> Result<T, u32>,
) -> Result<T, u32> {
    let mut histogram: Histogram = *words.first_chunk().ok_or(ROOM)?;
    let given = call(&mut histogram)?;
    words[..histogram.len()].copy_from_slice(&histogram);
    Ok(given)
}

pub fn write_static(state: &mut [u64], buffer: &mut [u8], range: u32, value: u32) -> u32 {
    number_of(with_writer(state, |writer| {
        writer.write_static(buffer, range, value)
    }))
}

pub fn write_dynamic(
    state: &mut [u64],
    buffer: &mut [u8],
    histogram: &mut [u32],
    value: u32,
) -> u32 {
    number_of(with_writer(state, |writer| {
        with_histogram(histogram, |histogram| {
            writer.write_dynamic(buffer, histogram, value)
        })
    }))
}

pub fn write_plain(state: &mut [u64], buffer: &mut [u8], bytes: u32, value: u32) -> u32 {
    number_of(with_writer(state, |writer| {
        writer.write_plain(buffer, bytes, value)
    }))
}

pub fn write_end(state: &mut [u64], buffer: &mut [u8], result: &mut [u64]) -> u32 {
    if result.len() < RESULT_WORDS {
        return ROOM;
    }
    result[..RESULT_WORDS].fill(0);
    match with_writer(state, |writer| writer.end(buffer)) {
        Ok(used) => {
            result[1] = used as u64;
            0
        }
        Err(number) => number,
    }
}

pub fn read_static(state: &mut [u64], data: &[u8], range: u32, result: &mut [u64]) -> u32 {
    with_reader(state, result, |reader| reader.read_static(data, range))
}

pub fn read_dynamic(
    state: &mut [u64],
    data: &[u8],
    histogram: &mut [u32],
    result: &mut [u64],
) -> u32 {
    with_reader(state, result, |reader| {
        with_histogram(histogram, |histogram| reader.read_dynamic(data, histogram))
    })
}

pub fn read_plain(state: &mut [u64], data: &[u8], bytes: u32, result: &mut [u64]) -> u32 {
    with_reader(state, result, |reader| reader.read_plain(data, bytes))
}

/// A call on a mesh whose counts are lent as words.
fn with_mesh(
    faces: &mut [u32],
    positions: &mut [u32],
    counts: &mut [u32],
    call: impl FnOnce(&mut Mesh) -> Result<(), u32>,
) -> u32 {
    if counts.len() < COUNT_WORDS {
        return ROOM;
    }
    let mut mesh = Mesh {
        faces,
        positions,
        counts: Counts {
            positions: counts[0],
            faces: counts[1],
        },
    };
    let number = number_of(call(&mut mesh));
    counts[..COUNT_WORDS].copy_from_slice(&[mesh.counts.positions, mesh.counts.faces]);
    number
}

pub fn up(
    list: &[u32],
    shadings: u32,
    faces: &mut [u32],
    positions: &mut [u32],
    counts: &mut [u32],
) -> u32 {
    with_mesh(faces, positions, counts, |mesh| {
        steps::up(list, shadings, mesh)
    })
}

pub fn down(
    list: &[u32],
    shadings: u32,
    faces: &mut [u32],
    positions: &mut [u32],
    counts: &mut [u32],
) -> u32 {
    with_mesh(faces, positions, counts, |mesh| {
        steps::down(list, shadings, mesh)
    })
}

/// The steps granted before a refusal stay, and their number is told.
pub fn steps(
    list: &[u32],
    shadings: u32,
    requests: &[Request],
    faces: &mut [u32],
    positions: &mut [u32],
    counts: &mut [u32],
    result: &mut [u64],
) -> u32 {
    if result.len() < RESULT_WORDS {
        return ROOM;
    }
    result[..RESULT_WORDS].fill(0);
    let requests = requests.iter().map(|request| steps::Request {
        direction: request.direction,
        count: request.count,
    });
    with_mesh(faces, positions, counts, |mesh| {
        let (granted, answer) = steps::walk(list, shadings, requests, mesh);
        result[1] = granted;
        answer
    })
}
