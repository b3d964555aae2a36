//! The mesh declaration (9.6.1.1) and the base mesh (9.6.1.2).

use crate::coder::{fresh_histogram, raise_value, Histogram, Reader, StaticRange};
use crate::fields::{name_at, u32_at};
use crate::refusal::{
    judge, Refusal, ABSENT, CORNER, CUT, FACE, LEFT_OVER, LIMIT, MAX_BYTES, MAX_NAME, MAX_RECORDS,
    MAX_SHADINGS, NAME, ORDER, POSITION, ROOM, TEXTURE_LAYERS, VALUE,
};
use std::ops::Range;

/// The part that a place counts from.
pub const DECLARATION: u32 = 0;
pub const CONTINUATION: u32 = 1;

const NORMAL: usize = 3;
const COLOR: usize = 4;
const TEXTURE_COORD: usize = 4;

/// Faces and five pools: their counts stand in this order in both blocks.
const TABLES: usize = 6;
const FACES: usize = 0;
const POSITIONS: usize = 1;
const WIDTHS: [usize; TABLES] = [FACE, POSITION, NORMAL, COLOR, COLOR, TEXTURE_COORD];

const EXCLUDE_NORMALS: u32 = 1;
const COLORS: u32 = 3;

/// A corner's fields as bits: position, normal, two colors, texture layers.
const HAS_POSITION: u32 = 1;
const HAS_NORMAL: u32 = 1 << 1;
const COLORS_SHIFT: u32 = 2;
const LAYERS_SHIFT: u32 = 4;

/// Unjudged numbers after minimum resolution: final maximum resolution, three
/// quality factors, five inverse quants, three resource parameters.
const UNJUDGED: usize = 1 + 3 + 5 + 3;

/// A declaration's name, as a part of its data, and its numbers from chain
/// index to bone count.
#[derive(Clone, PartialEq, Eq, Debug)]
pub struct Declaration {
    pub name: Range<usize>,
    pub fields: Vec<u32>,
}

/// The caller's tables: faces of 19 numbers, pools of 3, 3, 4, 4 and 4.
pub struct Tables<'a> {
    pub faces: &'a mut [u32],
    pub positions: &'a mut [u32],
    pub normals: &'a mut [u32],
    pub diffuse: &'a mut [u32],
    pub specular: &'a mut [u32],
    pub texture: &'a mut [u32],
}

/// Base counts, and the declaration's shading count.
#[derive(Clone, Copy, PartialEq, Eq, Debug, Default)]
pub struct Counts {
    pub faces: u32,
    pub positions: u32,
    pub normals: u32,
    pub diffuse: u32,
    pub specular: u32,
    pub texture: u32,
    pub shadings: u32,
}

/// Reads a declaration's data whole.
pub fn declaration(data: &[u8]) -> Result<Declaration, Refusal> {
    let mut fields = Vec::new();
    let shape = read_shape(data, |field| fields.push(field))?;
    Ok(Declaration {
        name: shape.name,
        fields,
    })
}

/// Reads a mesh into the tables. A refusal names its part; the tables may then
/// hold anything.
pub fn read(decl: &[u8], cont: &[u8], tables: &mut Tables) -> Result<Counts, (u32, Refusal)> {
    for (part, data) in [(DECLARATION, decl), (CONTINUATION, cont)] {
        judge_length(data).map_err(|refusal| (part, refusal))?;
    }
    let shape = read_shape(decl, |_| ()).map_err(|refusal| (DECLARATION, refusal))?;
    let name = &decl[shape.name.clone()];
    read_base(cont, name, &shape, tables).map_err(|refusal| (CONTINUATION, refusal))
}

fn judge_length(data: &[u8]) -> Result<(), Refusal> {
    if data.len() > MAX_BYTES {
        return Err(Refusal::new(LIMIT, 0));
    }
    Ok(())
}

/// Fields in file order; each number is also shown to the caller.
struct Fields<'a, F> {
    data: &'a [u8],
    at: usize,
    show: F,
}

impl<'a, F: FnMut(u32)> Fields<'a, F> {
    /// A name: 1 where it is cut, then 8.
    fn name(&mut self) -> Result<Range<usize>, Refusal> {
        let Some(name) = name_at(self.data, self.at) else {
            return Err(Refusal::new(CUT, self.at));
        };
        if name.len() > MAX_NAME {
            return Err(Refusal::new(NAME, self.at));
        }
        self.at = name.end;
        Ok(name)
    }

    /// A number that this judge takes; 1 where it is cut.
    fn judged(&mut self, judge: impl FnOnce(u32) -> Result<(), u32>) -> Result<u32, Refusal> {
        let Some(field) = u32_at(self.data, self.at) else {
            return Err(Refusal::new(CUT, self.at));
        };
        judge(field).map_err(|number| Refusal::new(number, self.at))?;
        (self.show)(field);
        self.at += 4;
        Ok(field)
    }

    fn number(&mut self) -> Result<u32, Refusal> {
        self.judged(|_| Ok(()))
    }

    /// A count up to a limit, else 9.
    fn count(&mut self, limit: u32) -> Result<u32, Refusal> {
        self.judged(|count| judge(count <= limit, LIMIT))
    }

    /// A number without other bits than these, else 11.
    fn flags(&mut self, allowed: u32) -> Result<u32, Refusal> {
        self.judged(|flags| judge(flags & !allowed == 0, ORDER))
    }

    fn chain_index(&mut self) -> Result<u32, Refusal> {
        self.flags(0)
    }

    /// A shading description: the fields of a corner that it asks for.
    fn shading(&mut self) -> Result<u32, Refusal> {
        let attributes = self.flags(COLORS)?;
        let layers = self.count(TEXTURE_LAYERS as u32)?;
        for _ in 0..layers {
            self.number()?;
        }
        self.number()?;
        Ok(attributes << COLORS_SHIFT | ((1 << layers) - 1) << LAYERS_SHIFT)
    }
}

/// What the base mesh needs to know of its declaration.
struct Shape {
    name: Range<usize>,
    counts: [u32; TABLES],
    /// The corner fields that each shading asks for.
    shadings: [u32; MAX_SHADINGS],
    shading_count: usize,
    minimum_resolution: u32,
}

fn read_shape(data: &[u8], show: impl FnMut(u32)) -> Result<Shape, Refusal> {
    judge_length(data)?;
    let mut fields = Fields { data, at: 0, show };
    let name = fields.name()?;
    fields.chain_index()?;
    let mut always = HAS_POSITION;
    if fields.flags(EXCLUDE_NORMALS)? == 0 {
        always |= HAS_NORMAL;
    }
    let mut counts = [0; TABLES];
    for count in &mut counts {
        *count = fields.count(MAX_RECORDS)?;
    }
    let shading_count = fields.count(MAX_SHADINGS as u32)? as usize;
    let mut shadings = [0; MAX_SHADINGS];
    for shading in &mut shadings[..shading_count] {
        *shading = always | fields.shading()?;
    }
    let minimum_resolution = fields.number()?;
    for _ in 0..UNJUDGED {
        fields.number()?;
    }
    // Bone count: bones aren't read.
    fields.count(0)?;
    if fields.at < data.len() {
        return Err(Refusal::new(LEFT_OVER, fields.at));
    }
    Ok(Shape {
        name,
        counts,
        shadings,
        shading_count,
        minimum_resolution,
    })
}

fn read_base(
    data: &[u8],
    name: &[u8],
    shape: &Shape,
    tables: &mut Tables,
) -> Result<Counts, Refusal> {
    let mut fields = Fields {
        data,
        at: 0,
        show: |_| (),
    };
    if data[fields.name()?] != *name {
        return Err(Refusal::new(NAME, 0));
    }
    fields.chain_index()?;
    let mut counts = [0; TABLES];
    for (table, count) in counts.iter_mut().enumerate() {
        *count = fields.judged(|count| judge_base_count(shape, table, count))?;
    }
    let mut tables = [
        &mut *tables.faces,
        &mut *tables.positions,
        &mut *tables.normals,
        &mut *tables.diffuse,
        &mut *tables.specular,
        &mut *tables.texture,
    ];
    judge_room(&counts, &tables)?;
    let start = read_pools(data, fields.at, &counts, &mut tables)?;
    read_faces(&data[start..], shape, &counts, tables[FACES])
        .map_err(|number| Refusal::new(number, start))?;
    Ok(base_counts(&counts, shape))
}

fn base_counts(counts: &[u32; TABLES], shape: &Shape) -> Counts {
    let [faces, positions, normals, diffuse, specular, texture] = *counts;
    Counts {
        faces,
        positions,
        normals,
        diffuse,
        specular,
        texture,
        shadings: shape.shading_count as u32,
    }
}

/// 9, then 11 for counts that disagree with the declaration.
fn judge_base_count(shape: &Shape, table: usize, count: u32) -> Result<(), u32> {
    judge(count <= MAX_RECORDS, LIMIT)?;
    let wrong_positions = table == POSITIONS && count != shape.minimum_resolution;
    judge(count <= shape.counts[table] && !wrong_positions, ORDER)
}

/// The numbers of a table's base records.
fn base_length(counts: &[u32; TABLES], table: usize) -> usize {
    counts[table] as usize * WIDTHS[table]
}

fn judge_room(counts: &[u32; TABLES], tables: &[&mut [u32]; TABLES]) -> Result<(), Refusal> {
    let fits = |table: usize| base_length(counts, table) <= tables[table].len();
    if !(0..TABLES).all(fits) {
        return Err(Refusal::new(ROOM, 0));
    }
    Ok(())
}

/// Copies the pools, with zeros after them; gives back where they end.
fn read_pools(
    data: &[u8],
    start: usize,
    counts: &[u32; TABLES],
    tables: &mut [&mut [u32]; TABLES],
) -> Result<usize, Refusal> {
    let present = (data.len() - start) / 4;
    let needed: usize = (POSITIONS..TABLES)
        .map(|pool| base_length(counts, pool))
        .sum();
    if present < needed {
        return Err(Refusal::new(CUT, start + 4 * present));
    }
    let mut at = start;
    for (pool, table) in tables.iter_mut().enumerate().skip(POSITIONS) {
        let (base, after) = table.split_at_mut(base_length(counts, pool));
        let end = at + 4 * base.len();
        copy_numbers(&data[at..end], base);
        after.fill(0);
        at = end;
    }
    Ok(at)
}

fn copy_numbers(bytes: &[u8], numbers: &mut [u32]) {
    for (number, bytes) in numbers.iter_mut().zip(bytes.chunks_exact(4)) {
        *number = u32::from_le_bytes([bytes[0], bytes[1], bytes[2], bytes[3]]);
    }
}

/// Reads the coded faces, with zeros after them; a refusal gives its number.
fn read_faces(
    data: &[u8],
    shape: &Shape,
    counts: &[u32; TABLES],
    table: &mut [u32],
) -> Result<(), u32> {
    let (base, after) = table.split_at_mut(base_length(counts, FACES));
    let mut faces = Faces {
        reader: Reader::fresh(data),
        weights: fresh_histogram(),
        total: 1,
        ranges: corner_ranges(counts),
        shadings: &shape.shadings[..shape.shading_count],
    };
    for record in base.chunks_exact_mut(FACE) {
        faces.face(record)?;
    }
    after.fill(0);
    Ok(())
}

/// The static range of each corner field; the layers share the last pool.
fn corner_ranges(counts: &[u32; TABLES]) -> [StaticRange; CORNER] {
    let last = TABLES - 1;
    std::array::from_fn(|field| StaticRange::new(counts[last.min(POSITIONS + field)]))
}

struct Faces<'a> {
    reader: Reader<'a>,
    /// Frequencies of shading ids, and their total.
    weights: Histogram,
    total: u32,
    ranges: [StaticRange; CORNER],
    shadings: &'a [u32],
}

impl Faces<'_> {
    fn face(&mut self, record: &mut [u32]) -> Result<(), u32> {
        let coded = self.reader.dynamic(&self.weights, self.total)?;
        let Some(&asked) = self.shadings.get(coded.value as usize) else {
            return Err(VALUE);
        };
        self.total = raise_value(&mut self.weights, coded, self.total);
        record[0] = coded.value;
        for corner in record[1..].chunks_exact_mut(CORNER) {
            self.corner(corner, asked)?;
        }
        Ok(())
    }

    fn corner(&mut self, corner: &mut [u32], asked: u32) -> Result<(), u32> {
        for (field, (number, &range)) in corner.iter_mut().zip(&self.ranges).enumerate() {
            *number = if asked >> field & 1 == 1 {
                self.reader.ranged(range)?
            } else {
                ABSENT
            };
        }
        Ok(())
    }
}

#[cfg(test)]
mod tests {
    use super::*;
    use crate::coder::Writer;

    fn bytes(numbers: &[u32]) -> Vec<u8> {
        numbers
            .iter()
            .flat_map(|number| number.to_le_bytes())
            .collect()
    }

    /// Three positions, no normals, one diffuse color, two texture coords; the
    /// second shading asks for diffuse and two layers.
    fn declaration_data(name: &[u8]) -> Vec<u8> {
        let mut data = (name.len() as u16).to_le_bytes().to_vec();
        data.extend_from_slice(name);
        data.extend(bytes(&[0, EXCLUDE_NORMALS, 2, 3, 0, 1, 0, 2, 2]));
        data.extend(bytes(&[0, 0, 0, 1, 2, 2, 2, 1]));
        data.extend(bytes(&[3, 3, 1, 1, 1, 0, 0, 0, 0, 0, 0, 0, 0, 0]));
        data
    }

    fn base_data(name: &[u8]) -> Vec<u8> {
        let mut data = (name.len() as u16).to_le_bytes().to_vec();
        data.extend_from_slice(name);
        data.extend(bytes(&[0, 2, 3, 0, 1, 0, 2]));
        data.extend(bytes(&(1..=9 + 4 + 8).collect::<Vec<u32>>()));
        let mut buffer = [0; 64];
        let mut writer = Writer::fresh();
        let mut histogram = fresh_histogram();
        for shading in [1, 0] {
            writer
                .write_dynamic(&mut buffer, &mut histogram, shading)
                .unwrap();
            for corner in 0..3 {
                writer.write_static(&mut buffer, 3, corner).unwrap();
                if shading == 1 {
                    writer.write_static(&mut buffer, 1, 0).unwrap();
                    writer.write_static(&mut buffer, 2, 1).unwrap();
                    writer.write_static(&mut buffer, 2, 0).unwrap();
                }
            }
        }
        let used = writer.end(&mut buffer).unwrap();
        data.extend_from_slice(&buffer[..used]);
        data
    }

    fn read_into(
        decl: &[u8],
        cont: &[u8],
        room: usize,
    ) -> (Result<Counts, (u32, Refusal)>, Vec<u32>) {
        let mut faces = vec![7; room];
        let mut tables = Tables {
            faces: &mut faces,
            positions: &mut [7; 10],
            normals: &mut [7; 1],
            diffuse: &mut [7; 4],
            specular: &mut [7; 1],
            texture: &mut [7; 8],
        };
        let answer = read(decl, cont, &mut tables);
        if answer.is_ok() {
            assert_eq!(tables.positions, [1, 2, 3, 4, 5, 6, 7, 8, 9, 0]);
            assert_eq!(tables.diffuse, [10, 11, 12, 13]);
            assert_eq!((tables.normals[0], tables.specular[0]), (0, 0));
        }
        (answer, faces)
    }

    #[test]
    fn small_mesh() {
        let decl = declaration_data(b"mesh");
        let fields = declaration(&decl).unwrap();
        assert_eq!((fields.name, fields.fields.len()), (2..6, 31));
        let (answer, faces) = read_into(&decl, &base_data(b"mesh"), 40);
        let counts = answer.unwrap();
        assert_eq!((counts.faces, counts.texture, counts.shadings), (2, 2, 2));
        let none = ABSENT;
        assert_eq!(
            faces[..13],
            [1, 0, none, 0, none, 1, 0, 1, none, 0, none, 1, 0]
        );
        assert_eq!(faces[19..26], [0, 0, none, none, none, none, none]);
        assert_eq!(faces[38..], [0, 0]);
    }

    #[test]
    fn refusals() {
        let decl = declaration_data(b"mesh");
        let cont = base_data(b"mesh");
        let refused =
            |part: u32, number: u32, place: usize| Err((part, Refusal::new(number, place)));
        let answer = |decl: &[u8], cont: &[u8]| read_into(decl, cont, 38).0;
        assert_eq!(read_into(&decl, &cont, 37).0, refused(1, ROOM, 0));
        assert_eq!(answer(&decl, &base_data(b"mash")), refused(1, NAME, 0));
        let long = declaration_data(&[b'n'; 256]);
        assert_eq!(answer(&long, &cont), refused(0, NAME, 0));
        assert_eq!(answer(&long[..257], &cont), refused(0, CUT, 0));
        assert_eq!(
            answer(&declaration_data(b""), &base_data(b"")).is_ok(),
            true
        );
        let mut left = decl.clone();
        left.push(0);
        assert_eq!(answer(&left, &cont), refused(0, LEFT_OVER, decl.len()));
        for end in 6..decl.len() {
            let place = 6 + (end - 6) / 4 * 4;
            assert_eq!(answer(&decl[..end], &cont), refused(0, CUT, place));
        }
        let pools = 6 + 7 * 4;
        let faces = pools + 21 * 4;
        for end in pools..faces + 4 {
            let place = faces.min(pools + (end - pools) / 4 * 4);
            assert_eq!(answer(&decl, &cont[..end]), refused(1, CUT, place));
        }
        let mut shading = cont.clone();
        shading[faces] = 2;
        assert_eq!(answer(&decl, &shading), refused(1, VALUE, faces));
    }
}
