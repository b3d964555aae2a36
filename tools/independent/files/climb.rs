//! Climb lists that are allowed on a mesh, lists of the right form, and climb texts.

use super::damage::other_value;
use crate::random::Random;
use crate::refusal::{CORNER, CORNERS, FACE, MAX_MOVES, MAX_RECORDS, POSITION};

pub const LIST_HEAD: usize = 3;
pub const STEP_HEAD: usize = 6;
pub const MOVE_NUMBERS: usize = 2;
pub const NEW_FACE_NUMBERS: usize = 4;
/// Where the step count, and in a step the count of moves, stand.
const STEPS_AT: usize = 2;
const MOVES_AT: usize = 4;

const MOST_BASE: usize = 6;
const MOST_STEPS: usize = 6;
const MOST_MOVES: u32 = 5;
const MOST_NEW: u32 = 4;

/// A base mesh and a list whose steps are all allowed on it, one after the other.
pub struct Climb {
    pub list: Vec<u32>,
    pub shadings: u32,
    pub positions: Vec<u32>,
    pub faces: Vec<u32>,
    pub base_positions: u32,
    pub base_faces: u32,
    /// Faces when all steps are done.
    pub all_faces: u32,
    pub steps: u32,
}

/// Records of faces with these corners; the other numbers are not 0.
fn face_records(random: &mut Random, corners: &[[u32; CORNERS]]) -> Vec<u32> {
    let mut records = Vec::with_capacity(corners.len() * FACE);
    for face in corners {
        let start = records.len();
        records.extend((0..FACE).map(|_| 1 + random.u32_below(9)));
        for (corner, &position) in face.iter().enumerate() {
            records[start + 1 + corner * CORNER] = position;
        }
    }
    records
}

/// A list while it is made, and each face's corners as its steps move them.
struct Maker<'a> {
    random: &'a mut Random,
    list: Vec<u32>,
    corners: Vec<[u32; CORNERS]>,
    shadings: u32,
}

impl Maker<'_> {
    /// Mostly a position that a corner holds.
    fn pick_split(&mut self, r: u32) -> u32 {
        if self.corners.is_empty() || self.random.once_in(3) {
            return self.random.u32_below(r);
        }
        self.random.pick(&self.corners)[self.random.below(CORNERS)]
    }

    /// Moves corners that hold s to r; gives how many.
    fn put_moves(&mut self, s: u32, r: u32) -> u32 {
        let mut moves = 0;
        for at in 0..self.corners.len() * CORNERS {
            let (face, corner) = (at / CORNERS, at % CORNERS);
            let held = &mut self.corners[face][corner];
            if *held == s && moves < MOST_MOVES && !self.random.once_in(3) {
                *held = r;
                self.list.extend([face as u32, corner as u32]);
                moves += 1;
            }
        }
        moves
    }

    /// A new face of r, s and another position, in any order.
    fn put_new_face(&mut self, s: u32, r: u32) {
        let other = self.random.u32_below(r - 1);
        let mut three = [r, s, if other >= s { other + 1 } else { other }];
        three.rotate_left(self.random.below(CORNERS));
        if self.random.once_in(2) {
            three.reverse();
        }
        self.list.push(self.random.u32_below(self.shadings));
        self.list.extend(three);
        self.corners.push(three);
    }

    /// The step at r positions.
    fn put_step(&mut self, r: u32) {
        let split = self.pick_split(r);
        let new_faces = if r < 2 {
            0
        } else {
            self.random.u32_below(MOST_NEW + 1)
        };
        let at = self.list.len();
        let number = |random: &mut Random| if random.once_in(4) { 0 } else { random.u32() };
        self.list.push(split);
        self.list.extend((0..POSITION).map(|_| number(self.random)));
        self.list.extend([0, new_faces]);
        self.list[at + MOVES_AT] = self.put_moves(split, r);
        (0..new_faces).for_each(|_| self.put_new_face(split, r));
    }
}

/// A small mesh and its list.
pub fn random_climb(random: &mut Random) -> Climb {
    let base_positions = random.from_to(1, MOST_BASE) as u32;
    let base_faces = random.below(MOST_BASE + 1);
    let steps = if random.once_in(20) {
        0
    } else {
        random.from_to(1, MOST_STEPS) as u32
    };
    let shadings = random.from_to(1, 3) as u32;
    let face = |_| [0; CORNERS].map(|_: u32| random.u32_below(base_positions));
    let corners: Vec<_> = (0..base_faces).map(face).collect();
    let faces = face_records(random, &corners);
    let numbers = base_positions as usize * POSITION;
    let positions = (0..numbers).map(|_| random.u32()).collect();
    let list = vec![base_positions, base_faces as u32, steps];
    let mut maker = Maker {
        random,
        list,
        corners,
        shadings,
    };
    (0..steps).for_each(|k| maker.put_step(base_positions + k));
    Climb {
        shadings,
        positions,
        faces,
        base_positions,
        base_faces: base_faces as u32,
        all_faces: maker.corners.len() as u32,
        steps,
        list: maker.list,
    }
}

/// A long list of like steps: each moves the same corners on to its new position, and splits the position of the step before.
pub struct Ladder {
    pub base_positions: u32,
    pub base_faces: u32,
    pub shadings: u32,
    pub steps: u32,
    /// Of each step.
    pub moves: u32,
    pub new_faces: u32,
}

impl Ladder {
    fn split_of(&self, k: u32) -> u32 {
        match k {
            0 => 0,
            _ => self.base_positions + k - 1,
        }
    }

    fn put_step(&self, list: &mut Vec<u32>, random: &mut Random, k: u32) {
        list.push(self.split_of(k));
        list.extend((0..POSITION).map(|_| random.u32()));
        list.extend([self.moves, self.new_faces]);
        (0..self.moves).for_each(|face| list.extend([face, face % CORNERS as u32]));
        for _ in 0..self.new_faces {
            let other = 1 + random.u32_below(self.base_positions - 2);
            let mut three = [self.base_positions + k, self.split_of(k), other];
            three.rotate_left(random.below(CORNERS));
            list.push(random.u32_below(self.shadings));
            list.extend(three);
        }
    }

    /// One corner of each face is at position 0.
    fn face(&self, face: u32) -> [u32; FACE] {
        let others = self.base_positions - 1;
        let mut record = std::array::from_fn(|number| 1 + (face + number as u32) % others);
        record[0] = face % self.shadings;
        record[1 + face as usize % CORNERS * CORNER] = 0;
        record
    }

    pub fn climb(&self, random: &mut Random) -> Climb {
        let mut list = vec![self.base_positions, self.base_faces, self.steps];
        (0..self.steps).for_each(|k| self.put_step(&mut list, random, k));
        Climb {
            list,
            shadings: self.shadings,
            positions: (1..=self.base_positions * POSITION as u32).collect(),
            faces: (0..self.base_faces)
                .flat_map(|face| self.face(face))
                .collect(),
            base_positions: self.base_positions,
            base_faces: self.base_faces,
            all_faces: self.base_faces + self.steps * self.new_faces,
            steps: self.steps,
        }
    }
}

/// How many moves or new faces a step of any list has, at times about the limit.
fn random_each(random: &mut Random) -> usize {
    match random.below(40) {
        0 => random.from_to(MAX_MOVES as usize - 1, MAX_MOVES as usize + 1),
        _ => random.below(4),
    }
}

fn random_base_count(random: &mut Random) -> u32 {
    match random.below(30) {
        0 => MAX_RECORDS + random.u32_below(3) - 1,
        _ => random.u32_below(100),
    }
}

/// A step of any numbers.
fn put_any_step(list: &mut Vec<u32>, random: &mut Random) {
    let (moves, faces) = (random_each(random), random_each(random));
    list.extend((0..1 + POSITION).map(|_| random.u32() >> random.below(32)));
    list.extend([moves as u32, faces as u32]);
    for _ in 0..moves {
        list.extend([
            random.u32() >> random.below(32),
            random.u32_below(CORNERS as u32),
        ]);
    }
    list.extend((0..faces * NEW_FACE_NUMBERS).map(|_| random.u32() >> random.below(32)));
}

/// A list of the right form, at times just past a limit, that says nothing of a mesh.
pub fn any_list(random: &mut Random) -> Vec<u32> {
    let steps = random.below(MOST_STEPS);
    let mut list = vec![
        random_base_count(random),
        random_base_count(random),
        steps as u32,
    ];
    (0..steps).for_each(|_| put_any_step(&mut list, random));
    list
}

/// The text's lines, without their ends.
pub struct Text {
    lines: Vec<String>,
}

fn decimal_line(keyword: &str, numbers: &[u32]) -> String {
    numbers.iter().fold(keyword.to_string(), |line, number| {
        format!("{line}\t{number}")
    })
}

fn put_step_lines(lines: &mut Vec<String>, step: &[u32]) {
    let [split, x, y, z, moves, _] = step[..STEP_HEAD] else {
        return;
    };
    lines.push(format!("split\t{split}\t{x:08x}\t{y:08x}\t{z:08x}"));
    let (pairs, fours) = step[STEP_HEAD..].split_at(moves as usize * MOVE_NUMBERS);
    lines.extend(
        pairs
            .chunks(MOVE_NUMBERS)
            .map(|pair| decimal_line("move", pair)),
    );
    lines.extend(
        fours
            .chunks(NEW_FACE_NUMBERS)
            .map(|four| decimal_line("face", four)),
    );
}

fn step_size(step: &[u32]) -> usize {
    let (moves, faces) = (step[MOVES_AT] as usize, step[MOVES_AT + 1] as usize);
    STEP_HEAD + moves * MOVE_NUMBERS + faces * NEW_FACE_NUMBERS
}

/// The text of a list of the right form.
pub fn text_of(list: &[u32]) -> Text {
    let mut lines = vec![decimal_line("climb", &[1, list[0], list[1]])];
    let mut rest = &list[LIST_HEAD..];
    while !rest.is_empty() {
        let (step, after) = rest.split_at(step_size(rest));
        put_step_lines(&mut lines, step);
        rest = after;
    }
    lines.push(decimal_line("end", &list[STEPS_AT..LIST_HEAD]));
    Text { lines }
}

/// Fields that are wrong nearly everywhere.
const ODD_FIELDS: [&str; 32] = [
    "",
    "0",
    "1",
    "2",
    "3",
    "00",
    "01",
    "+1",
    "-1",
    " 1",
    "1 ",
    "4095",
    "4096",
    "4097",
    "65535",
    "65536",
    "65537",
    "4294967295",
    "4294967296",
    "42949672950",
    "18446744073709551616",
    "1a",
    "3F800000",
    "3f80000",
    "3f8000000",
    "0000000g",
    "climb",
    "split",
    "move",
    "face",
    "end",
    "\r",
];
const ODD_BYTES: [u8; 10] = [
    b'\t', b'\n', b'\r', b' ', b'0', b'9', b'a', b'f', b'F', 0xFF,
];

/// The field with 1 more or less, or what it was.
fn near_field(random: &mut Random, field: &str) -> String {
    match field.parse::<u32>() {
        Ok(number) => other_value(random, number).to_string(),
        Err(_) => field.to_uppercase(),
    }
}

fn damage_field(random: &mut Random, line: &str) -> String {
    let mut fields: Vec<String> = line.split('\t').map(str::to_string).collect();
    let at = random.below(fields.len());
    match random.below(6) {
        0 => drop(fields.remove(at)),
        1 => fields.insert(at, random.pick(&ODD_FIELDS).to_string()),
        2 | 3 => fields[at] = near_field(random, &fields[at]),
        _ => fields[at] = random.pick(&ODD_FIELDS).to_string(),
    }
    fields.join("\t")
}

impl Text {
    /// One damage: a field, or a line more, less or elsewhere.
    pub fn damage(&mut self, random: &mut Random) {
        if self.lines.is_empty() {
            return;
        }
        let at = random.below(self.lines.len());
        match random.below(8) {
            0 => drop(self.lines.remove(at)),
            1 => self.lines.insert(at, self.lines[at].clone()),
            2 => {
                let other = random.below(self.lines.len());
                self.lines.swap(at, other);
            }
            _ => self.lines[at] = damage_field(random, &self.lines[at]),
        }
    }

    pub fn bytes(&self) -> Vec<u8> {
        let mut bytes = self.lines.join("\n").into_bytes();
        bytes.push(b'\n');
        bytes
    }
}

/// One damage to a byte of a text, or a cut.
pub fn damage_text(bytes: &mut Vec<u8>, random: &mut Random) {
    let at = random.below(bytes.len() + 1);
    match random.below(4) {
        0 => bytes.truncate(at),
        1 => bytes.truncate(bytes.len().saturating_sub(1)),
        2 => bytes.insert(at, random.pick(&ODD_BYTES)),
        _ => {
            if let Some(byte) = bytes.get_mut(at) {
                *byte = random.pick(&ODD_BYTES);
            }
        }
    }
}
