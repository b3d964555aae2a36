//! The steps of a step table, laid on a mesh and taken back: one at a time, or
//! as many as a walk is asked for.

use crate::refusal::{
    judge, ABSENT, CORNER, CORNERS, COUNTS, FACE, FORM, LIMIT, MAX_MOVES, MAX_NEW_FACES,
    MAX_RECORDS, MAX_STEPS, NO_STEP, POSITION, ROOM, STATE, STEP,
};

/// The directions of a request.
pub const UP: u32 = 0;
pub const DOWN: u32 = 1;

/// The present counts.
#[derive(Clone, Copy, PartialEq, Eq, Debug)]
pub struct Counts {
    pub positions: u32,
    pub faces: u32,
}

/// What a walk is asked for: so many steps in one direction.
#[derive(Clone, Copy, PartialEq, Eq, Debug)]
pub struct Request {
    pub direction: u32,
    pub count: u32,
}

/// The tables that steps change, and the present counts.
pub struct Mesh<'a> {
    pub faces: &'a mut [u32],
    pub positions: &'a mut [u32],
    pub counts: Counts,
}

/// Lays the next vertex split on the mesh. A refusal changes nothing.
pub fn up(list: &[u32], shadings: u32, mesh: &mut Mesh) -> Result<(), u32> {
    let neighbours = Neighbours::find(list, mesh.counts)?;
    let step = neighbours.next.ok_or(NO_STEP)?;
    mesh.lay(&step, shadings)
}

/// Takes the last vertex split back. A refusal changes nothing.
pub fn down(list: &[u32], shadings: u32, mesh: &mut Mesh) -> Result<(), u32> {
    let neighbours = Neighbours::find(list, mesh.counts)?;
    let step = neighbours.last.ok_or(NO_STEP)?;
    mesh.take_back(&step, shadings)
}

/// Takes the requested steps one at a time, up to the first refusal, which
/// keeps the steps before it. Gives how many were granted, modulo 2^64, too.
pub fn walk(
    list: &[u32],
    shadings: u32,
    requests: impl IntoIterator<Item = Request>,
    mesh: &mut Mesh,
) -> (u64, Result<(), u32>) {
    let mut walk = Walk {
        list,
        levels: None,
        shadings,
        mesh,
        granted: 0,
    };
    let mut requests = requests.into_iter();
    let answer = requests.try_for_each(|request| walk.take(request));
    (walk.granted, answer)
}

/// A walk under way.
struct Walk<'a, 'm> {
    list: &'a [u32],
    /// What the list says, once a step was asked for.
    levels: Option<Levels<'a>>,
    shadings: u32,
    mesh: &'a mut Mesh<'m>,
    granted: u64,
}

impl Walk<'_, '_> {
    fn take(&mut self, request: Request) -> Result<(), u32> {
        let known = matches!(request.direction, UP | DOWN);
        judge(known && request.count <= MAX_STEPS, LIMIT)?;
        for _ in 0..request.count {
            self.step(request.direction)?;
            self.granted = self.granted.wrapping_add(1);
        }
        Ok(())
    }

    fn step(&mut self, direction: u32) -> Result<(), u32> {
        let levels = match &self.levels {
            Some(levels) => levels,
            None => self.levels.insert(Levels::read(self.list)?),
        };
        let level = levels.level_of(self.mesh.counts)?;
        if direction == UP {
            let next = levels.steps.get(level).ok_or(NO_STEP)?;
            self.mesh.lay(next, self.shadings)
        } else {
            let last = level.checked_sub(1).ok_or(NO_STEP)?;
            self.mesh.take_back(&levels.steps[last], self.shadings)
        }
    }
}

impl Mesh<'_> {
    /// Lays a step at the present counts, or refuses it and changes nothing.
    fn lay(&mut self, step: &Step, shadings: u32) -> Result<(), u32> {
        let before = self.counts;
        let after = step.after(before);
        self.judge_room(after)?;
        step.judge_numbers(shadings, before)?;
        judge(step.corners_hold(self.faces, step.split), STEP)?;
        let new = NewRecords { before, after };
        let clear = is_zero(&self.positions[new.position()]) && is_zero(&self.faces[new.faces()]);
        judge(clear, STATE)?;
        self.positions[new.position()].copy_from_slice(&step.point);
        step.set_corners(self.faces, before.positions);
        let records = self.faces[new.faces()].chunks_exact_mut(FACE);
        for (record, face) in records.zip(step.faces) {
            record.copy_from_slice(&face_record(face));
        }
        self.counts = after;
        Ok(())
    }

    /// Takes back the step that led to the present counts, or refuses it and
    /// changes nothing.
    fn take_back(&mut self, step: &Step, shadings: u32) -> Result<(), u32> {
        let after = self.counts;
        let before = step.before(after);
        self.judge_room(after)?;
        step.judge_numbers(shadings, before)?;
        let new = NewRecords { before, after };
        let shown = self.positions[new.position()] == step.point
            && step.corners_hold(self.faces, before.positions)
            && step.shows_faces(&self.faces[new.faces()]);
        judge(shown, STATE)?;
        self.positions[new.position()].fill(0);
        step.set_corners(self.faces, step.split);
        self.faces[new.faces()].fill(0);
        self.counts = before;
        Ok(())
    }

    /// 12 where counts pass their limit or don't fit the tables. The counts
    /// after a step are the larger ones, so they decide for both.
    fn judge_room(&self, after: Counts) -> Result<(), u32> {
        let fits = after.positions <= MAX_RECORDS
            && after.faces <= MAX_RECORDS
            && after.positions as usize * POSITION <= self.positions.len()
            && after.faces as usize * FACE <= self.faces.len();
        judge(fits, ROOM)
    }
}

fn is_zero(words: &[u32]) -> bool {
    words.iter().all(|&word| word == 0)
}

/// The new records of a step: those from the counts before it on.
struct NewRecords {
    before: Counts,
    after: Counts,
}

impl NewRecords {
    fn position(&self) -> std::ops::Range<usize> {
        let start = self.before.positions as usize * POSITION;
        start..start + POSITION
    }

    fn faces(&self) -> std::ops::Range<usize> {
        self.before.faces as usize * FACE..self.after.faces as usize * FACE
    }
}

/// A face's record: its shading and positions, no other corner numbers.
fn face_record(face: &[u32; 1 + CORNERS]) -> [u32; FACE] {
    let mut record = [ABSENT; FACE];
    record[0] = face[0];
    for (corner, &position) in face[1..].iter().enumerate() {
        record[1 + corner * CORNER] = position;
    }
    record
}

/// A vertex split in the table.
#[derive(Clone, Copy)]
struct Step<'a> {
    split: u32,
    point: [u32; POSITION],
    /// Face and corner.
    moves: &'a [[u32; 2]],
    /// Shading and positions.
    faces: &'a [[u32; 1 + CORNERS]],
}

impl<'a> Step<'a> {
    /// The step at the start of the words, and the words after it.
    fn parse(words: &'a [u32]) -> Option<(Step<'a>, &'a [u32])> {
        let (&[split, x, y, z, moves, faces], rest) = words.split_first_chunk()?;
        if moves > MAX_MOVES || faces > MAX_NEW_FACES {
            return None;
        }
        let (moves, rest) = rest.split_at_checked(2 * moves as usize)?;
        let (faces, rest) = rest.split_at_checked((1 + CORNERS) * faces as usize)?;
        let step = Step {
            split,
            point: [x, y, z],
            moves: moves.as_chunks().0,
            faces: faces.as_chunks().0,
        };
        let formed = step
            .moves
            .iter()
            .all(|&[_, corner]| corner < CORNERS as u32);
        formed.then_some((step, rest))
    }

    fn after(&self, before: Counts) -> Counts {
        Counts {
            positions: before.positions + 1,
            faces: before.faces + self.faces.len() as u32,
        }
    }

    fn before(&self, after: Counts) -> Counts {
        Counts {
            positions: after.positions - 1,
            faces: after.faces - self.faces.len() as u32,
        }
    }

    /// The rules on a step's numbers at the counts before it, else 14.
    fn judge_numbers(&self, shadings: u32, before: Counts) -> Result<(), u32> {
        let new = before.positions;
        let mut moves = self.moves.iter().enumerate();
        let mut faces = self.faces.iter();
        let allowed = self.split < new
            && moves.all(|(at, pair)| pair[0] < before.faces && !self.moves[..at].contains(pair))
            && faces.all(|face| face[0] < shadings && self.is_new_face(&face[1..], new));
        judge(allowed, STEP)
    }

    /// Whether the positions are the new one, the split one and a lower third.
    fn is_new_face(&self, corners: &[u32], new: u32) -> bool {
        let times = |wanted: u32| corners.iter().filter(|&&held| held == wanted).count();
        times(new) == 1 && times(self.split) == 1 && corners.iter().all(|&held| held <= new)
    }

    fn corners_hold(&self, faces: &[u32], position: u32) -> bool {
        let mut moves = self.moves.iter();
        moves.all(|&pair| faces[corner_index(pair)] == position)
    }

    fn set_corners(&self, faces: &mut [u32], position: u32) {
        for &pair in self.moves {
            faces[corner_index(pair)] = position;
        }
    }

    fn shows_faces(&self, records: &[u32]) -> bool {
        let mut faces = records.chunks_exact(FACE).zip(self.faces);
        faces.all(|(record, face)| record == face_record(face))
    }
}

/// Where a corner's position stands in the face table.
fn corner_index([face, corner]: [u32; 2]) -> usize {
    face as usize * FACE + 1 + corner as usize * CORNER
}

/// The numbers at a list's start: the base counts, and how many steps follow.
struct Head {
    base: Counts,
    steps: u32,
}

impl Head {
    /// The head, and the words after it; 13 where there is none or a limit is
    /// passed.
    fn parse(list: &[u32]) -> Result<(Head, &[u32]), u32> {
        let (&[positions, faces, steps], rest) = list.split_first_chunk().ok_or(FORM)?;
        let formed = positions <= MAX_RECORDS && faces <= MAX_RECORDS && steps <= MAX_STEPS;
        judge(formed, FORM)?;
        let base = Counts { positions, faces };
        Ok((Head { base, steps }, rest))
    }

    /// Hands on each step of the words after the head; 13 where they are not
    /// just so many steps.
    fn each_step<'a>(
        &self,
        mut rest: &'a [u32],
        mut take: impl FnMut(u32, Step<'a>),
    ) -> Result<(), u32> {
        for index in 0..self.steps {
            let (step, after) = Step::parse(rest).ok_or(FORM)?;
            rest = after;
            take(index, step);
        }
        judge(rest.is_empty(), FORM)
    }
}

/// The steps on both sides of the present counts.
struct Neighbours<'a> {
    last: Option<Step<'a>>,
    next: Option<Step<'a>>,
}

impl<'a> Neighbours<'a> {
    /// Judges the whole list (13), then the present counts (15).
    fn find(list: &'a [u32], counts: Counts) -> Result<Neighbours<'a>, u32> {
        let (head, rest) = Head::parse(list)?;
        let present = counts.positions.checked_sub(head.base.positions);
        let mut faces = head.base.faces;
        let (mut last, mut next) = (None, None);
        head.each_step(rest, |index, step| {
            if present == Some(index) {
                next = Some(step);
            } else if present > Some(index) {
                last = Some(step);
                faces += step.faces.len() as u32;
            }
        })?;
        let agree = present.is_some_and(|present| present <= head.steps) && faces == counts.faces;
        judge(agree, COUNTS)?;
        Ok(Neighbours { last, next })
    }
}

/// All steps of a list, and how many faces there are at each level.
struct Levels<'a> {
    base_positions: u32,
    steps: Vec<Step<'a>>,
    /// One more than steps.
    faces: Vec<u32>,
}

impl<'a> Levels<'a> {
    /// Judges the whole list (13).
    fn read(list: &'a [u32]) -> Result<Levels<'a>, u32> {
        let (head, rest) = Head::parse(list)?;
        let mut steps = Vec::with_capacity(head.steps as usize);
        let mut faces = Vec::with_capacity(head.steps as usize + 1);
        let mut present = head.base.faces;
        head.each_step(rest, |_, step| {
            faces.push(present);
            present += step.faces.len() as u32;
            steps.push(step);
        })?;
        faces.push(present);
        Ok(Levels {
            base_positions: head.base.positions,
            steps,
            faces,
        })
    }

    /// How many steps are laid at these counts; 15 where they disagree with
    /// the list.
    fn level_of(&self, counts: Counts) -> Result<usize, u32> {
        let above = counts.positions.checked_sub(self.base_positions);
        let level = above.ok_or(COUNTS)? as usize;
        judge(self.faces.get(level) == Some(&counts.faces), COUNTS)?;
        Ok(level)
    }
}

#[cfg(test)]
mod tests {
    use super::*;

    const EXAMPLE: [u32; 15] = [
        3,
        1,
        1,
        2,
        0x3F80_0000,
        0,
        0xBF80_0000,
        1,
        1,
        0,
        2,
        1,
        1,
        2,
        3,
    ];

    const BASE: Counts = Counts {
        positions: 3,
        faces: 1,
    };
    const TOP: Counts = Counts {
        positions: 4,
        faces: 2,
    };

    /// The base mesh, with room for the step.
    #[derive(Clone, PartialEq, Debug)]
    struct Tables {
        faces: Vec<u32>,
        positions: Vec<u32>,
        counts: Counts,
    }

    impl Tables {
        fn new() -> Tables {
            let mut faces = vec![0; 2 * FACE];
            faces[..FACE].copy_from_slice(&face_record(&[0, 0, 1, 2]));
            let mut positions = vec![0; 4 * POSITION];
            positions[..9].fill(5);
            Tables {
                faces,
                positions,
                counts: BASE,
            }
        }

        fn with<T>(&mut self, call: impl FnOnce(&mut Mesh) -> T) -> T {
            let mut mesh = Mesh {
                faces: &mut self.faces,
                positions: &mut self.positions,
                counts: self.counts,
            };
            let given = call(&mut mesh);
            self.counts = mesh.counts;
            given
        }

        fn up(&mut self, list: &[u32]) -> Result<(), u32> {
            self.with(|mesh| up(list, 2, mesh))
        }

        fn down(&mut self, list: &[u32]) -> Result<(), u32> {
            self.with(|mesh| down(list, 2, mesh))
        }

        /// A walk by directions and counts.
        fn walk(&mut self, list: &[u32], requests: &[(u32, u32)]) -> (u64, Result<(), u32>) {
            let requests = requests
                .iter()
                .map(|&(direction, count)| Request { direction, count });
            self.with(|mesh| walk(list, 2, requests, mesh))
        }
    }

    #[test]
    fn example() {
        let mut tables = Tables::new();
        let wrong = tables.with(|mesh| up(&EXAMPLE, 1, mesh));
        assert_eq!(wrong, Err(STEP));
        assert_eq!(tables, Tables::new());
        assert_eq!(tables.up(&EXAMPLE), Ok(()));
        assert_eq!(tables.counts, TOP);
        assert_eq!(tables.faces[..FACE], face_record(&[0, 0, 1, 3]));
        assert_eq!(tables.faces[FACE..], face_record(&[1, 1, 2, 3]));
        assert_eq!(tables.positions[9..], EXAMPLE[4..7]);
        assert_eq!(tables.up(&EXAMPLE), Err(NO_STEP));
        assert_eq!(tables.down(&EXAMPLE), Ok(()));
        assert_eq!(tables, Tables::new());
        assert_eq!(tables.down(&EXAMPLE), Err(NO_STEP));
    }

    #[test]
    fn refusals() {
        let answer = |list: &[u32], room: usize, positions: u32, faces: u32| {
            let mut tables = Tables::new();
            tables.faces.truncate(room * FACE);
            tables.counts = Counts { positions, faces };
            let single = tables.clone().up(list);
            assert_eq!(tables.walk(list, &[(UP, 1)]), (0, single));
            single
        };
        assert_eq!(answer(&EXAMPLE[..14], 2, 3, 1), Err(FORM));
        assert_eq!(answer(&EXAMPLE, 2, 2, 1), Err(COUNTS));
        assert_eq!(answer(&EXAMPLE, 2, 3, 2), Err(COUNTS));
        assert_eq!(answer(&EXAMPLE, 2, 5, 2), Err(COUNTS));
        assert_eq!(answer(&EXAMPLE, 2, u32::MAX, u32::MAX), Err(COUNTS));
        assert_eq!(answer(&EXAMPLE, 1, 3, 1), Err(ROOM));
        let twice = [3, 1, 1, 2, 0, 0, 0, 2, 0, 0, 2, 0, 2];
        assert_eq!(answer(&twice, 1, 3, 1), Err(STEP));
        let mut third = EXAMPLE;
        third[12] = 2;
        assert_eq!(answer(&third, 2, 3, 1), Err(STEP));
    }

    #[test]
    fn walks_without_steps() {
        let broken = &EXAMPLE[..14];
        let mut tables = Tables::new();
        tables.counts.faces = 9;
        let lent = tables.clone();
        for list in [broken, &EXAMPLE, &[]] {
            assert_eq!(tables.walk(list, &[]), (0, Ok(())));
            assert_eq!(tables.walk(list, &[(UP, 0), (DOWN, 0)]), (0, Ok(())));
        }
        assert_eq!(tables.walk(broken, &[(UP, 0), (UP, 1)]), (0, Err(FORM)));
        assert_eq!(tables.walk(&EXAMPLE, &[(DOWN, 1)]), (0, Err(COUNTS)));
        assert_eq!(tables, lent);
    }

    #[test]
    fn refused_requests() {
        let mut tables = Tables::new();
        for request in [(2, 0), (2, 1), (u32::MAX, 0), (UP, 4_097), (DOWN, u32::MAX)] {
            assert_eq!(tables.walk(&EXAMPLE, &[request]), (0, Err(LIMIT)));
            assert_eq!(tables.walk(&[], &[request, (UP, 1)]), (0, Err(LIMIT)));
        }
        assert_eq!(tables, Tables::new());
        let middle = [(UP, 1), (DOWN, 1), (UP, 1), (UP, 4_097), (DOWN, 1)];
        assert_eq!(tables.walk(&EXAMPLE, &middle), (3, Err(LIMIT)));
        assert_eq!(tables.counts, TOP);
        let down = tables.down(&EXAMPLE);
        assert_eq!((down, tables), (Ok(()), Tables::new()));
    }

    #[test]
    fn most_steps_of_a_request() {
        let mut list = vec![3, 1, 4_096];
        for split in 2..2 + 4_096 {
            list.extend([split, 0, 0, 0, 0, 0]);
        }
        let mut tables = Tables::new();
        tables.positions.resize((3 + 4_096) * POSITION, 0);
        let lent = tables.clone();
        assert_eq!(tables.walk(&list, &[(UP, 4_096)]), (4_096, Ok(())));
        assert_eq!(tables.counts.positions, 3 + 4_096);
        let ups_and_downs = [(DOWN, 4_096), (UP, 3), (DOWN, 3), (UP, 4_097)];
        assert_eq!(tables.walk(&list, &ups_and_downs), (4_102, Err(LIMIT)));
        assert_eq!(tables, lent);
    }

    /// The single calls of a walk, up to the first refusal.
    fn one_at_a_time(
        tables: &mut Tables,
        list: &[u32],
        requests: &[(u32, u32)],
    ) -> (u64, Result<(), u32>) {
        let mut granted = 0;
        for &(direction, count) in requests {
            for _ in 0..count {
                let answer = match direction {
                    UP => tables.up(list),
                    _ => tables.down(list),
                };
                if answer.is_err() {
                    return (granted, answer);
                }
                granted += 1;
            }
        }
        (granted, Ok(()))
    }

    #[test]
    fn walk_is_its_single_calls() {
        let walks: [&[(u32, u32)]; 5] = [
            &[(UP, 1)],
            &[(UP, 1), (DOWN, 1), (UP, 1)],
            &[(UP, 2), (DOWN, 1)],
            &[(UP, 1), (UP, 0), (DOWN, 2), (UP, 1)],
            &[(DOWN, 1)],
        ];
        for requests in walks {
            let (mut walked, mut stepped) = (Tables::new(), Tables::new());
            let given = walked.walk(&EXAMPLE, requests);
            assert_eq!(given, one_at_a_time(&mut stepped, &EXAMPLE, requests));
            assert_eq!(walked, stepped);
        }
    }
}
