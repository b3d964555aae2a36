//! Steps up and down, one a call and in walks.
//!
//! Every call of one step judges the whole list anew, so its time grows with the list. The first ten levels of a list are climbed, and the
//! last ten, to see whether time grows with the level, too. Of 4,096 steps with 64 new faces no mesh can hold all: the last that it can
//! hold are climbed there, and the last of all with 15 new faces. Walks are of many steps, at the bottom of a list and at its top.

use super::{grouped, print_heading, print_row, Best, ROUNDS};
use independent::files::climb::{Climb, Ladder};
use independent::random::Random;
use independent::refusal::{FACE, MAX_RECORDS, MAX_STEPS, POSITION};
use independent::steps::{DOWN, UP};
use sides::{Request, Side, Step, COUNT_WORDS, INDEPENDENT, LIBRARY, RESULT_WORDS};
use std::time::Instant;

/// Steps up, and down again.
const CLIMBED: u32 = 10;
/// About so many steps of the list are judged in a round, per step climbed.
const JUDGED: u32 = 40_000;
const BASE_POSITIONS: u32 = 100;
/// At least as many as moves.
const BASE_FACES: u32 = 64;
const SHADINGS: u32 = 4;
const MICROSECOND: f64 = 1e-6;

struct Case {
    /// Of each step.
    moves: u32,
    new_faces: u32,
    steps: u32,
    /// Steps below those that are climbed.
    below: u32,
}

const fn case(moves: u32, new_faces: u32, steps: u32, below: u32) -> Case {
    Case {
        moves,
        new_faces,
        steps,
        below,
    }
}

/// Steps below the last levels of a list; and below the last that a mesh has room for, with 64 new faces a step.
const TOP: u32 = MAX_STEPS - CLIMBED;
const ROOM_TOP: u32 = (MAX_RECORDS - BASE_FACES) / 64 - CLIMBED;

const CASES: [Case; 8] = [
    case(4, 4, 10, 0),
    case(64, 64, 10, 0),
    case(4, 4, MAX_STEPS, 0),
    case(4, 4, MAX_STEPS, TOP),
    case(64, 64, MAX_STEPS, 0),
    case(64, 64, MAX_STEPS, ROOM_TOP),
    case(64, 15, MAX_STEPS, 0),
    case(64, 15, MAX_STEPS, TOP),
];

/// Steps of a walk, and walks up and down in a round.
const WALKED: u32 = 1_000;
const WALKS: u32 = 5;
/// Moves and new faces of each step; the steps below the walk.
const WALK_CASES: [(u32, u32); 4] = [
    (4, 0),
    (4, MAX_STEPS - WALKED),
    (12, 0),
    (12, MAX_STEPS - WALKED),
];
/// The requests of a walk, all of one length.
const REQUESTS: [u32; 2] = [1, WALKED];

struct Climber {
    side: Side,
    faces: Vec<u32>,
    positions: Vec<u32>,
    counts: [u32; COUNT_WORDS],
    up: Best,
    down: Best,
}

/// The base records, then zeros for as many as there may be.
fn table(base: &[u32], width: usize) -> Vec<u32> {
    let mut table = base.to_vec();
    table.resize(MAX_RECORDS as usize * width, 0);
    table
}

impl Climber {
    fn new(side: Side, climb: &Climb) -> Climber {
        Climber {
            side,
            faces: table(&climb.faces, FACE),
            positions: table(&climb.positions, POSITION),
            counts: [climb.base_positions, climb.base_faces],
            up: Best::new(),
            down: Best::new(),
        }
    }

    /// Seconds of all these steps one way.
    fn climb(&mut self, step: Step, list: &[u32]) -> f64 {
        let start = Instant::now();
        let mut numbers = 0;
        for _ in 0..CLIMBED {
            numbers |= step(
                list,
                SHADINGS,
                &mut self.faces,
                &mut self.positions,
                &mut self.counts,
            );
        }
        assert_eq!(numbers, 0, "a step is refused");
        start.elapsed().as_secs_f64()
    }

    /// Up and down so many times; the mean time of a step counts.
    fn round(&mut self, list: &[u32], times: u32) {
        let (mut up, mut down) = (0.0, 0.0);
        for _ in 0..times {
            up += self.climb(self.side.up, list);
            down += self.climb(self.side.down, list);
        }
        self.up.keep(up / f64::from(times * CLIMBED));
        self.down.keep(down / f64::from(times * CLIMBED));
    }

    /// Seconds of a walk.
    fn walk(&mut self, list: &[u32], requests: &[Request]) -> f64 {
        let mut result = [0; RESULT_WORDS];
        let start = Instant::now();
        let number = (self.side.steps)(
            list,
            SHADINGS,
            requests,
            &mut self.faces,
            &mut self.positions,
            &mut self.counts,
            &mut result,
        );
        let seconds = start.elapsed().as_secs_f64();
        let steps: u64 = requests
            .iter()
            .map(|request| u64::from(request.count))
            .sum();
        assert_eq!((number, result), (0, [0, steps]), "a walk is refused");
        seconds
    }

    /// Walks up and down; the mean time of a step counts.
    fn walk_round(&mut self, list: &[u32], requests: u32) {
        let [walk_up, walk_down] = [UP, DOWN].map(|way| walk_of(way, WALKED, requests));
        let (mut up, mut down) = (0.0, 0.0);
        for _ in 0..WALKS {
            up += self.walk(list, &walk_up);
            down += self.walk(list, &walk_down);
        }
        self.up.keep(up / f64::from(WALKS * WALKED));
        self.down.keep(down / f64::from(WALKS * WALKED));
    }
}

/// So many steps in like requests.
fn walk_of(direction: u32, steps: u32, requests: u32) -> Vec<Request> {
    let count = steps / requests;
    vec![Request { direction, count }; requests as usize]
}

/// Both sides, each on tables of its own.
struct Pair {
    independent: Climber,
    library: Climber,
}

impl Pair {
    /// Both at the level above so many steps.
    fn above(climb: &Climb, steps: u32) -> Pair {
        let mut pair = Pair {
            independent: Climber::new(INDEPENDENT, climb),
            library: Climber::new(LIBRARY, climb),
        };
        pair.both(|climber| climber.walk(&climb.list, &walk_of(UP, steps, 1)));
        pair
    }

    /// The same on both sides, which must then agree.
    fn both<T>(&mut self, run: impl Fn(&mut Climber) -> T) {
        let Pair {
            independent,
            library,
        } = self;
        run(independent);
        run(library);
        let counts = independent.counts == library.counts;
        let tables =
            independent.faces == library.faces && independent.positions == library.positions;
        assert!(counts && tables, "the two disagree");
    }

    /// A row: what was measured, then the times up and down.
    fn print_times(&self, mut cells: Vec<String>) {
        let Pair {
            independent,
            library,
        } = self;
        cells.extend(cells_of(&independent.up, &library.up));
        cells.extend(cells_of(&independent.down, &library.down));
        print_row(&cells);
    }
}

/// Both times in microseconds, and their ratio.
fn cells_of(independent: &Best, library: &Best) -> [String; 3] {
    let (due, given) = (independent.seconds(), library.seconds());
    [due / MICROSECOND, given / MICROSECOND, given / due].map(|cell| format!("{cell:.2}"))
}

fn number_cell(number: u32) -> String {
    grouped(u64::from(number))
}

/// The levels from `below` on, so many of them.
fn levels_cell(below: u32, levels: u32) -> String {
    [below, below + levels].map(number_cell).join(" to ")
}

pub fn ladder(moves: u32, new_faces: u32, steps: u32) -> Climb {
    let ladder = Ladder {
        base_positions: BASE_POSITIONS,
        base_faces: BASE_FACES,
        shadings: SHADINGS,
        steps,
        moves,
        new_faces,
    };
    ladder.climb(&mut Random::of_input(0, 0))
}

fn run_case(case: Case) {
    let climb = ladder(case.moves, case.new_faces, case.steps);
    let list = &climb.list;
    let mut pair = Pair::above(&climb, case.below);
    let times = 1 + JUDGED / case.steps / CLIMBED;
    for _ in 0..ROUNDS {
        pair.both(|climber| climber.round(list, times));
    }
    pair.both(|climber| climber.climb(climber.side.up, list));
    pair.print_times(vec![
        number_cell(case.moves),
        number_cell(case.new_faces),
        number_cell(case.steps),
        grouped(list.len() as u64),
        levels_cell(case.below, CLIMBED),
    ]);
}

fn run_walk_case((each, below): (u32, u32), requests: u32) {
    let climb = ladder(each, each, MAX_STEPS);
    let list = &climb.list;
    let mut pair = Pair::above(&climb, below);
    for _ in 0..ROUNDS {
        pair.both(|climber| climber.walk_round(list, requests));
    }
    pair.both(|climber| climber.walk(list, &walk_of(UP, WALKED, requests)));
    pair.print_times(vec![
        number_cell(each),
        levels_cell(below, WALKED),
        number_cell(requests),
    ]);
}

const TIMES: [&str; 6] = [
    "Up, µs: independent",
    "Library",
    "Time library / independent",
    "Down, µs: independent",
    "Library",
    "Time library / independent",
];

pub fn print_tables() {
    let columns = [
        "Moves of a step",
        "New faces",
        "Steps of the list",
        "Words of the list",
        "Levels",
    ];
    print_heading("Steps up and down", &[&columns[..], &TIMES].concat());
    CASES.into_iter().for_each(run_case);
    println!();
    let columns = [
        "Moves, and new faces, of a step",
        "Levels of the walk",
        "Requests of the walk",
    ];
    print_heading("Walks", &[&columns[..], &TIMES].concat());
    for case in WALK_CASES {
        REQUESTS
            .into_iter()
            .for_each(|requests| run_walk_case(case, requests));
    }
    println!();
}
