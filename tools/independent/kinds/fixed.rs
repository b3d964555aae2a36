//! Cases that are always the same: lengths and counts at their limits.

use super::blocks::{HeaderCall, ListingCall, WalkCall};
use super::climb::ClimbCall;
use super::coder_call::{CoderCall, Operation};
use super::mesh::{DeclarationCall, MeshCall};
use super::step_call::{take, Asked, StepCall};
use crate::call::{both, Call, Lent};
use crate::report::Difference;
use crate::tally::Tally;
use independent::coder::{fresh_histogram, State, SYMBOLS};
use independent::files::blocks::large_file;
use independent::files::climb::{
    text_of, Ladder, LIST_HEAD, MOVE_NUMBERS, NEW_FACE_NUMBERS, STEP_HEAD,
};
use independent::files::mesh::{self as files, MeshPlan, RandomPicks, Shading, TABLES, WIDTHS};
use independent::random::Random;
use independent::refusal::{
    FACE, MAX_BYTES, MAX_MOVES, MAX_RECORDS, MAX_SHADINGS, MAX_STEPS, POSITION,
};
use independent::steps::{DOWN, UP};
use sides::{
    Request, COUNT_WORDS, DECLARATION_RESULT_WORDS, HEADER_RESULT_WORDS, MESH_RESULT_WORDS,
    READER_WORDS, RESULT_WORDS, WRITER_WORDS,
};

/// Numbers of each table past its records.
const SPARE: usize = 7;
const FEW: usize = 64;
/// Records of a table past the limit.
const MORE_RECORDS: u32 = 8;
/// Bytes of text that suffice where so many words suffice for the rows.
const TEXT_FOR_WORD: usize = 8;

type Case = (&'static str, fn(&mut Tally) -> Result<(), Difference>);

const CASES: [Case; 13] = [
    ("files about 16 MiB", long_files),
    ("declarations about 16 MiB", long_declarations),
    ("mesh parts about 16 MiB", long_meshes),
    ("counts about 65,536", counts_at_limit),
    ("pools of 65,536", full_pools),
    ("many faces", many_faces),
    ("coder buffers about 16 MiB", long_buffers),
    ("climb texts of 4,096 steps", long_climbs),
    ("steps to 65,536", full_steps),
    ("walks without steps", idle_walks),
    ("walks with a refused request", refused_requests),
    ("walks with a refused step", refused_steps),
    ("walks of 4,096 steps", long_walks),
];

pub fn run(tally: &mut Tally) -> Result<(), (&'static str, Difference)> {
    for (name, case) in CASES {
        case(tally).map_err(|difference| (name, difference))?;
    }
    Ok(())
}

/// The call must give this number.
fn gives<C: Call>(number: u32, call: &C, tally: &mut Tally) -> Result<C, Difference> {
    let (given, after) = both(call, tally)?;
    match given == number {
        true => Ok(after),
        false => Err(Difference(format!("both give {given}, not {number}"))),
    }
}

/// Header, walk and listing; the header is refused as the file is, in the cases here.
fn read_blocks(number: u32, file: &[u8], room: usize, tally: &mut Tally) -> Result<(), Difference> {
    let result = Lent::patterned(RESULT_WORDS);
    let walk = WalkCall {
        file,
        rows: Lent::patterned(room),
        result: result.clone(),
    };
    gives(number, &walk, tally)?;
    let header = HeaderCall {
        file,
        result: Lent::patterned(HEADER_RESULT_WORDS),
    };
    gives(number, &header, tally)?;
    let text = Lent::patterned(FEW + TEXT_FOR_WORD * room);
    gives(0, &ListingCall { file, text, result }, tally).map(drop)
}

fn long_files(tally: &mut Tally) -> Result<(), Difference> {
    let mut file = large_file(MAX_BYTES);
    read_blocks(0, &file, MAX_BYTES / 2, tally)?;
    file.resize(MAX_BYTES, 0);
    read_blocks(3, &file, 0, tally)?;
    file.push(0);
    read_blocks(9, &file, 0, tally)
}

fn plan(base: [u32; TABLES], shadings: usize) -> MeshPlan {
    MeshPlan {
        name: b"mesh".to_vec(),
        attributes: 0,
        declared: base,
        base,
        shadings: vec![
            Shading {
                attributes: 3,
                layers: 2
            };
            shadings
        ],
    }
}

fn long_declarations(tally: &mut Tally) -> Result<(), Difference> {
    let mut data = files::declaration(&plan([1; TABLES], 1)).bytes;
    for (length, number) in [(data.len(), 0), (MAX_BYTES, 17), (MAX_BYTES + 1, 9)] {
        data.resize(length, 0);
        let fields = Lent::patterned(FEW);
        let result = Lent::patterned(DECLARATION_RESULT_WORDS);
        gives(
            number,
            &DeclarationCall {
                data: &data,
                fields,
                result,
            },
            tally,
        )?;
    }
    Ok(())
}

fn tables_for(plan: &MeshPlan) -> [Lent<u32>; TABLES] {
    std::array::from_fn(|table| Lent::patterned(plan.base[table] as usize * WIDTHS[table] + SPARE))
}

/// Reads the mesh of a plan, with so many bytes more in each part.
fn mesh_gives(
    number: u32,
    plan: &MeshPlan,
    more: [usize; 2],
    tally: &mut Tally,
) -> Result<(), Difference> {
    let mut random = Random::of_input(0, 0);
    let mut picks = RandomPicks {
        random: &mut random,
        strays: false,
    };
    let mut declaration = files::declaration(plan).bytes;
    let (continuation, _) = files::continuation(plan, &mut picks);
    let mut continuation = continuation.bytes;
    declaration.resize(declaration.len().max(more[0]), 0);
    continuation.resize(continuation.len().max(more[1]), 0);
    let call = MeshCall {
        declaration: &declaration,
        continuation: &continuation,
        tables: tables_for(plan),
        result: Lent::patterned(MESH_RESULT_WORDS),
    };
    gives(number, &call, tally).map(drop)
}

fn long_meshes(tally: &mut Tally) -> Result<(), Difference> {
    let small = plan([1; TABLES], 1);
    let over = MAX_BYTES + 1;
    mesh_gives(0, &small, [0, MAX_BYTES], tally)?;
    mesh_gives(17, &small, [MAX_BYTES, 0], tally)?;
    mesh_gives(9, &small, [over, 0], tally)?;
    mesh_gives(9, &small, [0, over], tally)?;
    mesh_gives(9, &small, [over, over], tally)
}

/// A declared count, then a base count, one above the limit; then a base count above a declared one.
fn counts_at_limit(tally: &mut Tally) -> Result<(), Difference> {
    for table in 0..TABLES {
        let mut declared_over = plan([1; TABLES], 1);
        declared_over.declared[table] = MAX_RECORDS + 1;
        mesh_gives(9, &declared_over, [0, 0], tally)?;
        let mut base_over = plan([0; TABLES], 0);
        base_over.base[table] = MAX_RECORDS + 1;
        mesh_gives(9, &base_over, [0, 0], tally)?;
        let mut unlike = plan([1; TABLES], 1);
        unlike.declared[table] = 0;
        mesh_gives(11, &unlike, [0, 0], tally)?;
    }
    Ok(())
}

/// Static ranges above 0x3FFE, up to the limit.
fn full_pools(tally: &mut Tally) -> Result<(), Difference> {
    for count in [0x3FFE, 0x3FFF, MAX_RECORDS] {
        let mut base = [count; TABLES];
        base[files::FACES] = 5;
        mesh_gives(0, &plan(base, MAX_SHADINGS), [0, 0], tally)?;
    }
    Ok(())
}

fn many_faces(tally: &mut Tally) -> Result<(), Difference> {
    let mut few_bytes = plan([MAX_RECORDS, 1, 1, 1, 1, 1], 1);
    mesh_gives(0, &few_bytes, [0, 0], tally)?;
    few_bytes.shadings[0].layers = 0;
    mesh_gives(0, &few_bytes, [0, 0], tally)?;
    // So many that the shadings' weights are halved now and then.
    mesh_gives(
        0,
        &plan([20_000, 7, 5, 3, 2, 4], MAX_SHADINGS),
        [0, 0],
        tally,
    )
}

const WRITES: [Operation; 4] = [
    Operation::WriteStatic { range: 3, value: 1 },
    Operation::WriteDynamic { value: 7 },
    Operation::WritePlain { bytes: 4, value: 5 },
    Operation::WriteEnd,
];
const READS: [Operation; 3] = [
    Operation::ReadStatic { range: 3 },
    Operation::ReadDynamic,
    Operation::ReadPlain { bytes: 4 },
];

/// A call whose state was taken as it is, fresh or with a low that no state has.
fn coder_call(operation: Operation, words: usize, low: u64, bytes: usize) -> CoderCall {
    let fresh = State::fresh();
    let state = [low, fresh.high, fresh.pending, fresh.settled, 0];
    CoderCall {
        operation,
        state: Lent::of(&state[..words]),
        buffer: Lent::of(&vec![0; bytes]),
        histogram: Lent::of(&fresh_histogram()),
        result: Lent::patterned(RESULT_WORDS),
    }
}

/// Taken at 16 MiB; above it 9, also where 18 would follow; and 12 first of all where state or histogram is too short.
fn long_buffer(operation: Operation, words: usize, tally: &mut Tally) -> Result<(), Difference> {
    let no_low = 0x1_0000_0000;
    gives(0, &coder_call(operation, words, 0, MAX_BYTES), tally)?;
    gives(
        9,
        &coder_call(operation, words, no_low, MAX_BYTES + 1),
        tally,
    )?;
    gives(
        12,
        &coder_call(operation, words - 1, 0, MAX_BYTES + 1),
        tally,
    )?;
    let mut short = coder_call(operation, words, 0, MAX_BYTES + 1);
    short.histogram.set_len(SYMBOLS - 1);
    let dynamic = matches!(
        operation,
        Operation::WriteDynamic { .. } | Operation::ReadDynamic
    );
    gives(if dynamic { 12 } else { 9 }, &short, tally).map(drop)
}

fn long_buffers(tally: &mut Tally) -> Result<(), Difference> {
    for operation in WRITES {
        long_buffer(operation, WRITER_WORDS, tally)?;
    }
    for operation in READS {
        long_buffer(operation, READER_WORDS, tally)?;
    }
    Ok(())
}

fn climb_gives(number: u32, list: &[u32], tally: &mut Tally) -> Result<(), Difference> {
    let text = text_of(list).bytes();
    let table = Lent::patterned(list.len() + SPARE);
    let result = Lent::patterned(RESULT_WORDS);
    gives(
        number,
        &ClimbCall {
            text: &text,
            table,
            result,
        },
        tally,
    )
    .map(drop)
}

/// Every number of a step but its counts and its moves' corners as large as it can be.
fn lengthen(step: &mut [u32]) {
    let faces_at = STEP_HEAD + MAX_MOVES as usize * MOVE_NUMBERS;
    for (i, word) in step.iter_mut().enumerate() {
        let is_count = (STEP_HEAD - 2..STEP_HEAD).contains(&i);
        let is_corner = (STEP_HEAD..faces_at).contains(&i) && (i - STEP_HEAD) % MOVE_NUMBERS == 1;
        if !is_count && !is_corner {
            *word = u32::MAX;
        }
    }
}

/// The steps' limit and one more; and the longest text, which passes 16 MiB: 64 moves and new faces in every step.
fn long_climbs(tally: &mut Tally) -> Result<(), Difference> {
    let mut random = Random::of_input(0, 0);
    for (steps, number) in [(MAX_STEPS, 0), (MAX_STEPS + 1, 13)] {
        let ladder = Ladder {
            base_positions: MAX_RECORDS,
            base_faces: 1,
            shadings: 1,
            steps,
            moves: 1,
            new_faces: 1,
        };
        climb_gives(number, &ladder.climb(&mut random).list, tally)?;
    }
    let each = MAX_MOVES;
    let largest = Ladder {
        base_positions: MAX_RECORDS,
        base_faces: each,
        shadings: u32::MAX,
        steps: MAX_STEPS,
        moves: each,
        new_faces: each,
    };
    let mut list = largest.climb(&mut random).list;
    let words = STEP_HEAD + each as usize * (MOVE_NUMBERS + NEW_FACE_NUMBERS);
    list[LIST_HEAD..].chunks_mut(words).for_each(lengthen);
    assert!(text_of(&list).bytes().len() > MAX_BYTES);
    climb_gives(0, &list, tally)
}

/// The base mesh of a ladder, with room for all steps, and for a few records past the limit where they pass it.
fn step_call(ladder: Ladder) -> StepCall {
    let climb = ladder.climb(&mut Random::of_input(0, 0));
    let room = |records: u32| records.min(MAX_RECORDS + MORE_RECORDS) as usize;
    let mut call = StepCall {
        asked: Asked::Up,
        list: climb.list,
        shadings: climb.shadings,
        faces: Lent::of(&climb.faces),
        positions: Lent::of(&climb.positions),
        counts: Lent::of(&[climb.base_positions, climb.base_faces]),
        result: Lent::patterned(RESULT_WORDS),
    };
    call.faces.set_len(room(climb.all_faces) * FACE);
    let all_positions = climb.base_positions + climb.steps;
    call.positions.set_len(room(all_positions) * POSITION);
    call
}

/// A walk by directions and counts.
fn walk_of(requests: &[(u32, u32)]) -> Asked {
    let requests = requests.iter();
    let requests = requests.map(|&(direction, count)| Request { direction, count });
    Asked::Walk(requests.collect())
}

/// The walk must give this number and tell so many steps.
fn walk_gives(
    (number, granted): (u32, u64),
    call: &StepCall,
    requests: &[(u32, u32)],
    tally: &mut Tally,
) -> Result<StepCall, Difference> {
    let mut call = call.clone();
    call.asked = walk_of(requests);
    let (given, after) = take(&call, tally)?;
    let told = after.result.words()[1];
    match (given, told) == (number, granted) {
        true => Ok(after),
        false => Err(Difference(format!(
            "both give {given} and {told} steps, not {number} and {granted}"
        ))),
    }
}

/// Up until the faces pass 65,536, then down again to the base; and the same in walks.
fn full_steps(tally: &mut Tally) -> Result<(), Difference> {
    let mut call = step_call(Ladder {
        base_positions: MAX_RECORDS - 4,
        base_faces: MAX_RECORDS - 8,
        shadings: 2,
        steps: 6,
        moves: 4,
        new_faces: 4,
    });
    for (asked, number) in [
        (Asked::Up, 0),
        (Asked::Up, 0),
        (Asked::Up, 12),
        (Asked::Down, 0),
        (Asked::Down, 0),
        (Asked::Down, 16),
    ] {
        call.asked = asked;
        call = gives(number, &call, tally)?;
    }
    let top = walk_gives((12, 2), &call, &[(UP, 6)], tally)?;
    walk_gives((16, 2), &top, &[(DOWN, 6)], tally).map(drop)
}

/// So few steps that walks come to both ends.
const FEW_STEPS: u32 = 3;

fn few_steps() -> StepCall {
    step_call(Ladder {
        base_positions: 5,
        base_faces: 4,
        shadings: 2,
        steps: FEW_STEPS,
        moves: 2,
        new_faces: 2,
    })
}

/// Where no step is asked for, list, counts and tables are not looked at; where one is, they are.
fn idle_walks(tally: &mut Tally) -> Result<(), Difference> {
    let formed = few_steps();
    let mut broken = formed.clone();
    broken.list.pop();
    let mut strange = broken.clone();
    strange.list.clear();
    strange.counts = Lent::of(&[u32::MAX; COUNT_WORDS]);
    strange.faces.set_len(0);
    strange.positions.set_len(0);
    for call in [formed, broken.clone(), strange] {
        walk_gives((0, 0), &call, &[], tally)?;
        walk_gives((0, 0), &call, &[(UP, 0)], tally)?;
        walk_gives((0, 0), &call, &[(DOWN, 0), (UP, 0)], tally)?;
        walk_gives((9, 0), &call, &[(DOWN, 0), (2, 0)], tally)?;
    }
    walk_gives((13, 0), &broken, &[(UP, 0), (DOWN, 1)], tally).map(drop)
}

/// Nothing of such a request is done, and the steps before it stay.
fn refused_requests(tally: &mut Tally) -> Result<(), Difference> {
    let call = few_steps();
    for refused in [
        (2, 0),
        (2, 1),
        (u32::MAX, 1),
        (UP, MAX_STEPS + 1),
        (DOWN, MAX_STEPS + 1),
        (UP, u32::MAX),
    ] {
        walk_gives((9, 0), &call, &[refused], tally)?;
        walk_gives((9, 0), &call, &[refused, (UP, 1)], tally)?;
        let requests = [(UP, 2), (DOWN, 1), (UP, 1), refused, (DOWN, 1)];
        let kept = walk_gives((9, 4), &call, &requests, tally)?;
        walk_gives((16, 2), &kept, &[(DOWN, 3), refused], tally)?;
    }
    Ok(())
}

/// Each of the other numbers, after steps that stay where there can be some.
fn refused_steps(tally: &mut Tally) -> Result<(), Difference> {
    let call = few_steps();
    let [positions, faces] = [0, 1].map(|at| call.counts.words()[at] as usize);
    walk_gives((16, 3), &call, &[(UP, MAX_STEPS)], tally)?;
    walk_gives((16, 6), &call, &[(UP, 3), (DOWN, 4), (UP, 1)], tally)?;
    let mut miscounted = call.clone();
    miscounted.counts.lend()[1] += 1;
    walk_gives((15, 0), &miscounted, &[(UP, 1)], tally)?;
    let mut narrow = call.clone();
    narrow.faces.set_len((faces + 5) * FACE);
    walk_gives((12, 2), &narrow, &[(UP, 3)], tally)?;
    let mut misled = call.clone();
    let last_shading = call.list.len() - NEW_FACE_NUMBERS;
    misled.list[last_shading] = misled.shadings;
    walk_gives((14, 2), &misled, &[(UP, 3)], tally)?;
    let mut unclear = call.clone();
    unclear.positions.lend()[(positions + 2) * POSITION] = 1;
    walk_gives((18, 2), &unclear, &[(UP, 1), (UP, 2)], tally)?;
    short_walks(&call, tally)
}

/// A result that is too short is judged before counts that are, and both before a refused request.
fn short_walks(call: &StepCall, tally: &mut Tally) -> Result<(), Difference> {
    for requests in [&[][..], &[(UP, 1)], &[(2, 0)]] {
        let mut short = call.clone();
        short.counts.set_len(COUNT_WORDS - 1);
        walk_gives((12, 0), &short, requests, tally)?;
        short.asked = walk_of(requests);
        short.result.set_len(RESULT_WORDS - 1);
        gives(12, &short, tally)?;
        short.counts = call.counts.clone();
        gives(12, &short, tally)?;
    }
    Ok(())
}

/// To the top and back in one request, and in many.
fn long_walks(tally: &mut Tally) -> Result<(), Difference> {
    let steps = u64::from(MAX_STEPS);
    let call = step_call(Ladder {
        base_positions: 5,
        base_faces: 4,
        shadings: 2,
        steps: MAX_STEPS,
        moves: 1,
        new_faces: 1,
    });
    let top = walk_gives((0, steps), &call, &[(UP, MAX_STEPS)], tally)?;
    let back = [(DOWN, MAX_STEPS), (UP, 1), (DOWN, 1)];
    walk_gives((0, steps + 2), &top, &back, tally)?;
    walk_gives((16, steps), &call, &[(UP, MAX_STEPS), (UP, 1)], tally)?;
    let singles = vec![(UP, 1); MAX_STEPS as usize];
    walk_gives((0, steps), &call, &singles, tally)?;
    let swings = [(UP, FEW_STEPS), (DOWN, FEW_STEPS)].repeat(MAX_STEPS as usize);
    let swung = 2 * steps * u64::from(FEW_STEPS);
    walk_gives((0, swung), &few_steps(), &swings, tally).map(drop)
}
