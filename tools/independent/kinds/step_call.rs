//! One call for a step up, a step down or a walk.

use crate::call::{both, Call, Lent};
use crate::report::{Difference, Part};
use crate::tally::{Function, Tally};
use independent::refusal::{LIMIT, MAX_STEPS};
use independent::steps::{DOWN, UP};
use sides::{Request, Side, COUNT_WORDS, INDEPENDENT, RESULT_WORDS};

#[derive(Clone, PartialEq)]
pub enum Asked {
    Up,
    Down,
    Walk(Vec<Request>),
}

#[derive(Clone, PartialEq)]
pub struct StepCall {
    pub asked: Asked,
    pub list: Vec<u32>,
    pub shadings: u32,
    pub faces: Lent<u32>,
    pub positions: Lent<u32>,
    pub counts: Lent<u32>,
    /// A walk's; single steps have none.
    pub result: Lent<u64>,
}

impl Call for StepCall {
    fn function(&self) -> Function {
        match self.asked {
            Asked::Up => Function::Up,
            Asked::Down => Function::Down,
            Asked::Walk(_) => Function::Steps,
        }
    }

    fn make(&mut self, side: &Side) -> u32 {
        let (list, shadings) = (&self.list, self.shadings);
        let (faces, positions) = (self.faces.lend(), self.positions.lend());
        let (counts, result) = (self.counts.lend(), self.result.lend());
        match &self.asked {
            Asked::Up => (side.up)(list, shadings, faces, positions, counts),
            Asked::Down => (side.down)(list, shadings, faces, positions, counts),
            Asked::Walk(requests) => {
                (side.steps)(list, shadings, requests, faces, positions, counts, result)
            }
        }
    }

    /// A refused walk keeps the steps before the refusal, if there are any.
    fn take_result(&mut self, from: &Self) {
        if let (Asked::Walk(_), Some(1..)) = (&self.asked, from.result.words().get(1)) {
            self.clone_from(from);
        }
        self.result.clone_from(&from.result);
    }

    fn parts(&self) -> Vec<Part> {
        vec![
            Part::input("shadings", &[self.shadings]),
            Part::in_and_out("counts", &self.counts),
            Part::output("result", &self.result),
            Part::input("requests", &self.asked.words()),
            Part::input("list", &self.list),
            Part::in_and_out("faces", &self.faces),
            Part::in_and_out("positions", &self.positions),
        ]
    }
}

impl Asked {
    /// Direction and count of each request.
    fn words(&self) -> Vec<u32> {
        let requests = match self {
            Asked::Walk(requests) => &requests[..],
            _ => &[],
        };
        let words = requests
            .iter()
            .map(|request| [request.direction, request.count]);
        words.flatten().collect()
    }

    /// The single call that a request asks for again and again, if it asks for one.
    fn single(request: &Request) -> Option<Asked> {
        match request.direction {
            _ if request.count > MAX_STEPS => None,
            UP => Some(Asked::Up),
            DOWN => Some(Asked::Down),
            _ => None,
        }
    }
}

/// Asks for the steps of a walk one at a time, up to the first refusal. Gives its number, or 0, and how many steps were granted.
fn take_singly(call: &mut StepCall, requests: &[Request]) -> (u32, u64) {
    let mut granted = 0;
    for request in requests {
        let Some(asked) = Asked::single(request) else {
            return (LIMIT, granted);
        };
        call.asked = asked;
        for _ in 0..request.count {
            match call.make(&INDEPENDENT) {
                0 => granted += 1,
                number => return (number, granted),
            }
        }
    }
    (0, granted)
}

/// A walk must leave what its single calls leave, and tell their number.
fn judge_walk(
    lent: &StepCall,
    requests: &[Request],
    (number, after): (u32, &StepCall),
) -> Result<(), Difference> {
    let mut singly = lent.clone();
    let (due, granted) = take_singly(&mut singly, requests);
    singly.asked = lent.asked.clone();
    singly.result.lend()[..RESULT_WORDS].copy_from_slice(&[0, granted]);
    match due == number && singly == *after {
        true => Ok(()),
        false => Err(Difference(format!(
            "a walk that gives {number} is unlike its single calls, which give {due} after {granted} steps"
        ))),
    }
}

/// Makes the call on both sides, and the single calls of a walk whose counts and result are not too short.
pub fn take(lent: &StepCall, tally: &mut Tally) -> Result<(u32, StepCall), Difference> {
    let (number, after) = both(lent, tally)?;
    let short = lent.counts.words().len() < COUNT_WORDS || lent.result.words().len() < RESULT_WORDS;
    match &lent.asked {
        Asked::Walk(requests) if !short => judge_walk(lent, requests, (number, &after))?,
        _ => {}
    }
    Ok((number, after))
}
