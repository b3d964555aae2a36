//! Climb texts.

use super::{random_result, random_room};
use crate::call::{both, Call, Lent};
use crate::report::{Difference, Part};
use crate::tally::{Function, Tally};
use independent::files::climb::{any_list, damage_text, random_climb, text_of};
use independent::random::Random;
use sides::{Side, RESULT_WORDS};

#[derive(Clone, PartialEq)]
pub struct ClimbCall<'a> {
    pub text: &'a [u8],
    pub table: Lent<u32>,
    pub result: Lent<u64>,
}

impl Call for ClimbCall<'_> {
    fn function(&self) -> Function {
        Function::ReadClimb
    }

    fn make(&mut self, side: &Side) -> u32 {
        (side.read_climb)(self.text, self.table.lend(), self.result.lend())
    }

    fn take_result(&mut self, from: &Self) {
        self.result.clone_from(&from.result);
    }

    fn parts(&self) -> Vec<Part> {
        vec![
            Part::input("text", self.text),
            Part::output("table", &self.table),
            Part::output("result", &self.result),
        ]
    }
}

fn damaged_text(random: &mut Random, list: &[u32]) -> Vec<u8> {
    let mut text = text_of(list);
    (0..random.below(3)).for_each(|_| text.damage(random));
    let mut bytes = text.bytes();
    if random.once_in(3) {
        damage_text(&mut bytes, random);
    }
    bytes
}

pub fn read_climb(random: &mut Random, tally: &mut Tally) -> Result<(), Difference> {
    let list = if random.once_in(2) {
        any_list(random)
    } else {
        random_climb(random).list
    };
    let text = damaged_text(random, &list);
    let room = random_room(random, list.len());
    let result = random_result(random, RESULT_WORDS);
    let call = ClimbCall {
        text: &text,
        table: Lent::patterned(room),
        result,
    };
    both(&call, tally).map(drop)
}
