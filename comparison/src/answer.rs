//! The cases of the program as a call: a text, and the room that is lent for the answer.

use crate::case::{unequal, Case, Lent, Seen};
use crate::product;
use crate::random::Random;
use crate::text::{kind, limit_texts, random_text, shorter_texts, ANSWERS};
use independent::text;
use std::fmt;

/// The room that every answer fits into.
const ROOM: usize = 262_144;

#[derive(Clone)]
pub struct Answer {
    input: Vec<u8>,
    room: usize,
}

/// A text is told as one where it is.
impl fmt::Debug for Answer {
    fn fmt(&self, f: &mut fmt::Formatter) -> fmt::Result {
        let mut told = f.debug_struct("Answer");
        match std::str::from_utf8(&self.input) {
            Ok(text) => told.field("input", &text),
            Err(_) => told.field("input", &self.input),
        };
        told.field("room", &self.room).finish()
    }
}

impl Case for Answer {
    const CALL: &'static str = "answer";
    const ANSWERS: &'static [&'static str] = &[
        "no room", ANSWERS[0], ANSWERS[1], ANSWERS[2], ANSWERS[3], ANSWERS[4], ANSWERS[5], ANSWERS[6], ANSWERS[7],
        ANSWERS[8],
    ];

    fn limits() -> Vec<Answer> {
        let texts = limit_texts().into_iter();
        let mut all: Vec<_> = texts.map(|input| Answer { input, room: ROOM }).collect();
        for room in [0, 1, ROOM - 1, ROOM, ROOM + 1] {
            all.push(Answer { input: b"1 10 0 1 2 4 2 2\n0 255\n".to_vec(), room });
        }
        all
    }

    fn random(random: &mut Random) -> Answer {
        let input = random_text(random);
        let room = if random.one_in(20) {
            random.within(0, ROOM as u32 - 1) as usize
        } else {
            ROOM + random.within(0, 100) as usize
        };
        Answer { input, room }
    }

    fn run(&self, noise: &mut Random) -> Seen {
        let mut own = noise.noise(self.room);
        let mut lent = Lent::new(&own, noise);
        let mut lent_input = Lent::new(&self.input, noise);
        let written = product::answer(lent_input.part(), lent.part());
        let answer = if self.room < ROOM {
            Vec::new()
        } else {
            text::answer(&self.input)
        };
        own[..answer.len()].copy_from_slice(&answer);
        let difference = unequal("bytes written", &written, &answer.len())
            .or_else(|| lent.unequal("output", &own))
            .or_else(|| lent_input.unequal("input", &self.input));
        let answer = if self.room < ROOM {
            "no room".to_string()
        } else {
            kind(&answer)
        };
        Seen { answer, difference }
    }

    fn smaller(&self) -> Vec<Answer> {
        let texts = shorter_texts(&self.input).into_iter();
        texts.map(|input| Answer { input, room: self.room }).collect()
    }
}
