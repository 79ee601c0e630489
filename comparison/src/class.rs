//! The cases of the class answer.

use crate::case::{less, unequal, Case, Seen};
use crate::product::{self, ClassNumbers};
use crate::random::{edges, Random};
use independent::class;

const FAR: u64 = 5_000_000_000_000;

/// A question for a class.
#[derive(Clone, Debug)]
pub struct Class {
    deadline: u32,
    offset: u32,
    reference: u64,
    width: u32,
}

/// Reference times at the ends of their range, and around a deadline.
fn references(deadline: u32, offset: u32) -> [u64; 8] {
    let middle = i64::from(deadline) - i64::from(offset);
    let near = |by: i64| (middle + by).max(0) as u64;
    [0, 1, near(-1), near(0), near(1), FAR, FAR + 1, u64::MAX]
}

impl Case for Class {
    const CALL: &'static str = "class";
    const ANSWERS: &'static [&'static str] = &["below zero", "zero or more", "refused 7", "refused 9", "refused 12"];

    fn limits() -> Vec<Class> {
        let mut all = Vec::new();
        for deadline in edges(0, 2_000_000_000) {
            for offset in edges(0, 1_000_000) {
                for reference in references(deadline, offset) {
                    all.extend(edges(1, 1_000_000).map(|width| Class { deadline, offset, reference, width }));
                }
            }
        }
        all
    }

    fn random(random: &mut Random) -> Class {
        let small = random.one_in(2);
        let deadline = if small {
            random.within(0, 100)
        } else {
            random.within(0, 2_000_000_000)
        };
        let offset = if small {
            random.within(0, 10)
        } else {
            random.within(0, 1_000_000)
        };
        let reference = if small {
            random.number() % 150
        } else {
            random.number() % (FAR + 1)
        };
        let mut class = Class {
            deadline,
            offset,
            reference,
            width: if small {
                random.within(1, 12)
            } else {
                random.within(1, 1_000_000)
            },
        };
        if random.one_in(4) {
            class.reference = random.pick(&references(deadline, offset));
        }
        if random.one_in(12) {
            class.deadline = random.near(0, 2_000_000_000);
        }
        if random.one_in(12) {
            class.offset = random.near(0, 1_000_000);
        }
        if random.one_in(12) {
            class.width = random.near(1, 1_000_000);
        }
        class
    }

    fn run(&self, _: &mut Random) -> Seen {
        let proved = product::class(self.deadline, self.offset, self.reference, self.width);
        let expected = match class::class(self.deadline, self.offset, self.reference, self.width) {
            Ok(class) => ClassNumbers { class, refusal: 0 },
            Err(refusal) => ClassNumbers { class: 0, refusal: refusal.0 },
        };
        let sign = if proved.class < 0 { "below zero" } else { "zero or more" };
        Seen::of(proved.refusal, sign, unequal("answer", &proved, &expected))
    }

    fn smaller(&self) -> Vec<Class> {
        let deadlines = less(self.deadline)
            .into_iter()
            .map(|deadline| Class { deadline, ..self.clone() });
        let offsets = less(self.offset)
            .into_iter()
            .map(|offset| Class { offset, ..self.clone() });
        let widths = less(self.width)
            .into_iter()
            .map(|width| Class { width, ..self.clone() });
        let half = [0, self.reference / 2, self.reference.saturating_sub(1)];
        let half = half.into_iter().filter(|&reference| reference < self.reference);
        let references = half.map(|reference| Class { reference, ..self.clone() });
        deadlines.chain(offsets).chain(references).chain(widths).collect()
    }
}
