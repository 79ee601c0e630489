//! The cases of bare searches.

use crate::case::{unequal, Case, Lent, Seen};
use crate::product::{self, SearchNumbers};
use crate::random::Random;
use crate::trees::{all_trees, any_tree, limit_trees};
use independent::search;

/// A bare search and its log's room in bytes.
#[derive(Clone, Debug)]
pub struct Search {
    m: u32,
    t: u32,
    leaves: Vec<u8>,
    room: usize,
}

/// The room that a log must have, for a tree that is not refused.
fn needed(m: u32, t: u32) -> usize {
    if !(2..=16).contains(&m) || t > 1_024 || t == 0 {
        return 0;
    }
    16 * (m * t - 1) as usize / (m - 1) as usize
}

impl Search {
    /// With a number of leaves and a room that differ from what is asked by so much.
    fn off(m: u32, t: u32, leaf: impl Fn(usize) -> u8, longer: i32, roomier: i32) -> Search {
        let count = t.min(1_024) as usize;
        let count = count.saturating_add_signed(longer as isize);
        Search {
            m,
            t,
            leaves: (0..count).map(leaf).collect(),
            room: needed(m, t).saturating_add_signed(roomier as isize),
        }
    }
}

impl Case for Search {
    const CALL: &'static str = "search";
    const ANSWERS: &'static [&'static str] = &[
        "searched",
        "refused 1",
        "refused 2",
        "refused 3",
        "refused 4",
        "refused 11",
    ];

    fn limits() -> Vec<Search> {
        let mut all = Vec::new();
        for (m, t) in limit_trees() {
            for pattern in [
                |_| 0_u8,
                |_| 1,
                |leaf| (leaf % 2) as u8,
                |leaf| u8::from(leaf == 0),
                |leaf| leaf as u8,
            ] {
                all.push(Search::off(m, t, pattern, 0, 0));
            }
            // Only the last child of each node has something active.
            let last_two = |leaf: usize| u8::from(leaf as u32 + 2 >= t);
            all.push(Search::off(m, t, last_two, 0, 0));
            for (longer, roomier) in [
                (0, -1),
                (0, 1),
                (0, -16),
                (0, -32_752),
                (0, 16),
                (-1, 0),
                (1, 0),
                (-1_024, 0),
                (-1, -1),
            ] {
                all.push(Search::off(m, t, |leaf| (leaf % 3 == 1) as u8, longer, roomier));
                all.push(Search::off(m, t, |leaf| 2 * (leaf % 3 == 1) as u8, longer, roomier));
            }
        }
        all
    }

    fn random(random: &mut Random) -> Search {
        let (m, t) = any_tree(random);
        let sparse = random.pick(&[1, 2, 2, 3, 4, 8, 16, 64, 400]);
        let longer = if random.one_in(24) {
            random.within(0, 4) as i32 - 2
        } else {
            0
        };
        let roomier = if random.one_in(12) {
            random.within(0, 64) as i32 - 32
        } else {
            random.within(0, 40) as i32
        };
        let mut search = Search::off(m, t, |_| 0, longer, roomier);
        for leaf in &mut search.leaves {
            *leaf = u8::from(random.one_in(sparse));
        }
        let places = search.leaves.len() as u32;
        if random.one_in(20) && places > 0 {
            let place = random.within(0, places - 1) as usize;
            search.leaves[place] = random.pick(&[2, 3, 128, 255]);
        }
        search
    }

    fn run(&self, noise: &mut Random) -> Seen {
        let mut leaves = Lent::new(&self.leaves, noise);
        let mut own = noise.noise(self.room);
        let mut lent = Lent::new(&own, noise);
        let proved = product::search(self.m, self.t, leaves.part(), lent.part());
        let expected = match search::search(self.m, self.t, &self.leaves, &mut own) {
            Ok(found) => SearchNumbers {
                refusal: 0,
                rows: found.rows,
                silences: found.silences,
                collisions: found.collisions,
            },
            Err(refusal) => SearchNumbers { refusal: refusal.0, ..SearchNumbers::default() },
        };
        let difference = unequal("answer", &proved, &expected)
            .or_else(|| lent.unequal("log", &own))
            .or_else(|| leaves.unequal("leaves", &self.leaves));
        Seen::of(proved.refusal, "searched", difference)
    }

    fn smaller(&self) -> Vec<Search> {
        let longer = self.leaves.len() as i32 - self.t.min(1_024) as i32;
        let roomier = self.room as i32 - needed(self.m, self.t) as i32;
        let cut = |leaf: usize| self.leaves.get(leaf).copied().unwrap_or(0);
        let trees = all_trees().into_iter().filter(|&(_, t)| t < self.t);
        let mut all: Vec<_> = trees.map(|(m, t)| Search::off(m, t, cut, longer, roomier)).collect();
        for place in (0..self.leaves.len()).filter(|&place| self.leaves[place] != 0) {
            let mut leaves = self.leaves.clone();
            leaves[place] = 0;
            all.push(Search { leaves, ..self.clone() });
        }
        if roomier > 0 {
            let room = needed(self.m, self.t);
            all.push(Search { room, ..self.clone() });
        }
        all
    }
}
