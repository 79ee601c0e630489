//! Trees, and the cases of worst counts and placements.

use crate::case::{less, unequal, Case, Lent, Seen};
use crate::product::{self, CountNumbers};
use crate::random::{edges, Random};
use independent::{placement, worst};

/// Every tree that is not refused, smallest first.
pub fn all_trees() -> Vec<(u32, u32)> {
    let mut all = Vec::new();
    for m in 2..=16_u32 {
        all.extend(
            (1..=10)
                .filter_map(|n| m.checked_pow(n))
                .filter(|&t| t <= 1_024)
                .map(|t| (m, t)),
        );
    }
    all.sort_by_key(|&(_, t)| t);
    all
}

/// A tree of at most so many leaves.
pub fn tree(random: &mut Random, most: u32) -> (u32, u32) {
    let trees: Vec<_> = all_trees().into_iter().filter(|&(_, t)| t <= most).collect();
    random.pick(&trees)
}

/// A tree that may be refused.
pub fn odd_tree(random: &mut Random, most: u32) -> (u32, u32) {
    let (m, t) = tree(random, most);
    match random.within(0, 3) {
        0 => (random.near(2, 16), t),
        1 => (m, random.near(m, t.max(m + 1))),
        2 => (m, random.near(2, 1_024)),
        _ => (m, t.wrapping_mul(m)),
    }
}

/// Mostly small trees, at times the largest, now and then one that is refused.
pub fn any_tree(random: &mut Random) -> (u32, u32) {
    let most = if random.one_in(8) { 1_024 } else { 64 };
    if random.one_in(8) {
        odd_tree(random, most)
    } else {
        tree(random, most)
    }
}

/// The trees at the limits and one past them.
pub fn limit_trees() -> Vec<(u32, u32)> {
    let mut all = all_trees();
    for m in edges(2, 16) {
        all.extend([0, 1, 2, 16, 17, 256, 1_024, 1_025, u32::MAX].map(|t| (m, t)));
    }
    all.extend([
        (2, 2_048),
        (4, 4_096),
        (16, 4_096),
        (10, 10_000),
        (3, 2_187),
        (2, 6),
        (2, 1_023),
    ]);
    all
}

/// A question for a worst count.
#[derive(Clone, Debug)]
pub struct Count {
    m: u32,
    t: u32,
    k: u32,
}

impl Case for Count {
    const CALL: &'static str = "worst_count";
    const ANSWERS: &'static [&'static str] = &["counted", "refused 1", "refused 2", "refused 5"];

    fn limits() -> Vec<Count> {
        let questions = |(m, t): (u32, u32)| {
            let ks = [0, 1, 2, t / 2, t.saturating_sub(1), t, t.wrapping_add(1), u32::MAX];
            ks.map(|k| Count { m, t, k })
        };
        limit_trees().into_iter().flat_map(questions).collect()
    }

    fn random(random: &mut Random) -> Count {
        let (m, t) = any_tree(random);
        let k = if random.one_in(8) {
            random.near(1, t.clamp(2, 1_024))
        } else {
            random.within(0, t.min(1_024))
        };
        Count { m, t, k }
    }

    fn run(&self, _: &mut Random) -> Seen {
        let proved = product::worst_count(self.m, self.t, self.k);
        let expected = match worst::worst_count(self.m, self.t, self.k) {
            Ok(slots) => CountNumbers { refusal: 0, slots },
            Err(refusal) => CountNumbers { refusal: refusal.0, slots: 0 },
        };
        Seen::of(proved.refusal, "counted", unequal("answer", &proved, &expected))
    }

    fn smaller(&self) -> Vec<Count> {
        let trees = all_trees().into_iter().filter(|&(_, t)| t < self.t);
        let smaller = trees.map(|(m, t)| Count { m, t, k: self.k.min(t) });
        smaller
            .chain(less(self.k).into_iter().map(|k| Count { k, ..self.clone() }))
            .collect()
    }
}

/// A question for a placement, with the length of the lent list.
#[derive(Clone, Debug)]
pub struct Place {
    m: u32,
    t: u32,
    k: u32,
    length: usize,
}

impl Place {
    /// The list must hold k ones and else zeros, and cost the worst count. Which leaves they are is the builder's
    /// choice.
    fn judged(&self, list: &[u8]) -> Option<String> {
        let ones = list.iter().filter(|&&leaf| leaf == 1).count() as u32;
        let cost = placement::cost(self.m, self.t, list);
        let worst = worst::worst_count(self.m, self.t, self.k);
        unequal("active leaves", &ones, &self.k).or(unequal("cost", &cost, &worst))
    }
}

impl Case for Place {
    const CALL: &'static str = "place";
    const ANSWERS: &'static [&'static str] = &["placed", "refused 1", "refused 2", "refused 3", "refused 5"];

    fn limits() -> Vec<Place> {
        let questions = |Count { m, t, k }: Count| {
            let fits = t.min(1_024) as usize;
            [0, fits, fits + 1].map(|length| Place { m, t, k, length })
        };
        Count::limits().into_iter().flat_map(questions).collect()
    }

    fn random(random: &mut Random) -> Place {
        let Count { m, t, k } = Count::random(random);
        let fits = t.min(1_024);
        let length = if random.one_in(12) {
            random.within(0, fits + 2)
        } else {
            fits
        };
        Place { m, t, k, length: length as usize }
    }

    fn run(&self, noise: &mut Random) -> Seen {
        let before = noise.noise(self.length);
        let mut own = before.clone();
        let mut lent = Lent::new(&before, noise);
        let proved = product::place(self.m, self.t, self.k, lent.part());
        let expected = placement::place(self.m, self.t, self.k, &mut own).map_or_else(|refusal| refusal.0, |()| 0);
        let numbers = unequal("answer", &proved, &expected);
        let difference = numbers.or_else(|| {
            let left = lent.part().to_vec();
            let lists = if proved == 0 { self.judged(&left) } else { None };
            lists.or_else(|| lent.unequal("list", if proved == 0 { &left } else { &before }))
        });
        Seen::of(proved, "placed", difference)
    }

    fn smaller(&self) -> Vec<Place> {
        let count = Count { m: self.m, t: self.t, k: self.k };
        let longer = self.length as i64 - i64::from(self.t);
        let sized = |Count { m, t, k }: Count| Place {
            m,
            t,
            k,
            length: (i64::from(t) + longer).clamp(0, 2_000) as usize,
        };
        count.smaller().into_iter().map(sized).collect()
    }
}
