//! Shops and their messages, for the cases of runs and of texts.

use crate::random::Random;
use crate::trees::{odd_tree, tree};
use independent::message::{Message, UNSENT};
use independent::shop::{Shape, Shop, FREE};

/// All that a run takes; `roomier` is how much its log's room differs from what is asked, in bytes.
#[derive(Clone, Debug)]
pub struct Traffic {
    pub shop: Shop,
    pub owners: Vec<u32>,
    pub messages: Vec<Message>,
    pub budget: u32,
    pub roomier: i32,
}

/// The most that a shop has of each.
struct Size {
    leaves: u32,
    stations: u32,
    messages: u32,
    budget: u32,
}

/// What messages of a shop are like.
struct Habits {
    stations: u32,
    arrivals: u32,
    deadlines: u32,
    lengths: u32,
}

impl Traffic {
    /// The log's room in bytes. A budget that is refused anyway is given a small one.
    pub fn room(&self) -> usize {
        let budget = if self.budget <= 1_000_001 {
            self.budget as usize
        } else {
            4
        };
        (16 * budget).saturating_add_signed(self.roomier as isize)
    }

    /// A small shop that runs.
    pub fn valid(random: &mut Random) -> Traffic {
        let size = size(random);
        let time = tree(random, size.leaves);
        let fixed = tree(random, size.leaves);
        let stations = random.within(1, fixed.1.min(size.stations));
        let shop = Shop {
            stations,
            width: if random.one_in(8) {
                random.within(1, 1_000_000)
            } else {
                random.within(1, 20)
            },
            offset: if random.one_in(3) { random.within(0, 25) } else { 0 },
            compression: random.within(0, 8),
            time: shape(time),
            fixed: shape(fixed),
        };
        let habits = Habits {
            stations,
            arrivals: random.pick(&[0, 3, 20, 60]),
            deadlines: random.pick(&[3, 30, 100, 300]),
            lengths: random.pick(&[1, 4, 9]),
        };
        let count = random.within(size.messages / 8, size.messages);
        let messages = (0..count).map(|_| message(random, &habits)).collect();
        Traffic {
            owners: owners(random, stations, fixed.1),
            shop,
            messages,
            budget: random.within(1, size.budget),
            roomier: random.pick(&[0, 0, 1, 7, 16, 50]),
        }
    }

    /// A shop that runs, or one with something wrong in one to three places.
    pub fn any(random: &mut Random) -> Traffic {
        let mut traffic = Traffic::valid(random);
        if random.one_in(5) {
            for _ in 0..random.within(1, 3) {
                traffic.damage(random);
            }
        }
        traffic.mark(random);
        traffic
    }

    /// Gives every message a slot of sending, which a run is not to heed: none, the first, or any.
    pub fn mark(&mut self, random: &mut Random) {
        for one in &mut self.messages {
            one.sent = match random.within(0, 3) {
                0 => 0,
                1 => UNSENT,
                _ => random.number() as u32,
            };
        }
    }

    fn damage(&mut self, random: &mut Random) {
        match random.within(0, 10) {
            0 => self.shop.time = shape(odd_tree(random, 64)),
            1 => self.shop.fixed = shape(odd_tree(random, 64)),
            2 => self.shop.stations = random.near(1, 32),
            3 => self.shop.width = random.near(1, 1_000_000),
            4 => self.shop.offset = random.near(0, 1_000_000),
            5 => self.shop.compression = random.near(0, 8),
            6 => self.damage_owners(random),
            7 => self.damage_message(random),
            8 => self
                .messages
                .resize(random.within(511, 514) as usize, message_of(0, 0, 9, 1)),
            9 => self.budget = random.pick(&[0, 1, 1_000_002, u32::MAX]),
            _ => self.roomier = -(random.within(1, 40) as i32),
        }
    }

    fn damage_owners(&mut self, random: &mut Random) {
        // An earlier damage may have taken the last owner away.
        let Some(last) = self.owners.len().checked_sub(1) else {
            self.owners.push(FREE);
            return;
        };
        let place = random.within(0, last as u32) as usize;
        match random.within(0, 4) {
            0 => self.owners.push(FREE),
            1 => {
                self.owners.remove(place);
            }
            2 => self.owners[place] = random.near(0, 255),
            3 => self.owners[place] = self.shop.stations,
            _ => {
                let gone = self.owners[place];
                self.owners
                    .iter_mut()
                    .filter(|owner| **owner == gone)
                    .for_each(|owner| *owner = FREE);
            }
        }
    }

    fn damage_message(&mut self, random: &mut Random) {
        let mut one = message_of(0, 0, 9, 1);
        match random.within(0, 3) {
            0 => one.station = random.near(0, self.shop.stations.clamp(1, 32)),
            1 => one.arrival = random.near(0, 1_000_000_000),
            2 => one.relative = random.near(1, 1_000_000_000),
            _ => one.length = random.near(1, 1_000),
        }
        let place = random.within(0, self.messages.len() as u32) as usize;
        self.messages.insert(place, one);
    }
}

/// Mostly small shops, at times larger ones, seldom the largest.
fn size(random: &mut Random) -> Size {
    let (leaves, stations, messages, budget) = match random.within(0, 479) {
        0 => (1_024, 32, 512, 2_000),
        1..=40 => (1_024, 32, 60, 1_000),
        _ => (16, 6, 12, 150),
    };
    Size { leaves, stations, messages, budget }
}

/// A tree that is not checked.
pub fn shape((branches, leaves): (u32, u32)) -> Shape {
    Shape { branches, leaves }
}

/// A message with these numbers; its slot of sending is for [`Traffic::mark`] to choose.
pub fn message_of(station: u32, arrival: u32, relative: u32, length: u32) -> Message {
    Message { station, arrival, relative, length, sent: 0 }
}

/// A message, at times with the absolute deadline of many others or with numbers at the ends of their ranges.
fn message(random: &mut Random, habits: &Habits) -> Message {
    let station = random.within(0, habits.stations - 1);
    let arrival = random.within(0, habits.arrivals);
    let relative = match random.within(0, 9) {
        0 => random.pick(&[1, 1_000_000_000, 500_000, 999_999_999]),
        1..=4 => habits.arrivals + habits.deadlines - arrival,
        _ => random.within(1, habits.deadlines),
    };
    let length = if random.one_in(30) {
        random.pick(&[1, 999, 1_000])
    } else {
        random.within(1, habits.lengths)
    };
    let arrival = if random.one_in(60) {
        random.within(100, 1_000_000_000)
    } else {
        arrival
    };
    message_of(station, arrival, relative, length)
}

/// A table that gives every station an index and the rest to anybody or nobody.
fn owners(random: &mut Random, stations: u32, count: u32) -> Vec<u32> {
    let mut table: Vec<u32> = (0..count)
        .map(|index| match index {
            index if index < stations => index,
            _ if random.one_in(2) => FREE,
            _ => random.within(0, stations - 1),
        })
        .collect();
    for place in (1..table.len()).rev() {
        table.swap(place, random.within(0, place as u32) as usize);
    }
    table
}
