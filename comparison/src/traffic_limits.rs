//! Shops at each limit of docs/RULES.md and one past it.

use crate::random::{edges, Random};
use crate::traffic::{message_of, shape, Traffic};
use crate::trees::limit_trees;
use independent::shop::{Shop, FREE};

/// A shop of two stations that collide, to be changed in one place.
fn plain() -> Traffic {
    Traffic {
        shop: Shop {
            stations: 2,
            width: 10,
            offset: 0,
            compression: 1,
            time: shape((2, 4)),
            fixed: shape((2, 2)),
        },
        owners: vec![0, 1],
        messages: vec![
            message_of(0, 0, 25, 3),
            message_of(1, 0, 28, 2),
            message_of(0, 0, 100, 1),
        ],
        budget: 9,
        roomier: 3,
    }
}

/// The plain shop with one change.
fn with(change: impl Fn(&mut Traffic)) -> Traffic {
    let mut traffic = plain();
    change(&mut traffic);
    traffic
}

/// Each number, list and length at the ends of its range and one past them.
pub fn limits() -> Vec<Traffic> {
    let mut all = [
        tree_limits(),
        number_limits(),
        table_limits(),
        message_limits(),
        list_limits(),
        long_runs(),
    ]
    .concat();
    let mut random = Random::of_case(0, 0);
    all.iter_mut().for_each(|one| one.mark(&mut random));
    all
}

fn tree_limits() -> Vec<Traffic> {
    let owner = |index| if index < 2 { index } else { FREE };
    let both = |(m, t): (u32, u32)| {
        let time = with(|one| one.shop.time = shape((m, t)));
        let fixed = with(|one| {
            one.shop.fixed = shape((m, t));
            one.owners = (0..t.min(1_025)).map(owner).collect();
        });
        [time, fixed]
    };
    limit_trees().into_iter().flat_map(both).collect()
}

fn number_limits() -> Vec<Traffic> {
    let mut all = Vec::new();
    for number in edges(1, 1_000_000) {
        all.push(with(|one| one.shop.width = number));
        all.push(with(|one| one.shop.offset = number));
        all.push(with(|one| one.budget = number));
    }
    all.extend(edges(0, 8).map(|number| with(|one| one.shop.compression = number)));
    // The plain run takes 8 events, so that a budget ends it in each phase.
    for budget in 1..10 {
        all.push(with(|one| one.budget = budget));
        all.push(with(|one| (one.budget, one.roomier) = (budget, -1)));
    }
    all
}

fn table_limits() -> Vec<Traffic> {
    let mut all = Vec::new();
    for stations in edges(1, 32) {
        all.push(with(|one| {
            one.shop.stations = stations;
            one.shop.fixed = shape((2, 64));
            one.owners = (0..64).map(|index| index % stations.clamp(1, 33)).collect();
        }));
    }
    for owner in [0, 1, 2, 3, 31, 32, 254, 255, 256, u32::MAX] {
        all.push(with(|one| one.owners[1] = owner));
        all.push(with(|one| one.owners.push(owner)));
    }
    all.push(with(|one| one.owners.clear()));
    all
}

fn message_limits() -> Vec<Traffic> {
    let mut messages = Vec::new();
    for number in edges(0, 1_000_000_000) {
        messages.push(message_of(0, number, 9, 1));
        messages.push(message_of(0, 0, number, 1));
    }
    for number in edges(1, 1_000) {
        messages.push(message_of(0, 0, 9, number));
        messages.push(message_of(number, 0, 9, 1));
    }
    let first_or_last = |message| [0, 3].map(|place| with(|one| one.messages.insert(place, message)));
    messages.into_iter().flat_map(first_or_last).collect()
}

fn list_limits() -> Vec<Traffic> {
    let message = |number: u32| message_of(number % 2, number / 3, 40, 1 + number % 3);
    let lists = [0, 1, 511, 512, 513, 600].map(|count| {
        with(|one| {
            one.messages = (0..count).map(message).collect();
            one.budget = 60;
        })
    });
    lists.into()
}

/// Runs that use up the largest budget: in the free phase, with an arrival that never comes; and in the time phase, where
/// no compression brings far deadlines nearer.
fn long_runs() -> Vec<Traffic> {
    let free = with(|one| {
        one.budget = 1_000_000;
        one.messages.push(message_of(0, 1_000_000_000, 1_000_000_000, 1_000));
    });
    let time = with(|one| {
        one.budget = 1_000_000;
        one.shop.compression = 0;
        one.messages = [0, 1].map(|station| message_of(station, 0, 1_000_000_000, 1)).into();
    });
    vec![free, time]
}
