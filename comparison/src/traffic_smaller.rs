//! Shops with something taken away.

use crate::case::{less, shorter};
use crate::traffic::{shape, Traffic};
use crate::trees::all_trees;
use independent::message::Message;
use independent::shop::FREE;

type NumberOf<T> = fn(&mut T) -> &mut u32;

const NUMBERS: [NumberOf<Traffic>; 4] = [
    |one| &mut one.budget,
    |one| &mut one.shop.width,
    |one| &mut one.shop.offset,
    |one| &mut one.shop.compression,
];

const FIELDS: [NumberOf<Message>; 3] = [|one| &mut one.arrival, |one| &mut one.relative, |one| &mut one.length];

/// The largest parts are taken away first.
pub fn smaller(traffic: &Traffic) -> Vec<Traffic> {
    let mut all = [fewer_stations(traffic), smaller_trees(traffic)].concat();
    all.extend(
        shorter(&traffic.messages)
            .into_iter()
            .map(|messages| Traffic { messages, ..traffic.clone() }),
    );
    let mut one = traffic.clone();
    for number_of in NUMBERS {
        all.extend(less(*number_of(&mut one)).into_iter().map(|number| {
            let mut one = traffic.clone();
            *number_of(&mut one) = number;
            one
        }));
    }
    for place in 0..traffic.messages.len() {
        all.extend(smaller_message(traffic, place));
    }
    if traffic.roomier > 0 {
        all.push(Traffic { roomier: 0, ..traffic.clone() });
    }
    all
}

fn smaller_message(traffic: &Traffic, place: usize) -> Vec<Traffic> {
    let mut message = traffic.messages[place];
    let mut all = Vec::new();
    for number_of in FIELDS {
        for number in less(*number_of(&mut message)) {
            let mut one = traffic.clone();
            *number_of(&mut one.messages[place]) = number;
            all.push(one);
        }
    }
    if message.sent != 0 {
        let mut one = traffic.clone();
        one.messages[place].sent = 0;
        all.push(one);
    }
    all
}

fn fewer_stations(traffic: &Traffic) -> Vec<Traffic> {
    let fewer = less(traffic.shop.stations).into_iter().filter(|&stations| stations > 0);
    let with = |stations| {
        let mut one = traffic.clone();
        one.shop.stations = stations;
        let gone = one.owners.iter_mut().filter(|owner| **owner >= stations);
        gone.for_each(|owner| *owner = FREE);
        one.messages.retain(|message| message.station < stations);
        one
    };
    fewer.map(with).collect()
}

fn smaller_trees(traffic: &Traffic) -> Vec<Traffic> {
    let owner = |index| if index < traffic.shop.stations { index } else { FREE };
    let mut all = Vec::new();
    for (m, t) in all_trees() {
        if t < traffic.shop.time.leaves {
            let mut one = traffic.clone();
            one.shop.time = shape((m, t));
            all.push(one);
        }
        if t < traffic.shop.fixed.leaves {
            let mut one = traffic.clone();
            one.shop.fixed = shape((m, t));
            one.owners = (0..t).map(owner).collect();
            all.push(one);
        }
    }
    all
}
