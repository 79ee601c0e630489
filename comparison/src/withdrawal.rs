//! The cases of withdrawals.

use crate::case::{less, shorter, unequal, Case, LentList, Seen};
use crate::product::{self, WithdrawalNumbers};
use crate::random::{edges, Random};
use independent::message::Message;
use independent::withdrawal;

/// A list of any records, and a station.
#[derive(Clone, Debug)]
pub struct Withdraw {
    messages: Vec<Message>,
    station: u32,
}

/// A record of any numbers.
pub fn any_record(random: &mut Random, station: u32) -> Message {
    Message {
        station,
        arrival: random.number() as u32,
        relative: random.number() as u32,
        length: random.number() as u32,
        sent: random.number() as u32,
    }
}

impl Case for Withdraw {
    const CALL: &'static str = "withdraw";
    const ANSWERS: &'static [&'static str] = &["some", "none", "all", "refused 6", "refused 9"];

    fn limits() -> Vec<Withdraw> {
        let mut random = Random::of_case(0, 0);
        let mut all = Vec::new();
        for station in edges(0, 31) {
            for count in [0, 1, 2, 3, 511, 512, 513, 600] {
                for owners in [&[0_u32][..], &[31], &[0, 31], &[31, 0, 0], &[5, 31, 31, 0], &[station]] {
                    let owner = |place: usize| owners[place % owners.len()];
                    let messages = (0..count).map(|place| any_record(&mut random, owner(place))).collect();
                    all.push(Withdraw { messages, station });
                }
            }
        }
        all
    }

    fn random(random: &mut Random) -> Withdraw {
        let most = if random.one_in(12) { 520 } else { 24 };
        let count = random.within(0, most);
        let kinds = random.within(1, 5);
        let messages = (0..count).map(|_| {
            let station = if random.one_in(10) {
                random.near(0, 31)
            } else {
                random.within(0, kinds)
            };
            let blank = random.one_in(12);
            if blank {
                Message::default()
            } else {
                any_record(random, station)
            }
        });
        let messages = messages.collect();
        let station = if random.one_in(8) {
            random.near(0, 31)
        } else {
            random.within(0, kinds)
        };
        Withdraw { messages, station }
    }

    fn run(&self, noise: &mut Random) -> Seen {
        let mut own = self.messages.clone();
        let mut lent = LentList::new(&self.messages, || any_record(noise, 0));
        let proved = product::withdraw(lent.part(), self.station);
        let expected = match withdrawal::withdraw(&mut own, self.station) {
            Ok(counts) => WithdrawalNumbers { refusal: 0, kept: counts.kept, withdrawn: counts.withdrawn },
            Err(refusal) => WithdrawalNumbers { refusal: refusal.0, ..WithdrawalNumbers::default() },
        };
        let difference = unequal("answer", &proved, &expected).or_else(|| lent.unequal("records", &own));
        let kind = match (proved.kept, proved.withdrawn) {
            (_, 0) => "none",
            (0, _) => "all",
            _ => "some",
        };
        Seen::of(proved.refusal, kind, difference)
    }

    fn smaller(&self) -> Vec<Withdraw> {
        let lists = shorter(&self.messages)
            .into_iter()
            .map(|messages| Withdraw { messages, station: self.station });
        let mut all: Vec<_> = lists.collect();
        all.extend(
            less(self.station)
                .into_iter()
                .map(|station| Withdraw { station, ..self.clone() }),
        );
        for place in 0..self.messages.len() {
            let plain = Message {
                station: self.messages[place].station,
                arrival: place as u32,
                ..Message::default()
            };
            if self.messages[place] != plain {
                let mut messages = self.messages.clone();
                messages[place] = plain;
                all.push(Withdraw { messages, station: self.station });
            }
        }
        all
    }
}
