//! The cases of runs, over records and over slices of numbers.

use crate::case::{unequal, Case, Lent, LentList, Seen};
use crate::product::{self, RunNumbers};
use crate::random::Random;
use crate::traffic::Traffic;
use crate::traffic_limits::limits;
use crate::traffic_smaller::smaller;
use crate::withdrawal::any_record;
use independent::fields::{run_fields, Fields};
use independent::message::Message;
use independent::refusal::Refusal;
use independent::run::{run, Closing};

const ANSWERS: &[&str] = &[
    "done",
    "budget in free",
    "budget in time",
    "budget in static",
    "refused 1",
    "refused 2",
    "refused 6",
    "refused 7",
    "refused 8",
    "refused 9",
    "refused 10",
    "refused 11",
];

/// What the independent program answers, as the proved calls tell it.
fn numbers(answer: Result<Closing, Refusal>) -> RunNumbers {
    match answer {
        Ok(closing) => RunNumbers {
            refusal: 0,
            done: closing.done,
            events: closing.events,
            slot: closing.slot,
            sent: closing.sent,
            late: closing.late,
        },
        Err(refusal) => RunNumbers { refusal: refusal.0, ..RunNumbers::default() },
    }
}

/// The end of a run, and the phase of its last row where the budget ended it.
fn end(numbers: &RunNumbers, log: &[u8]) -> &'static str {
    if numbers.done || numbers.events == 0 {
        return "done";
    }
    match log.get(16 * numbers.events as usize - 12) {
        Some(0) => "budget in free",
        Some(1) => "budget in time",
        _ => "budget in static",
    }
}

/// A run over the lent list of records.
#[derive(Clone, Debug)]
pub struct Run(Traffic);

impl Case for Run {
    const CALL: &'static str = "run";
    const ANSWERS: &'static [&'static str] = ANSWERS;

    fn limits() -> Vec<Run> {
        limits().into_iter().map(Run).collect()
    }

    fn random(random: &mut Random) -> Run {
        Run(Traffic::any(random))
    }

    fn run(&self, noise: &mut Random) -> Seen {
        let traffic = &self.0;
        let mut own = traffic.messages.clone();
        let mut own_log = noise.noise(traffic.room());
        let Traffic { shop, owners, budget, .. } = traffic;
        let mut lent = LentList::new(&own, || any_record(noise, 0));
        let mut lent_log = Lent::new(&own_log, noise);
        let mut lent_owners = LentList::new(owners, || noise.number() as u32);
        let proved = product::run(shop, lent_owners.part(), lent.part(), lent_log.part(), *budget);
        let expected = numbers(run(shop, owners, &mut own, &mut own_log, *budget));
        let difference = unequal("answer", &proved, &expected)
            .or_else(|| lent_log.unequal("log", &own_log))
            .or_else(|| lent.unequal("records", &own))
            .or_else(|| lent_owners.unequal("owners", owners));
        Seen::of(proved.refusal, end(&proved, &own_log), difference)
    }

    fn smaller(&self) -> Vec<Run> {
        smaller(&self.0).into_iter().map(Run).collect()
    }
}

/// A run over slices of numbers; `odd` names a slice (0 to 4) that is one shorter than the others, 5 for none.
#[derive(Clone, Debug)]
pub struct RunFields {
    traffic: Traffic,
    odd: usize,
}

impl RunFields {
    /// One field of every message.
    fn field(&self, place: usize) -> Vec<u32> {
        let of = |one: &Message| [one.station, one.arrival, one.relative, one.length, one.sent][place];
        let mut all: Vec<u32> = self.traffic.messages.iter().map(of).collect();
        if place == self.odd {
            all.pop();
        }
        all
    }
}

fn of_slices<'a>(read: [&'a [u32]; 4], sent: &'a mut [u32]) -> Fields<'a> {
    let [stations, arrivals, relatives, lengths] = read;
    Fields { stations, arrivals, relatives, lengths, sent }
}

impl Case for RunFields {
    const CALL: &'static str = "run_fields";
    const ANSWERS: &'static [&'static str] = ANSWERS;

    fn limits() -> Vec<RunFields> {
        let mut all: Vec<_> = limits()
            .into_iter()
            .map(|traffic| RunFields { traffic, odd: 5 })
            .collect();
        let traffic = all[0].traffic.clone();
        all.extend((0..5).map(|odd| RunFields { traffic: traffic.clone(), odd }));
        all
    }

    fn random(random: &mut Random) -> RunFields {
        let odd = if random.one_in(30) {
            random.within(0, 4) as usize
        } else {
            5
        };
        RunFields { traffic: Traffic::any(random), odd }
    }

    fn run(&self, noise: &mut Random) -> Seen {
        let Traffic { shop, owners, budget, .. } = &self.traffic;
        let read: [Vec<u32>; 4] = std::array::from_fn(|place| self.field(place));
        let mut own = self.field(4);
        let mut own_log = noise.noise(self.traffic.room());
        let mut lent_log = Lent::new(&own_log, noise);
        let mut number = || noise.number() as u32;
        let mut lent = LentList::new(&own, &mut number);
        let mut lent_owners = LentList::new(owners, &mut number);
        let mut lent_read = [0, 1, 2, 3].map(|place: usize| LentList::new(&read[place], &mut number));
        let fields = of_slices(lent_read.each_mut().map(|one| &*one.part()), lent.part());
        let proved = product::run_fields(shop, lent_owners.part(), fields, lent_log.part(), *budget);
        let fields = of_slices(read.each_ref().map(|one| &one[..]), &mut own);
        let expected = numbers(run_fields(shop, owners, fields, &mut own_log, *budget));
        let mut both = lent_read.iter_mut().zip(&read);
        let difference = unequal("answer", &proved, &expected)
            .or_else(|| lent_log.unequal("log", &own_log))
            .or_else(|| lent.unequal("slots of sending", &own))
            .or_else(|| lent_owners.unequal("owners", owners))
            .or_else(|| both.find_map(|(lent, read)| lent.unequal("a field", read)));
        Seen::of(proved.refusal, end(&proved, &own_log), difference)
    }

    fn smaller(&self) -> Vec<RunFields> {
        let odd = self.odd;
        smaller(&self.traffic)
            .into_iter()
            .map(|traffic| RunFields { traffic, odd })
            .collect()
    }
}
