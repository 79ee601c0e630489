//! The stations' waiting messages, each station's in the order in which it sends them.

use crate::fault::{commits, Fault};
use crate::message::{Message, MESSAGES_MAX};
use crate::shop::STATIONS_MAX;

/// The head of a station that has nothing to send: no deadline is as large.
const NOTHING: i32 = i32::MAX;
const WORD: usize = 64;

/// Messages ranked by station, then deadline, arrival and number. Those that wait are bits by rank, so a station's
/// first message is its lowest bit, and the deadlines of the first messages are at hand for every slot.
pub struct Queues {
    /// Station, absolute deadline, arrival and number of each rank, as one number from high to low.
    ranked: [u128; MESSAGES_MAX],
    /// Arrival and rank of each message, as one number from high to low, in the order of arrival.
    arriving: [u64; MESSAGES_MAX],
    count: usize,
    arrived: usize,
    next_arrival: u32,
    waiting: [u64; MESSAGES_MAX / WORD],
    first: [usize; STATIONS_MAX],
    heads: [i32; STATIONS_MAX],
}

impl Queues {
    pub fn new(messages: &[Message]) -> Queues {
        let mut queues = Queues {
            ranked: [0; MESSAGES_MAX],
            arriving: [0; MESSAGES_MAX],
            count: messages.len(),
            arrived: 0,
            next_arrival: u32::MAX,
            waiting: [0; MESSAGES_MAX / WORD],
            first: [usize::MAX; STATIONS_MAX],
            heads: [NOTHING; STATIONS_MAX],
        };
        queues.rank(messages);
        queues
    }

    fn rank(&mut self, messages: &[Message]) {
        let ranked = &mut self.ranked[..messages.len()];
        for (number, (key, message)) in ranked.iter_mut().zip(messages).enumerate() {
            let mut arrival = message.arrival;
            if commits(Fault::LaterArrival) {
                arrival = !arrival;
            }
            let high = u64::from(message.station) << 32 | u64::from(message.deadline());
            let low = u64::from(arrival) << 32 | number as u64;
            *key = u128::from(high) << 64 | u128::from(low);
        }
        ranked.sort_unstable();
        for (rank, (key, one)) in self.arriving.iter_mut().zip(ranked).enumerate() {
            let arrival = messages[*one as u32 as usize].arrival;
            *key = u64::from(arrival) << 32 | rank as u64;
        }
        self.arriving[..self.count].sort_unstable();
        self.look_ahead();
    }

    /// Lets the messages wait that have arrived by a slot.
    #[inline]
    pub fn admit(&mut self, slot: u32) {
        while self.next_arrival <= slot {
            let rank = self.arriving[self.arrived] as u32 as usize;
            self.waiting[rank / WORD] |= 1 << (rank % WORD);
            let station = self.station(rank);
            if rank < self.first[station] {
                self.first[station] = rank;
                self.heads[station] = self.deadline(rank);
            }
            self.arrived += 1;
            self.look_ahead();
        }
    }

    /// The stations, as bits, whose first message has an absolute deadline below a limit.
    #[inline]
    pub fn below(&self, limit: i32) -> u32 {
        let mut stations = 0;
        for (station, &head) in self.heads.iter().enumerate() {
            stations |= u32::from(head < limit) << station;
        }
        stations
    }

    /// Takes a station's first message and answers its number.
    pub fn take_first(&mut self, station: usize) -> usize {
        let rank = self.first[station];
        self.waiting[rank / WORD] &= !(1 << (rank % WORD));
        let next = self.waiting_after(rank).filter(|&next| self.station(next) == station);
        self.first[station] = next.unwrap_or(usize::MAX);
        self.heads[station] = next.map_or(NOTHING, |next| self.deadline(next));
        self.ranked[rank] as u32 as usize
    }

    /// The lowest waiting rank above one, whichever station's it is.
    fn waiting_after(&self, rank: usize) -> Option<usize> {
        let word = rank / WORD;
        let here = self.waiting[word] & (u64::MAX << (rank % WORD));
        if here != 0 {
            return Some(word * WORD + here.trailing_zeros() as usize);
        }
        let rest = (word + 1..self.waiting.len()).find(|&word| self.waiting[word] != 0)?;
        Some(rest * WORD + self.waiting[rest].trailing_zeros() as usize)
    }

    /// Notes when the next message arrives. No slot reaches the number that stands for never.
    fn look_ahead(&mut self) {
        let next = self.arriving[..self.count].get(self.arrived);
        self.next_arrival = next.map_or(u32::MAX, |key| (key >> 32) as u32);
    }

    fn station(&self, rank: usize) -> usize {
        (self.ranked[rank] >> 96) as usize
    }

    fn deadline(&self, rank: usize) -> i32 {
        (self.ranked[rank] >> 64) as u32 as i32
    }
}

#[cfg(test)]
mod tests {
    use super::*;

    fn message(station: u32, arrival: u32, relative: u32) -> Message {
        Message { station, arrival, relative, length: 1, sent: 0 }
    }

    #[test]
    fn the_first_message_is_by_deadline_then_arrival_then_number() {
        let messages = [
            message(1, 0, 50),
            message(1, 3, 7),
            message(1, 2, 8),
            message(1, 2, 8),
            message(0, 0, 5),
        ];
        let mut queues = Queues::new(&messages);
        queues.admit(0);
        assert_eq!(queues.below(i32::MAX), 0b11);
        assert_eq!(queues.below(50), 0b01);
        queues.admit(3);
        assert_eq!(queues.below(11), 0b11);
        let order: Vec<usize> = (0..4).map(|_| queues.take_first(1)).collect();
        assert_eq!(order, [2, 3, 1, 0]);
        assert_eq!(queues.below(i32::MAX), 0b01);
        assert_eq!(queues.take_first(0), 4);
        assert_eq!(queues.below(i32::MAX), 0);
    }

    #[test]
    fn a_message_waits_from_its_arrival_on() {
        let mut queues = Queues::new(&[message(0, 5, 1)]);
        queues.admit(4);
        assert_eq!(queues.below(i32::MAX), 0);
        queues.admit(5);
        assert_eq!(queues.below(i32::MAX), 1);
    }
}
