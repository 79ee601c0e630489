//! The run of a shop.

use crate::fault::{commits, Fault};
use crate::message::{Message, UNSENT};
use crate::owners::Owners;
use crate::queue::Queues;
use crate::refusal::Refusal;
use crate::row::{self, Row, State, NO_MESSAGE};
use crate::shop::{Shop, Trees};
use crate::tree::Subtree;

/// The closing figures of a run.
#[derive(Clone, Copy, Debug, PartialEq, Eq)]
pub struct Closing {
    /// Whether every message was sent; otherwise the budget ended it.
    pub done: bool,
    pub events: u32,
    pub slot: u32,
    pub sent: u32,
    pub late: u32,
}

/// Runs a shop: rows into the log, slots of sending into the messages.
pub fn run(
    shop: &Shop,
    owners: &[u32],
    messages: &mut [Message],
    log: &mut [u8],
    budget: u32,
) -> Result<Closing, Refusal> {
    let trees = shop.check(owners, messages, log.len(), budget)?;
    for message in messages.iter_mut() {
        message.sent = UNSENT;
    }
    let rows = &mut log.as_chunks_mut().0[..budget as usize];
    let mut wire = Wire::new(shop, trees, owners, messages);
    let mut events = 0;
    for place in rows {
        if wire.unsent() == 0 {
            break;
        }
        *place = wire.event().bytes();
        events += 1;
    }
    let done = wire.unsent() == 0 && !(commits(Fault::BudgetFirst) && events == budget);
    Ok(Closing {
        done,
        events,
        slot: wire.slot,
        sent: wire.sent,
        late: wire.late,
    })
}

/// Where the wire stands.
#[derive(Clone, Copy)]
enum Phase {
    Free,
    Time(Subtree),
    /// A static search for a time leaf.
    Static {
        leaf: Subtree,
        part: Subtree,
    },
}

struct Wire<'a> {
    shop: &'a Shop,
    trees: Trees,
    owners: Owners,
    messages: &'a mut [Message],
    queues: Queues,
    phase: Phase,
    slot: u32,
    /// The reference time.
    reference: u64,
    /// Whether anything was sent in the present time search.
    sent_in_search: bool,
    sent: u32,
    late: u32,
}

impl<'a> Wire<'a> {
    fn new(shop: &'a Shop, trees: Trees, owners: &[u32], messages: &'a mut [Message]) -> Self {
        Wire {
            shop,
            owners: Owners::new(trees.fixed, owners),
            trees,
            queues: Queues::new(messages),
            messages,
            phase: Phase::Free,
            slot: 0,
            reference: 0,
            sent_in_search: false,
            sent: 0,
            late: 0,
        }
    }

    fn unsent(&self) -> usize {
        self.messages.len() - self.sent as usize
    }

    /// One event: what the wire was, and where it stands afterwards.
    #[inline]
    fn event(&mut self) -> Row {
        let frozen = commits(Fault::StaticFrozen) && matches!(self.phase, Phase::Static { .. });
        if !frozen {
            self.queues.admit(self.slot);
        }
        let contenders = self.contenders();
        let (state, message, used) = match contenders.count_ones() {
            0 => (State::Silence, NO_MESSAGE, 1),
            1 => {
                let (number, length) = self.send(contenders.trailing_zeros() as usize);
                (State::Busy, number, length)
            }
            _ => (State::Collision, NO_MESSAGE, 1),
        };
        let (phase, subtree) = self.row_head();
        let row = Row {
            slot: self.slot,
            phase,
            state,
            first: subtree.first as u16,
            width: subtree.width as u16,
            message,
            used,
        };
        self.slot += u32::from(used);
        self.step(state);
        row
    }

    /// The stations that contend, as bits.
    #[inline]
    fn contenders(&self) -> u32 {
        match self.phase {
            Phase::Free => self.queues.below(i32::MAX),
            Phase::Time(subtree) => self.queues.below(self.limit(subtree.end())),
            Phase::Static { leaf, part } => self.queues.below(self.limit(leaf.end())) & self.owners.below(part.node),
        }
    }

    /// The absolute deadline from which on a class is not below `end`. Beyond every deadline one limit is like another.
    #[inline]
    fn limit(&self, end: u32) -> i32 {
        let end = u64::from(end) + u64::from(commits(Fault::ClassAtEnd));
        let limit = self.reference + u64::from(self.shop.offset) + end * u64::from(self.shop.width);
        limit.min(i32::MAX as u64) as i32
    }

    fn send(&mut self, station: usize) -> (u16, u16) {
        let number = self.queues.take_first(station);
        let message = &mut self.messages[number];
        message.sent = self.slot;
        let end = self.slot + message.length;
        let at_deadline = commits(Fault::LateAtDeadline) && end == message.deadline();
        self.late += u32::from(end > message.deadline() || at_deadline);
        self.sent += 1;
        (number as u16, message.length as u16)
    }

    fn row_head(&self) -> (row::Phase, Subtree) {
        let none = Subtree { node: 0, first: 0, width: 0 };
        match self.phase {
            Phase::Free => (row::Phase::Free, none),
            Phase::Time(subtree) => (row::Phase::Time, subtree),
            Phase::Static { part, .. } => (row::Phase::Static, part),
        }
    }

    /// Goes on after an event. The slot is already that behind it.
    #[inline]
    fn step(&mut self, state: State) {
        match (self.phase, state) {
            (Phase::Free, State::Collision) => {
                self.reference = u64::from(self.slot);
                self.start_time_search();
            }
            (Phase::Free, _) => {}
            (Phase::Time(subtree), State::Collision) => self.divide(subtree),
            (Phase::Time(subtree), _) => {
                if state == State::Busy {
                    self.reference = u64::from(self.slot);
                    self.sent_in_search = true;
                }
                self.go_on_after(subtree);
            }
            (Phase::Static { leaf, part }, _) => self.step_static(leaf, part, state),
        }
    }

    /// A collision in a time search.
    fn divide(&mut self, subtree: Subtree) {
        self.phase = if subtree.width > 1 {
            Phase::Time(self.trees.time.first_child(subtree))
        } else {
            let fixed = self.trees.fixed;
            Phase::Static { leaf: subtree, part: fixed.first_child(fixed.root()) }
        };
    }

    fn step_static(&mut self, leaf: Subtree, part: Subtree, state: State) {
        let fixed = self.trees.fixed;
        if state == State::Busy {
            self.sent_in_search |= !commits(Fault::StaticNotCounted);
            if commits(Fault::StaticReference) {
                self.reference = u64::from(self.slot);
            }
        }
        let again = commits(Fault::IndexTwice) && state == State::Busy && part.width == 1;
        let next = match state {
            // One index has one owner, so a collision lies above the indexes.
            State::Collision => Some(fixed.first_child(part)),
            _ if again => Some(part),
            _ => fixed.after(part),
        };
        match next {
            Some(part) => self.phase = Phase::Static { leaf, part },
            None => {
                self.reference = u64::from(self.slot);
                self.go_on_after(leaf);
            }
        }
    }

    /// Goes on in the time search, or ends it.
    fn go_on_after(&mut self, finished: Subtree) {
        match self.trees.time.after(finished) {
            Some(subtree) => self.phase = Phase::Time(subtree),
            None if self.sent_in_search => self.phase = Phase::Free,
            None => {
                if !commits(Fault::NoCompression) {
                    self.reference += u64::from(self.shop.compression) * u64::from(self.shop.width);
                }
                self.start_time_search();
            }
        }
    }

    fn start_time_search(&mut self) {
        let root = self.trees.time.root();
        self.sent_in_search = false;
        self.phase = Phase::Time(if commits(Fault::RootAgain) {
            root
        } else {
            self.trees.time.first_child(root)
        });
    }
}
