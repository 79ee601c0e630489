//! Runs worked out by hand from docs/RULES.md: every row of two of them, and of the others the closing figures, the slots
//! of sending or the rows that a rule is about; then the refusals in their order.

use independent::message::{Message, UNSENT};
use independent::refusal::Refusal;
use independent::run::{run, Closing};
use independent::shop::{Shape, Shop};

const BINARY: Shape = Shape { branches: 2, leaves: 2 };

fn shop() -> Shop {
    Shop {
        stations: 2,
        width: 10,
        offset: 0,
        compression: 1,
        time: Shape { branches: 2, leaves: 4 },
        fixed: BINARY,
    }
}

fn message(station: u32, arrival: u32, relative: u32, length: u32) -> Message {
    Message { station, arrival, relative, length, sent: 77 }
}

/// The rows of a log as (slot, phase, state, first, width, message, used).
fn rows(log: &[u8]) -> Vec<[u32; 7]> {
    let row = |row: &[u8; 16]| {
        let two = |at: usize| u32::from(row[at]) | u32::from(row[at + 1]) << 8;
        assert_eq!(two(14), 0);
        [
            two(0) | two(2) << 16,
            row[4].into(),
            row[5].into(),
            two(6),
            two(8),
            two(10),
            two(12),
        ]
    };
    log.as_chunks().0.iter().map(row).collect()
}

fn closing(done: bool, events: u32, slot: u32, sent: u32, late: u32) -> Closing {
    Closing { done, events, slot, sent, late }
}

const NONE: u32 = 65_535;

#[test]
fn the_run_of_the_rules() {
    let mut messages = [message(0, 0, 25, 3), message(1, 0, 28, 2), message(0, 0, 100, 1)];
    let mut log = [0xaa; 16 * 9];
    let answer = run(&shop(), &[0, 1], &mut messages, &mut log, 9);
    assert_eq!(answer, Ok(closing(true, 8, 11, 3, 0)));
    let expected = [
        [0, 0, 2, 0, 0, NONE, 1],
        [1, 1, 0, 0, 2, NONE, 1],
        [2, 1, 2, 2, 2, NONE, 1],
        [3, 1, 2, 2, 1, NONE, 1],
        [4, 2, 1, 0, 1, 0, 3],
        [7, 2, 1, 1, 1, 1, 2],
        [9, 1, 0, 3, 1, NONE, 1],
        [10, 0, 1, 0, 0, 2, 1],
    ];
    assert_eq!(rows(&log[..16 * 8]), expected);
    assert_eq!(log[16 * 8..], [0xaa; 16]);
    assert_eq!(messages.map(|one| one.sent), [4, 7, 10]);
}

#[test]
fn a_budget_ends_a_run_and_leaves_the_rest_unsent() {
    for budget in 1..8 {
        let mut messages = [message(0, 0, 25, 3), message(1, 0, 28, 2), message(0, 0, 100, 1)];
        let mut log = vec![0; 16 * budget as usize];
        let answer = run(&shop(), &[0, 1], &mut messages, &mut log, budget).unwrap();
        assert_eq!((answer.done, answer.events), (false, budget));
        assert_eq!(messages[1].sent, if budget < 6 { UNSENT } else { 7 });
    }
    let mut messages = [message(0, 0, 25, 3)];
    let mut log = [0; 16];
    // The only message is sent in the only event, so the run is done and not at its budget.
    assert_eq!(
        run(&shop(), &[0, 1], &mut messages, &mut log, 1),
        Ok(closing(true, 1, 3, 1, 0))
    );
}

#[test]
fn no_messages_leave_the_log_as_it_was() {
    let mut log = [5; 16];
    assert_eq!(
        run(&shop(), &[0, 1], &mut [], &mut log, 1),
        Ok(closing(true, 0, 0, 0, 0))
    );
    assert_eq!(log, [5; 16]);
}

#[test]
fn ninety_six_empty_time_searches_come_before_a_far_deadline() {
    // Reference 1 after the collision; it enters when floor((1000 - 1 - 10 n) / 10) < 4, so after n = 96 searches.
    let mut messages = [message(0, 0, 1_000, 1), message(1, 0, 1_000, 1)];
    let mut log = [0; 16 * 400];
    let answer = run(&shop(), &[0, 1], &mut messages, &mut log, 400).unwrap();
    assert!(answer.done);
    let silent = rows(&log).iter().position(|row| row[0] > 0 && row[2] != 0).unwrap();
    // One collision, then searches of two silent halves each, then the first half of the search that is not empty.
    assert_eq!(silent, 1 + 96 * 2 + 1);
}

#[test]
fn a_late_message_enters_at_once_and_counts_as_late() {
    let mut messages = [message(0, 0, 1, 1), message(1, 0, 1, 1)];
    let mut log = [0; 16 * 20];
    let answer = run(&shop(), &[0, 1], &mut messages, &mut log, 20).unwrap();
    // Collisions in the free slot, the left half and leaf 0; then one sending for each index, and all is sent.
    let expected = [
        [0, 0, 2, 0, 0, NONE, 1],
        [1, 1, 2, 0, 2, NONE, 1],
        [2, 1, 2, 0, 1, NONE, 1],
        [3, 2, 1, 0, 1, 0, 1],
        [4, 2, 1, 1, 1, 1, 1],
    ];
    assert_eq!(rows(&log[..16 * 5]), expected);
    assert_eq!(answer, closing(true, 5, 5, 2, 2));
}

#[test]
fn a_station_sends_once_for_each_index_that_it_owns() {
    // Station 0 owns three of four indexes and has four late messages; the first is taken afresh in each slot.
    let four = Shop { fixed: Shape { branches: 2, leaves: 4 }, ..shop() };
    let mut messages = [
        message(0, 0, 1, 1),
        message(0, 0, 2, 1),
        message(0, 0, 3, 1),
        message(0, 0, 4, 1),
        message(1, 0, 1, 1),
    ];
    let mut log = [0; 16 * 40];
    let answer = run(&four, &[0, 1, 0, 0], &mut messages, &mut log, 40).unwrap();
    let fixed: Vec<_> = rows(&log).into_iter().filter(|row| row[1] == 2).collect();
    // Left half: both contend, then each leaf. Right half: only station 0, so it sends once for both indexes.
    let expected = [
        [3, 2, 2, 0, 2, NONE, 1],
        [4, 2, 1, 0, 1, 0, 1],
        [5, 2, 1, 1, 1, 4, 1],
        [6, 2, 1, 2, 2, 1, 1],
    ];
    assert_eq!(fixed, expected);
    assert_eq!(answer.sent, 5);
}

#[test]
fn refusals_come_in_order_and_change_nothing() {
    let good = [message(0, 0, 25, 3), message(1, 0, 28, 2)];
    let number = |shop: Shop, owners: &[u32], messages: &[Message], room: usize, budget: u32| {
        let mut lent = messages.to_vec();
        let mut log = vec![3; room];
        let refused = run(&shop, owners, &mut lent, &mut log, budget).unwrap_err();
        assert_eq!(lent, messages);
        assert!(log.iter().all(|&byte| byte == 3));
        refused
    };
    // All is wrong at first, and is put right in the order of the refusals.
    let mut wrong = Shop {
        stations: 33,
        width: 0,
        offset: 0,
        compression: 0,
        time: Shape { branches: 17, leaves: 3 },
        fixed: Shape { branches: 0, leaves: 3 },
    };
    let bad = [message(2, 0, 25, 3)];
    assert_eq!(number(wrong, &[1], &bad, 0, 0), Refusal(1));
    wrong.time.branches = 2;
    assert_eq!(number(wrong, &[1], &bad, 0, 0), Refusal(2));
    wrong.time.leaves = 4;
    assert_eq!(number(wrong, &[1], &bad, 0, 0), Refusal(1));
    wrong.fixed.branches = 2;
    assert_eq!(number(wrong, &[1], &bad, 0, 0), Refusal(2));
    wrong.fixed.leaves = 2;
    assert_eq!(number(wrong, &[1], &bad, 0, 0), Refusal(6));
    wrong.stations = 0;
    assert_eq!(number(wrong, &[1], &bad, 0, 0), Refusal(6));
    wrong.stations = 2;
    assert_eq!(number(wrong, &[1], &bad, 0, 0), Refusal(7));
    wrong.width = 1_000_001;
    assert_eq!(number(wrong, &[1], &bad, 0, 0), Refusal(7));
    for other in [Shop { offset: 1_000_001, ..shop() }, Shop { compression: 9, ..shop() }] {
        assert_eq!(number(other, &[1], &bad, 0, 0), Refusal(7));
    }
    for owners in [&[1][..], &[0, 1, 255], &[0, 2], &[0, 254], &[0, 256], &[0, 255], &[]] {
        assert_eq!(number(shop(), owners, &bad, 0, 0), Refusal(8));
    }
    let far = 1_000_000_001;
    for one in [
        bad[0],
        message(0, far, 1, 1),
        message(0, 0, 0, 1),
        message(0, 0, far, 1),
    ] {
        assert_eq!(number(shop(), &[0, 1], &[good[0], one], 0, 0), Refusal(9));
    }
    for length in [0, 1_001] {
        assert_eq!(number(shop(), &[0, 1], &[message(0, 0, 1, length)], 0, 0), Refusal(9));
    }
    assert_eq!(number(shop(), &[0, 1], &[good[0]; 513], 0, 0), Refusal(9));
    assert_eq!(number(shop(), &[0, 1], &good, 0, 0), Refusal(10));
    assert_eq!(number(shop(), &[0, 1], &good, 0, 1_000_001), Refusal(10));
    assert_eq!(number(shop(), &[0, 1], &good, 16 * 7 - 1, 7), Refusal(11));
}
