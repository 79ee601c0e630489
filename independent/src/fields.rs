//! The run over messages that are held field by field.

use crate::fault::{commits, Fault};
use crate::message::Message;
use crate::refusal::Refusal;
use crate::run::{run, Closing};
use crate::shop::Shop;

/// Message i is what stands at place i of each slice.
pub struct Fields<'a> {
    pub stations: &'a [u32],
    pub arrivals: &'a [u32],
    pub relatives: &'a [u32],
    pub lengths: &'a [u32],
    pub sent: &'a mut [u32],
}

impl Fields<'_> {
    fn equally_long(&self) -> bool {
        let others = [self.arrivals, self.relatives, self.lengths, self.sent];
        others.iter().all(|one| one.len() == self.stations.len())
    }

    fn messages(&self) -> Vec<Message> {
        let whens = self.arrivals.iter().zip(self.relatives);
        let rests = self.lengths.iter().zip(self.sent.iter());
        let all = self.stations.iter().zip(whens).zip(rests);
        let message = |((&station, (&arrival, &relative)), (&length, &sent))| Message {
            station,
            arrival,
            relative,
            length,
            sent,
        };
        all.map(message).collect()
    }
}

/// Runs a shop as [`run`] does. Slices of unequal length are no list of messages, and are refused like one that holds a
/// message of no station.
pub fn run_fields(
    shop: &Shop,
    owners: &[u32],
    fields: Fields,
    log: &mut [u8],
    budget: u32,
) -> Result<Closing, Refusal> {
    let mut messages = if fields.equally_long() || commits(Fault::FieldsCut) {
        fields.messages()
    } else {
        vec![Message { station: u32::MAX, ..Message::default() }]
    };
    let closing = run(shop, owners, &mut messages, log, budget)?;
    for (sent, message) in fields.sent.iter_mut().zip(&messages) {
        if !commits(Fault::FieldsUnmarked) {
            *sent = message.sent;
        }
    }
    Ok(closing)
}

#[cfg(test)]
mod tests {
    use super::*;
    use crate::message::UNSENT;
    use crate::shop::Shape;

    fn answer(counts: [usize; 5], stations: u32, budget: u32) -> (Result<Closing, Refusal>, Vec<u32>) {
        let shape = Shape { branches: 2, leaves: 2 };
        let shop = Shop {
            stations,
            width: 10,
            offset: 0,
            compression: 1,
            time: shape,
            fixed: shape,
        };
        let mut sent = [7; 2];
        let fields = Fields {
            stations: &[0, 1][..counts[0]],
            arrivals: &[0, 9][..counts[1]],
            relatives: &[5, 5][..counts[2]],
            lengths: &[3, 4][..counts[3]],
            sent: &mut sent[..counts[4]],
        };
        let mut log = [0; 16 * 20];
        (run_fields(&shop, &[0, 1], fields, &mut log, budget), sent.to_vec())
    }

    #[test]
    fn fields_are_run_as_the_messages_that_they_make() {
        let closing = |done, events, slot, sent| Ok(Closing { done, events, slot, sent, late: 0 });
        assert_eq!(answer([2; 5], 2, 20), (closing(true, 8, 13, 2), vec![0, 9]));
        assert_eq!(answer([2; 5], 2, 1), (closing(false, 1, 3, 1), vec![0, UNSENT]));
        assert_eq!(answer([0; 5], 2, 1), (closing(true, 0, 0, 0), vec![7, 7]));
    }

    #[test]
    fn slices_of_unequal_length_are_refused_in_their_turn() {
        for short in 0..5 {
            let mut counts = [2; 5];
            counts[short] = 1;
            assert_eq!(answer(counts, 2, 0), (Err(Refusal(9)), vec![7, 7]));
            assert_eq!(answer(counts, 3, 0), (Err(Refusal(8)), vec![7, 7]));
        }
    }
}
