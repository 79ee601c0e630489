//! Withdrawal of a station.

use crate::fault::{commits, Fault};
use crate::message::{Message, MESSAGES_MAX};
use crate::refusal::{refuse_if, Refusal};

/// How many records were kept and how many withdrawn.
#[derive(Clone, Copy, Debug, PartialEq, Eq)]
pub struct Withdrawn {
    pub kept: u32,
    pub withdrawn: u32,
}

/// Takes a station's records out of the list. The kept ones move to the front, and zeros follow.
pub fn withdraw(messages: &mut [Message], station: u32) -> Result<Withdrawn, Refusal> {
    refuse_if(station > 31, 6)?;
    refuse_if(messages.len() > MESSAGES_MAX && !commits(Fault::WithdrawalTakesAll), 9)?;
    let kept = compact(messages, station);
    let withdrawn = messages.len() - kept;
    if !commits(Fault::WithdrawalLeavesTail) {
        messages[kept..].fill(Message::default());
    }
    let invented = commits(Fault::WithdrawalInvents) && withdrawn > 0;
    Ok(Withdrawn {
        kept: kept as u32,
        withdrawn: withdrawn as u32 + u32::from(invented),
    })
}

/// Moves the kept records to the front and says how many they are.
fn compact(messages: &mut [Message], station: u32) -> usize {
    let mut kept = 0;
    let mut deleted_before = false;
    for place in 0..messages.len() {
        // Every record is copied, and the copy of one that goes is overwritten by the next.
        let record = messages[place];
        let skipped = commits(Fault::WithdrawalSkips) && deleted_before;
        let goes = record.station == station && !skipped;
        messages[kept] = record;
        kept += usize::from(!goes);
        deleted_before = goes;
    }
    kept
}

#[cfg(test)]
mod tests {
    use super::*;

    fn list(stations: &[u32]) -> Vec<Message> {
        let numbered = stations.iter().zip(1..);
        let record = |(&station, number)| Message {
            station,
            arrival: number,
            relative: number,
            length: number,
            sent: number,
        };
        numbered.map(record).collect()
    }

    #[test]
    fn kept_records_move_to_the_front_and_zeros_follow() {
        let mut messages = list(&[3, 1, 1, 2, 1, 0]);
        let before = messages.clone();
        let answer = withdraw(&mut messages, 1);
        assert_eq!(answer, Ok(Withdrawn { kept: 3, withdrawn: 3 }));
        assert_eq!(messages[..3], [before[0], before[3], before[5]]);
        assert_eq!(messages[3..], [Message::default(); 3]);
    }

    #[test]
    fn a_station_without_records_changes_nothing() {
        let mut messages = list(&[3, 1, 2]);
        let before = messages.clone();
        assert_eq!(withdraw(&mut messages, 0), Ok(Withdrawn { kept: 3, withdrawn: 0 }));
        assert_eq!(messages, before);
        assert_eq!(withdraw(&mut [], 31), Ok(Withdrawn { kept: 0, withdrawn: 0 }));
    }

    #[test]
    fn refusals_come_in_order_and_change_nothing() {
        let mut messages = list(&[1; 513]);
        let before = messages.clone();
        assert_eq!(withdraw(&mut messages, 32), Err(Refusal(6)));
        assert_eq!(withdraw(&mut messages, 31), Err(Refusal(9)));
        assert_eq!(messages, before);
        assert_eq!(
            withdraw(&mut messages[..512], 1),
            Ok(Withdrawn { kept: 0, withdrawn: 512 })
        );
    }
}
