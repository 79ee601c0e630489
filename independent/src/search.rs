//! The bare search of a tree.

use crate::fault::{commits, Fault};
use crate::refusal::{refuse_if, Refusal};
use crate::row::{Phase, Row, State, NO_MESSAGE, ROW};
use crate::tree::{Tree, LEAVES_MAX};

/// Rows, silences and collisions of a bare search.
#[derive(Clone, Copy, Debug, Default, PartialEq, Eq)]
pub struct Found {
    pub rows: u32,
    pub silences: u32,
    pub collisions: u32,
}

/// Searches from the root with the leaves of value 1 active, and writes a row for each visit.
pub fn search(branches: u32, leaves: u32, active: &[u8], log: &mut [u8]) -> Result<Found, Refusal> {
    let tree = Tree::new(branches, leaves)?;
    refuse_if(active.len() != tree.leaves(), 3)?;
    refuse_if(active.iter().any(|&leaf| leaf > 1), 4)?;
    let room = log.len() >= ROW * tree.nodes() || commits(Fault::SearchTakesAnyRoom);
    refuse_if(!room, 11)?;
    let mut visits = Visits::new(active, log);
    visits.visit(branches as usize, 0, tree.leaves());
    if commits(Fault::SearchWritesBehind) {
        visits.log.iter_mut().take(1).for_each(|behind| behind[0] ^= 1);
    }
    Ok(visits.found)
}

/// A search under way.
struct Visits<'a> {
    /// How many leaves before each place are active.
    before: [u16; LEAVES_MAX + 1],
    /// The places that are left for rows.
    log: &'a mut [[u8; ROW]],
    found: Found,
}

impl<'a> Visits<'a> {
    fn new(active: &[u8], log: &'a mut [u8]) -> Self {
        let mut before = [0; LEAVES_MAX + 1];
        let mut sum = 0;
        for (place, &leaf) in active.iter().enumerate() {
            sum += u16::from(leaf);
            before[place + 1] = sum;
        }
        Visits { before, log: log.as_chunks_mut().0, found: Found::default() }
    }

    fn active(&self, first: usize, width: usize) -> u16 {
        self.before[first + width] - self.before[first]
    }

    fn visit(&mut self, branches: usize, first: usize, width: usize) {
        match self.active(first, width) {
            0 => {
                self.found.silences += 1;
                self.write(State::Silence, first, width, NO_MESSAGE);
            }
            1 => {
                let leaf = (first..first + width).find(|&leaf| self.active(leaf, 1) == 1);
                let leaf = leaf.map_or(NO_MESSAGE, |leaf| leaf as u16);
                self.write(State::Busy, first, width, leaf);
            }
            _ => {
                self.found.collisions += 1;
                self.write(State::Collision, first, width, NO_MESSAGE);
                self.children(branches, first, width);
            }
        }
    }

    fn children(&mut self, branches: usize, first: usize, width: usize) {
        let part = width / branches;
        let all = self.active(first, width);
        for child in (first..first + width).step_by(part) {
            let last = child + part == first + width;
            if commits(Fault::SearchDropsChild) && last && self.active(child, part) == all {
                return;
            }
            self.visit(branches, child, part);
        }
    }

    #[inline]
    fn write(&mut self, state: State, first: usize, width: usize, message: u16) {
        let row = Row {
            slot: self.found.rows,
            phase: Phase::Bare,
            state,
            first: first as u16,
            width: width as u16,
            message,
            used: 1,
        };
        self.found.rows += 1;
        // The room was asked before, so a row is never without a place.
        if let Some((place, rest)) = std::mem::take(&mut self.log).split_first_mut() {
            *place = row.bytes();
            self.log = rest;
        }
    }
}

#[cfg(test)]
mod tests {
    use super::*;

    fn searched(leaves: &[u8]) -> (Found, Vec<(u8, u16, u16, u16)>) {
        let mut log = vec![0xee; 7 * ROW];
        let found = search(2, 4, leaves, &mut log).unwrap();
        let (used, rest) = log.split_at(found.rows as usize * ROW);
        assert!(rest.iter().all(|&byte| byte == 0xee));
        let rows = used.as_chunks::<ROW>().0.iter().enumerate();
        let rows = rows.map(|(slot, row)| {
            assert_eq!(
                (row[0] as usize, row[4], row[12], row[13], row[14], row[15]),
                (slot, 3, 1, 0, 0, 0)
            );
            let word = |at| u16::from_le_bytes([row[at], row[at + 1]]);
            (row[5], word(6), word(8), word(10))
        });
        (found, rows.collect())
    }

    #[test]
    fn the_four_searches_of_the_rules() {
        let none = 65_535;
        assert_eq!(searched(&[0, 0, 0, 0]).1, [(0, 0, 4, none)]);
        assert_eq!(searched(&[0, 0, 0, 1]).1, [(1, 0, 4, 3)]);
        let (found, rows) = searched(&[1, 1, 0, 0]);
        assert_eq!((found.rows, found.silences, found.collisions), (5, 1, 2));
        let expected = [
            (2, 0, 4, none),
            (2, 0, 2, none),
            (1, 0, 1, 0),
            (1, 1, 1, 1),
            (0, 2, 2, none),
        ];
        assert_eq!(rows, expected);
        assert_eq!(searched(&[1, 0, 1, 0]).1, [(2, 0, 4, none), (1, 0, 2, 0), (1, 2, 2, 2)]);
    }

    #[test]
    fn refusals_come_in_order() {
        let mut log = [7; 7 * ROW];
        let mut number = |m, t, leaves: &[u8], room: usize| search(m, t, leaves, &mut log[..room]).unwrap_err().0;
        assert_eq!(number(1, 6, &[2], 0), 1);
        assert_eq!(number(2, 6, &[2], 0), 2);
        assert_eq!(number(2, 1, &[2], 0), 2);
        assert_eq!(number(2, 4, &[2], 0), 3);
        assert_eq!(number(2, 4, &[0, 0, 0, 0, 0], 0), 3);
        assert_eq!(number(2, 4, &[0, 0, 2, 0], 0), 4);
        assert_eq!(number(2, 4, &[0, 0, 0, 0], 7 * ROW - 1), 11);
        assert_eq!(log, [7; 7 * ROW]);
    }
}
