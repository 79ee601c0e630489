//! The numbers of a shop, and the checks of a run in their order.

use crate::fault::{commits, Fault};
use crate::message::{Message, MESSAGES_MAX};
use crate::refusal::{refuse_if, Refusal};
use crate::row::ROW;
use crate::tree::Tree;

pub const STATIONS_MAX: usize = 32;
pub const WIDTH_MAX: u32 = 1_000_000;
pub const OFFSET_MAX: u32 = 1_000_000;
pub const COMPRESSION_MAX: u32 = 8;
pub const BUDGET_MAX: u32 = 1_000_000;
/// The owner of a static index that nobody owns.
pub const FREE: u32 = 255;

/// Branches and leaves, not yet checked.
#[derive(Clone, Copy, Debug, PartialEq, Eq)]
pub struct Shape {
    pub branches: u32,
    pub leaves: u32,
}

/// What a run takes besides the index table, the messages and the log.
#[derive(Clone, Copy, Debug, PartialEq, Eq)]
pub struct Shop {
    pub stations: u32,
    /// The width of a class.
    pub width: u32,
    pub offset: u32,
    pub compression: u32,
    pub time: Shape,
    pub fixed: Shape,
}

/// The time tree and the static tree of a shop that may run.
pub struct Trees {
    pub time: Tree,
    pub fixed: Tree,
}

impl Shop {
    /// Every check of a run, the first that fails first.
    pub fn check(&self, owners: &[u32], messages: &[Message], log_room: usize, budget: u32) -> Result<Trees, Refusal> {
        let time = Tree::new(self.time.branches, self.time.leaves)?;
        let fixed = Tree::new(self.fixed.branches, self.fixed.leaves)?;
        refuse_if(!(1..=STATIONS_MAX as u32).contains(&self.stations), 6)?;
        if commits(Fault::TableBeforeNumbers) {
            refuse_if(!self.owns(fixed, owners), 8)?;
        }
        refuse_if(!self.numbers_fit(), 7)?;
        refuse_if(!self.owns(fixed, owners), 8)?;
        let fits = messages.len() <= MESSAGES_MAX && messages.iter().all(|one| one.fits(self.stations));
        refuse_if(!fits, 9)?;
        refuse_if(!(1..=BUDGET_MAX).contains(&budget), 10)?;
        refuse_if(log_room < ROW * budget as usize, 11)?;
        Ok(Trees { time, fixed })
    }

    fn numbers_fit(&self) -> bool {
        (1..=WIDTH_MAX).contains(&self.width) && self.offset <= OFFSET_MAX && self.compression <= COMPRESSION_MAX
    }

    /// Whether the table gives every index to a station or to nobody, and every station an index.
    fn owns(&self, fixed: Tree, owners: &[u32]) -> bool {
        let mut seen = 0_u64;
        for &owner in owners {
            if owner < self.stations {
                seen |= 1 << owner;
            } else if owner != FREE {
                return false;
            }
        }
        owners.len() == fixed.leaves() && seen == (1 << self.stations) - 1
    }
}
