//! Messages.

/// The slot of sending of a message that is not sent.
pub const UNSENT: u32 = 4_294_967_295;
/// Most messages of a shop.
pub const MESSAGES_MAX: usize = 512;

/// A record of the lent list.
#[derive(Clone, Copy, Debug, Default, PartialEq, Eq)]
#[repr(C)]
pub struct Message {
    pub station: u32,
    pub arrival: u32,
    /// The relative deadline.
    pub relative: u32,
    pub length: u32,
    /// The slot in which sending began, or [`UNSENT`].
    pub sent: u32,
}

impl Message {
    /// The absolute deadline. It fits: both parts are at most 1,000,000,000.
    pub fn deadline(&self) -> u32 {
        self.arrival + self.relative
    }

    /// Whether it is of one of the stations and has every number in its range.
    pub fn fits(&self, stations: u32) -> bool {
        self.station < stations
            && self.arrival <= 1_000_000_000
            && (1..=1_000_000_000).contains(&self.relative)
            && (1..=1_000).contains(&self.length)
    }
}
