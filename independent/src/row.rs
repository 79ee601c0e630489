//! Rows of the log.

/// Bytes of a row.
pub const ROW: usize = 16;
/// What stands in a row where no message was sent.
pub const NO_MESSAGE: u16 = 65_535;

/// What the wire was in a slot.
#[derive(Clone, Copy, Debug, PartialEq, Eq)]
#[repr(u8)]
pub enum State {
    Silence = 0,
    Busy = 1,
    Collision = 2,
}

/// The phase that a row tells of.
#[derive(Clone, Copy, Debug, PartialEq, Eq)]
#[repr(u8)]
pub enum Phase {
    Free = 0,
    Time = 1,
    Static = 2,
    Bare = 3,
}

/// One event, or one visit of a bare search.
#[derive(Clone, Copy, Debug)]
pub struct Row {
    pub slot: u32,
    pub phase: Phase,
    pub state: State,
    pub first: u16,
    pub width: u16,
    pub message: u16,
    pub used: u16,
}

impl Row {
    /// Its 16 bytes, put together as one number whose low byte comes first.
    #[inline]
    pub fn bytes(&self) -> [u8; ROW] {
        let low =
            u64::from(self.slot) | (self.phase as u64) << 32 | (self.state as u64) << 40 | u64::from(self.first) << 48;
        let high = u64::from(self.width) | u64::from(self.message) << 16 | u64::from(self.used) << 32;
        (u128::from(low) | u128::from(high) << 64).to_le_bytes()
    }
}

#[cfg(test)]
mod tests {
    use super::*;

    #[test]
    fn every_field_stands_at_its_place_low_byte_first() {
        let row = Row {
            slot: 0x0403_0201,
            phase: Phase::Static,
            state: State::Busy,
            first: 0x0605,
            width: 0x0807,
            message: 0x0a09,
            used: 0x0c0b,
        };
        assert_eq!(row.bytes(), [1, 2, 3, 4, 2, 1, 5, 6, 7, 8, 9, 10, 11, 12, 0, 0]);
    }
}
