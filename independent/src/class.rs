//! The class of a message.

use crate::fault::{commits, Fault};
use crate::refusal::{refuse_if, Refusal};
use crate::shop::{OFFSET_MAX, WIDTH_MAX};

/// Largest absolute deadline and largest reference time that are asked about.
pub const DEADLINE_MAX: u32 = 2_000_000_000;
pub const REFERENCE_MAX: u64 = 5_000_000_000_000;

/// (deadline - offset - reference) / width, rounded down.
pub fn class(deadline: u32, offset: u32, reference: u64, width: u32) -> Result<i64, Refusal> {
    refuse_if(!(1..=WIDTH_MAX).contains(&width) || offset > OFFSET_MAX, 7)?;
    if commits(Fault::ClassOrder) {
        refuse_if(reference > REFERENCE_MAX, 12)?;
    }
    refuse_if(deadline > DEADLINE_MAX, 9)?;
    refuse_if(reference > REFERENCE_MAX, 12)?;
    let distance = i64::from(deadline) - i64::from(offset) - reference as i64;
    if commits(Fault::ClassToZero) {
        return Ok(distance / i64::from(width));
    }
    Ok(distance.div_euclid(i64::from(width)))
}

#[cfg(test)]
mod tests {
    use super::*;

    #[test]
    fn classes_are_rounded_down() {
        assert_eq!(class(9, 0, 10, 10), Ok(-1));
        assert_eq!(class(10, 0, 10, 10), Ok(0));
        assert_eq!(class(0, 0, 10, 10), Ok(-1));
        assert_eq!(class(0, 0, 11, 10), Ok(-2));
        assert_eq!(class(5, 3, 0, 1), Ok(2));
        assert_eq!(class(DEADLINE_MAX, 0, 0, 1), Ok(2_000_000_000));
        assert_eq!(class(0, OFFSET_MAX, REFERENCE_MAX, 1), Ok(-5_000_001_000_000));
    }

    #[test]
    fn refusals_come_in_order() {
        let (late, far) = (DEADLINE_MAX + 1, REFERENCE_MAX + 1);
        assert_eq!(class(late, 0, far, 0), Err(Refusal(7)));
        assert_eq!(class(late, 0, far, WIDTH_MAX + 1), Err(Refusal(7)));
        assert_eq!(class(late, OFFSET_MAX + 1, far, 1), Err(Refusal(7)));
        assert_eq!(class(late, 0, far, 1), Err(Refusal(9)));
        assert_eq!(class(0, 0, far, 1), Err(Refusal(12)));
    }
}
