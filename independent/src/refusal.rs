//! Refusals by their numbers.

/// Why an input is sent back: a number of the table of refusals.
#[derive(Clone, Copy, Debug, PartialEq, Eq)]
pub struct Refusal(pub u32);

/// Refuses with a number where something is wrong.
pub fn refuse_if(wrong: bool, number: u32) -> Result<(), Refusal> {
    if wrong {
        Err(Refusal(number))
    } else {
        Ok(())
    }
}
