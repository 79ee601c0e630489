//! Deliberate errors, to show that the comparison can fail.
//!
//! Without the feature `wrong` every question below is answered no when the program is built, and nothing of this is
//! left in it. With it, the comparison chooses one error for the whole process.

/// An error that somebody might make, and the call that it spoils.
#[derive(Clone, Copy, Debug, PartialEq, Eq)]
#[repr(u8)]
pub enum Fault {
    /// Withdrawal: the entry behind a deleted one is skipped.
    WithdrawalSkips = 1,
    /// Withdrawal: the places behind the kept ones keep what they held.
    WithdrawalLeavesTail,
    /// Withdrawal: one too many is counted where anything was withdrawn.
    WithdrawalInvents,
    /// Withdrawal: more than 512 records are taken.
    WithdrawalTakesAll,
    /// Class: rounded to zero.
    ClassToZero,
    /// Class: the reference time is asked before the deadline.
    ClassOrder,
    /// Worst count: grows with k.
    WorstGrows,
    /// Worst count: k above t is answered.
    WorstTakesAnyCount,
    /// Placement: a cost that leaves out the silent slots.
    PlacementCost,
    /// Placement: a list that is too long is taken.
    PlacementTakesLongLists,
    /// Search: the last child is dropped when its siblings were silent.
    SearchDropsChild,
    /// Search: the log's room is not asked.
    SearchTakesAnyRoom,
    /// Search: a row is written behind the last one.
    SearchWritesBehind,
    /// Run: the root is searched again after a collision.
    RootAgain,
    /// Run: a station sends twice through one static index.
    IndexTwice,
    /// Run: who waits is frozen during a static search.
    StaticFrozen,
    /// Run: the reference time is set after each static sending.
    StaticReference,
    /// Run: the reference time does not grow after an empty time search.
    NoCompression,
    /// Run: a class equal to the subtree's end contends.
    ClassAtEnd,
    /// Run: static sendings do not count as sent in the time search.
    StaticNotCounted,
    /// Run: the later arrival goes first where deadlines are equal.
    LaterArrival,
    /// Run: a message that ends at its deadline is late.
    LateAtDeadline,
    /// Run: the budget is asked before the unsent messages.
    BudgetFirst,
    /// Run: the index table is asked before the numbers of the shop.
    TableBeforeNumbers,
    /// Run over fields: slices of unequal length are cut to the shortest.
    FieldsCut,
    /// Run over fields: the slots of sending are not handed back.
    FieldsUnmarked,
    /// Text: numbers may have eleven digits.
    ElevenDigits,
    /// Text: an empty last line is read over.
    EmptyLine,
}

impl Fault {
    /// The call that goes wrong.
    pub fn call(self) -> &'static str {
        use Fault::*;
        match self {
            WithdrawalSkips | WithdrawalLeavesTail | WithdrawalInvents | WithdrawalTakesAll => "withdraw",
            ClassToZero | ClassOrder => "class",
            WorstGrows | WorstTakesAnyCount => "worst_count",
            PlacementCost | PlacementTakesLongLists => "place",
            SearchDropsChild | SearchTakesAnyRoom | SearchWritesBehind => "search",
            FieldsCut | FieldsUnmarked => "run_fields",
            ElevenDigits | EmptyLine => "program",
            _ => "run",
        }
    }
}

/// Every fault, in order.
pub const ALL: [Fault; 28] = [
    Fault::WithdrawalSkips,
    Fault::WithdrawalLeavesTail,
    Fault::WithdrawalInvents,
    Fault::WithdrawalTakesAll,
    Fault::ClassToZero,
    Fault::ClassOrder,
    Fault::WorstGrows,
    Fault::WorstTakesAnyCount,
    Fault::PlacementCost,
    Fault::PlacementTakesLongLists,
    Fault::SearchDropsChild,
    Fault::SearchTakesAnyRoom,
    Fault::SearchWritesBehind,
    Fault::RootAgain,
    Fault::IndexTwice,
    Fault::StaticFrozen,
    Fault::StaticReference,
    Fault::NoCompression,
    Fault::ClassAtEnd,
    Fault::StaticNotCounted,
    Fault::LaterArrival,
    Fault::LateAtDeadline,
    Fault::BudgetFirst,
    Fault::TableBeforeNumbers,
    Fault::FieldsCut,
    Fault::FieldsUnmarked,
    Fault::ElevenDigits,
    Fault::EmptyLine,
];

#[cfg(feature = "wrong")]
static CHOSEN: std::sync::atomic::AtomicU8 = std::sync::atomic::AtomicU8::new(0);

/// Makes this process commit one error from now on.
#[cfg(feature = "wrong")]
pub fn choose(fault: Fault) {
    CHOSEN.store(fault as u8, std::sync::atomic::Ordering::Relaxed);
}

/// Whether this process commits the error.
#[cfg(feature = "wrong")]
pub fn commits(fault: Fault) -> bool {
    CHOSEN.load(std::sync::atomic::Ordering::Relaxed) == fault as u8
}

/// No error is compiled in.
#[cfg(not(feature = "wrong"))]
#[inline(always)]
pub fn commits(_: Fault) -> bool {
    false
}
