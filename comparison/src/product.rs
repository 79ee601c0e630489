//! The proved calls, as include/mirvuttu.h declares them, behind functions that take slices.
//!
//! No call asks anything of its caller but what a slice is anyway: memory that may be read, or written by nobody else.

use independent::fields::Fields;
use independent::message::Message;
use independent::shop::Shop;

#[derive(Clone, Copy, Debug, Default, PartialEq, Eq)]
#[repr(C)]
pub struct SearchNumbers {
    pub refusal: u32,
    pub rows: u32,
    pub silences: u32,
    pub collisions: u32,
}

#[derive(Clone, Copy, Debug, Default, PartialEq, Eq)]
#[repr(C)]
pub struct CountNumbers {
    pub refusal: u32,
    pub slots: u32,
}

#[derive(Clone, Copy, Debug, Default, PartialEq, Eq)]
#[repr(C)]
pub struct ClassNumbers {
    pub class: i64,
    pub refusal: u32,
}

#[derive(Clone, Copy, Debug, Default, PartialEq, Eq)]
#[repr(C)]
pub struct RunNumbers {
    pub refusal: u32,
    pub done: bool,
    pub events: u32,
    pub slot: u32,
    pub sent: u32,
    pub late: u32,
}

#[derive(Clone, Copy, Debug, Default, PartialEq, Eq)]
#[repr(C)]
pub struct WithdrawalNumbers {
    pub refusal: u32,
    pub kept: u32,
    pub withdrawn: u32,
}

#[repr(C)]
struct Numbers {
    stations: u32,
    width: u32,
    offset: u32,
    compression: u32,
    time: [u32; 2],
    index: [u32; 2],
}

extern "C" {
    fn mirvuttu_search(m: u32, t: u32, leaves: *const u8, count: usize, log: *mut u8, room: usize) -> SearchNumbers;
    fn mirvuttu_worst_count(m: u32, t: u32, k: u32) -> CountNumbers;
    fn mirvuttu_place(m: u32, t: u32, k: u32, leaves: *mut u8, count: usize) -> u32;
    fn mirvuttu_class(deadline: u32, offset: u32, reference: u64, width: u32) -> ClassNumbers;
    fn mirvuttu_run(
        shop: Numbers,
        owners: *const u32,
        owners_count: usize,
        messages: *mut Message,
        messages_count: usize,
        log: *mut u8,
        room: usize,
        budget: u32,
    ) -> RunNumbers;
    fn mirvuttu_run_fields(
        shop: Numbers,
        owners: *const u32,
        owners_count: usize,
        stations: *const u32,
        stations_count: usize,
        arrivals: *const u32,
        arrivals_count: usize,
        relatives: *const u32,
        relatives_count: usize,
        lengths: *const u32,
        lengths_count: usize,
        sent: *mut u32,
        sent_count: usize,
        log: *mut u8,
        room: usize,
        budget: u32,
    ) -> RunNumbers;
    fn mirvuttu_withdraw(messages: *mut Message, count: usize, station: u32) -> WithdrawalNumbers;
    fn mirvuttu_answer(input: *const u8, count: usize, output: *mut u8, room: usize) -> usize;
}

fn numbers(shop: &Shop) -> Numbers {
    Numbers {
        stations: shop.stations,
        width: shop.width,
        offset: shop.offset,
        compression: shop.compression,
        time: [shop.time.branches, shop.time.leaves],
        index: [shop.fixed.branches, shop.fixed.leaves],
    }
}

pub fn search(m: u32, t: u32, leaves: &[u8], log: &mut [u8]) -> SearchNumbers {
    unsafe { mirvuttu_search(m, t, leaves.as_ptr(), leaves.len(), log.as_mut_ptr(), log.len()) }
}

pub fn worst_count(m: u32, t: u32, k: u32) -> CountNumbers {
    unsafe { mirvuttu_worst_count(m, t, k) }
}

pub fn place(m: u32, t: u32, k: u32, leaves: &mut [u8]) -> u32 {
    unsafe { mirvuttu_place(m, t, k, leaves.as_mut_ptr(), leaves.len()) }
}

pub fn class(deadline: u32, offset: u32, reference: u64, width: u32) -> ClassNumbers {
    unsafe { mirvuttu_class(deadline, offset, reference, width) }
}

pub fn run(shop: &Shop, owners: &[u32], messages: &mut [Message], log: &mut [u8], budget: u32) -> RunNumbers {
    unsafe {
        mirvuttu_run(
            numbers(shop),
            owners.as_ptr(),
            owners.len(),
            messages.as_mut_ptr(),
            messages.len(),
            log.as_mut_ptr(),
            log.len(),
            budget,
        )
    }
}

pub fn run_fields(shop: &Shop, owners: &[u32], fields: Fields, log: &mut [u8], budget: u32) -> RunNumbers {
    unsafe {
        mirvuttu_run_fields(
            numbers(shop),
            owners.as_ptr(),
            owners.len(),
            fields.stations.as_ptr(),
            fields.stations.len(),
            fields.arrivals.as_ptr(),
            fields.arrivals.len(),
            fields.relatives.as_ptr(),
            fields.relatives.len(),
            fields.lengths.as_ptr(),
            fields.lengths.len(),
            fields.sent.as_mut_ptr(),
            fields.sent.len(),
            log.as_mut_ptr(),
            log.len(),
            budget,
        )
    }
}

pub fn withdraw(messages: &mut [Message], station: u32) -> WithdrawalNumbers {
    unsafe { mirvuttu_withdraw(messages.as_mut_ptr(), messages.len(), station) }
}

pub fn answer(input: &[u8], output: &mut [u8]) -> usize {
    unsafe { mirvuttu_answer(input.as_ptr(), input.len(), output.as_mut_ptr(), output.len()) }
}
