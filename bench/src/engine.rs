//! The boundary to the Rattle engine: a whole day in one call.

#[repr(C)]
#[derive(Clone, Copy, Debug, PartialEq, Eq)]
pub struct RawCall {
    /// 0 order, 1 withdrawal, 2 random period, 3 auction, else close.
    pub kind: u32,
    /// 0 buy, else sell.
    pub side: u32,
    /// 0 none, 1 fill-or-kill, else immediate-or-cancel.
    pub condition: u32,
    /// 0 limit, else market.
    pub market: u32,
    pub member: u32,
    pub price: u32,
    pub quantity: u64,
    /// Of a withdrawal.
    pub number: u64,
}

#[repr(C)]
#[derive(Clone, Copy, Debug, PartialEq, Eq)]
pub struct RawAnswer {
    pub refusal: u64,
    pub answer: u64,
}

#[repr(C)]
#[derive(Clone, Copy, Debug, PartialEq, Eq)]
pub struct RawRecord {
    /// 0 trade, else withdrawal.
    pub kind: u64,
    /// Buy number, or the number withdrawn.
    pub first: u64,
    /// Sell number, or the reason.
    pub second: u64,
    /// 0 for a withdrawal.
    pub price: u64,
    pub quantity: u64,
}

#[repr(C)]
#[derive(Clone, Copy, Debug, PartialEq, Eq)]
pub struct RawPoint {
    pub price: u64,
    pub demand: u64,
    pub supply: u64,
}

#[repr(C)]
#[derive(Clone, Copy, Debug, PartialEq, Eq)]
pub struct RawOrder {
    pub number: u64,
    pub member: u64,
    /// 0 buy, 1 sell.
    pub side: u64,
    /// 0 market.
    pub price: u64,
    pub left: u64,
}

#[repr(C)]
#[derive(Clone, Copy, Debug, PartialEq, Eq)]
pub struct RawEnd {
    /// 0 pre-opening, 1 random, 2 called, 3 trading, 4 closed.
    pub phase: u64,
    pub reference: u64,
    pub last: u64,
    pub used: u64,
    pub standing: u64,
}

/// What a session is made of.
#[derive(Clone, Copy, Debug, PartialEq, Eq)]
pub struct Setup {
    /// 0 arrival, else ranked.
    pub table: u32,
    /// 0 nearest, else least surplus over middle.
    pub rule: u32,
    pub tick: u32,
    pub indicative: u32,
    pub absolute: u32,
    pub static_band: u32,
    pub last: u64,
    /// Length of the book's slice.
    pub capacity: usize,
}

/// Whether the Rattle engine is linked, or the plain one stands in for it.
pub const LINKED: bool = cfg!(feature = "rattle");

#[cfg(feature = "rattle")]
mod link {
    use super::*;

    extern "C" {
        pub fn nogdrut_day(
            table: u32,
            rule: u32,
            tick: u32,
            indicative: u32,
            absolute: u32,
            static_band: u32,
            last: u64,
            capacity: usize,
            calls: *const RawCall,
            calls_len: usize,
            answers: *mut RawAnswer,
            answers_len: usize,
            tape: *mut RawRecord,
            tape_len: usize,
            scratch: *mut RawPoint,
            scratch_len: usize,
            orders: *mut RawOrder,
            orders_len: usize,
            end: *mut RawEnd,
        ) -> u64;

        pub fn nogdrut_noop() -> u64;
    }
}

/// Makes a session over an empty book, runs the list once and copies all out.
///
/// Gives 0 when done, 1 to 3 when making is refused, 15 when the list is refused
/// (`orders` and `end` show the new session), and 99 without memory. A place
/// that no call writes keeps what it holds, as far as the engine's types hold it.
#[cfg(feature = "rattle")]
pub fn day(
    setup: &Setup,
    calls: &[RawCall],
    answers: &mut [RawAnswer],
    tape: &mut [RawRecord],
    scratch: &mut [RawPoint],
    orders: &mut [RawOrder],
    end: &mut RawEnd,
) -> u64 {
    // Each pointer comes from a slice with its own length, and the engine keeps
    // none of them.
    unsafe {
        link::nogdrut_day(
            setup.table,
            setup.rule,
            setup.tick,
            setup.indicative,
            setup.absolute,
            setup.static_band,
            setup.last,
            setup.capacity,
            calls.as_ptr(),
            calls.len(),
            answers.as_mut_ptr(),
            answers.len(),
            tape.as_mut_ptr(),
            tape.len(),
            scratch.as_mut_ptr(),
            scratch.len(),
            orders.as_mut_ptr(),
            orders.len(),
            end,
        )
    }
}

/// An empty call over the boundary.
#[cfg(feature = "rattle")]
pub fn noop() -> u64 {
    unsafe { link::nogdrut_noop() }
}

/// The plain engine in place of the Rattle one.
#[cfg(not(feature = "rattle"))]
pub fn day(
    setup: &Setup,
    calls: &[RawCall],
    answers: &mut [RawAnswer],
    tape: &mut [RawRecord],
    scratch: &mut [RawPoint],
    orders: &mut [RawOrder],
    end: &mut RawEnd,
) -> u64 {
    crate::plain_day::day::<0>(setup, calls, answers, tape, scratch, orders, end)
}

#[cfg(not(feature = "rattle"))]
pub fn noop() -> u64 {
    0
}
