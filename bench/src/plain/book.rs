//! The standing orders.
//!
//! Each side is a sorted row with its best order at the end, where it is read
//! and dropped at no cost. Whether an order is active never changes in a
//! session, so inactive orders are kept apart and never passed over.

use super::settings::TOP_CAPACITY;
use std::collections::HashMap;
use std::hash::{BuildHasherDefault, Hasher};

#[derive(Clone, Copy, Debug, PartialEq, Eq)]
pub enum Side {
    Buy,
    Sell,
}

impl Side {
    pub fn other(self) -> Side {
        match self {
            Side::Buy => Side::Sell,
            Side::Sell => Side::Buy,
        }
    }
}

/// A standing order as it is shown; a price of 0 is the mark market.
#[derive(Clone, Copy, Debug, PartialEq, Eq)]
pub struct Order {
    pub number: u64,
    pub member: u32,
    pub side: Side,
    pub price: u32,
    pub left: u64,
}

/// A smaller rank goes first.
#[derive(Clone, Copy, Debug)]
pub(super) struct Row {
    pub rank: u64,
    pub number: u32,
    pub left: u32,
}

/// Above every price, so that a buy's price falls as its rank grows.
const ABOVE: u32 = 100_000;

impl Row {
    /// A market order has 0 in the place of the price.
    pub fn is_market(&self) -> bool {
        self.rank >> 32 == 0
    }

    /// A market buy reads as a buy above every price.
    pub fn buy_price(&self) -> u32 {
        ABOVE - (self.rank >> 32) as u32
    }

    /// A market sell reads as a sell below every price.
    pub fn sell_price(&self) -> u32 {
        (self.rank >> 32) as u32
    }

    pub fn price(&self, side: Side) -> u32 {
        match side {
            Side::Buy => self.buy_price(),
            Side::Sell => self.sell_price(),
        }
    }
}

/// Where an order is found from its number.
#[derive(Clone, Copy, Debug)]
pub(super) struct Place {
    pub price: u32,
    pub member: u16,
    pub side: Side,
    pub active: bool,
}

/// Numbers are handed out one by one, so a multiplication spreads them.
#[derive(Default)]
pub struct Spread(u64);

impl Hasher for Spread {
    fn finish(&self) -> u64 {
        self.0
    }

    fn write(&mut self, bytes: &[u8]) {
        for byte in bytes {
            self.0 = (self.0 ^ *byte as u64).wrapping_mul(0x9E37_79B9_7F4A_7C15);
        }
    }

    fn write_u32(&mut self, number: u32) {
        self.0 = (number as u64).wrapping_mul(0x9E37_79B9_7F4A_7C15);
    }
}

pub struct Book<const FAULT: u8> {
    capacity: usize,
    active: [Vec<Row>; 2],
    idle: [Vec<Row>; 2],
    places: HashMap<u32, Place, BuildHasherDefault<Spread>>,
}

impl<const FAULT: u8> Book<FAULT> {
    pub fn new(capacity: usize) -> Self {
        let capacity = capacity.min(TOP_CAPACITY);
        Book {
            capacity,
            active: [Vec::with_capacity(capacity), Vec::with_capacity(capacity)],
            idle: [Vec::new(), Vec::new()],
            places: HashMap::with_capacity_and_hasher(capacity, Default::default()),
        }
    }

    pub fn capacity(&self) -> usize {
        self.capacity
    }

    pub fn standing(&self) -> usize {
        self.places.len()
    }

    /// All standing orders by number.
    pub fn orders(&self) -> Vec<Order> {
        let mut orders: Vec<Order> = self
            .active
            .iter()
            .chain(&self.idle)
            .flatten()
            .map(|row| {
                let place = self.places[&row.number];
                Order {
                    number: row.number as u64,
                    member: place.member as u32,
                    side: place.side,
                    price: place.price,
                    left: row.left as u64,
                }
            })
            .collect();
        orders.sort_unstable_by_key(|order| order.number);
        orders
    }

    fn rank(side: Side, price: u32, number: u32) -> u64 {
        let first = match (side, price) {
            (_, 0) => 0,
            (Side::Buy, price) => ABOVE - price,
            (Side::Sell, price) => price,
        };
        // Fault 1: of sells at one price the later goes first.
        let then = if FAULT == 1 && side == Side::Sell { !number } else { number };
        (first as u64) << 32 | then as u64
    }

    /// The active orders of a side, the best at the end.
    pub(super) fn side(&self, side: Side) -> &[Row] {
        &self.active[side as usize]
    }

    pub(super) fn place(&self, number: u64) -> Option<&Place> {
        self.places.get(&u32::try_from(number).ok()?)
    }

    /// Where in its row an order is or belongs.
    fn seat(&self, number: u32, place: &Place) -> usize {
        let rank = Self::rank(place.side, place.price, number);
        let rows = if place.active { &self.active } else { &self.idle };
        rows[place.side as usize].partition_point(|other| other.rank > rank)
    }

    fn row(&mut self, place: &Place) -> &mut Vec<Row> {
        let rows = if place.active { &mut self.active } else { &mut self.idle };
        &mut rows[place.side as usize]
    }

    pub(super) fn insert(&mut self, number: u32, left: u32, place: Place) {
        let rank = Self::rank(place.side, place.price, number);
        let at = self.seat(number, &place);
        self.row(&place).insert(at, Row { rank, number, left });
        self.places.insert(number, place);
    }

    /// Gives what was left of the order, which must stand.
    pub(super) fn remove(&mut self, number: u32) -> u32 {
        match self.places.remove(&number) {
            Some(place) => {
                let at = self.seat(number, &place);
                self.row(&place).remove(at).left
            }
            None => 0,
        }
    }

    /// Takes from the best active order of a side, and drops it at zero.
    pub(super) fn take_best(&mut self, side: Side, amount: u32) {
        let rows = &mut self.active[side as usize];
        if let Some(best) = rows.last_mut() {
            best.left -= amount;
            if best.left == 0 {
                self.places.remove(&best.number);
                rows.pop();
            }
        }
    }

    /// Drops the first `filled` orders of a side and takes `part` from the next.
    pub(super) fn take_first(&mut self, side: Side, filled: usize, part: u32) {
        let rows = &mut self.active[side as usize];
        let keep = rows.len() - filled;
        for row in rows.drain(keep..) {
            self.places.remove(&row.number);
        }
        if part > 0 {
            if let Some(next) = rows.last_mut() {
                next.left -= part;
            }
        }
    }

    /// How many market orders stand on a side; they are first in rank.
    pub(super) fn markets(&self, side: Side) -> usize {
        self.side(side).iter().rev().take_while(|row| row.is_market()).count()
    }

    /// Gives the best order of a side, a market order, a limit price.
    pub(super) fn turn_best(&mut self, side: Side, price: u32) {
        if let Some(row) = self.active[side as usize].pop() {
            if let Some(place) = self.places.get(&row.number).copied() {
                self.insert(row.number, row.left, Place { price, ..place });
            }
        }
    }

    /// Removes all market orders of a side.
    pub(super) fn drop_markets(&mut self, side: Side) -> Vec<Row> {
        let markets = self.markets(side);
        let rows = &mut self.active[side as usize];
        let gone = rows.split_off(rows.len() - markets);
        for row in &gone {
            self.places.remove(&row.number);
        }
        gone
    }

    pub(super) fn clear(&mut self) {
        for rows in self.active.iter_mut().chain(&mut self.idle) {
            rows.clear();
        }
        self.places.clear();
    }
}
