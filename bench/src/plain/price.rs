//! The curve and the price rules.

use super::book::Row;
use super::settings::Grid;

#[derive(Clone, Copy, Debug, PartialEq, Eq)]
pub struct Point {
    pub price: u32,
    pub demand: u64,
    pub supply: u64,
}

impl Point {
    pub fn trades(&self) -> u64 {
        self.demand.min(self.supply)
    }

    pub fn surplus(&self) -> u64 {
        self.demand.abs_diff(self.supply)
    }
}

/// The market's rule, over which the session sets most traded.
#[derive(Clone, Copy, Debug, PartialEq, Eq)]
pub enum Rule {
    Nearest,
    /// Least surplus over middle.
    Middle,
}

impl Rule {
    /// By most traded over this rule.
    pub fn ahead(self, a: &Point, b: &Point) -> bool {
        if a.trades() != b.trades() {
            return a.trades() > b.trades();
        }
        self == Rule::Middle && a.surplus() < b.surplus()
    }

    /// A doubled price.
    pub fn target(self, lowest: &Point, highest: &Point, indicative: u32) -> u32 {
        match self {
            Rule::Nearest => 2 * indicative,
            Rule::Middle => {
                if lowest.demand > lowest.supply && highest.demand > highest.supply {
                    2 * highest.price
                } else if lowest.supply > lowest.demand && highest.supply > highest.demand {
                    2 * lowest.price
                } else {
                    lowest.price + highest.price
                }
            }
        }
    }
}

/// Writes the curve to the front of the scratch slice, which is long enough,
/// and gives the lowest and the highest best point.
///
/// Both sides are sorted by price, so demand and supply are a staircase that
/// is written step by step. Demand falls and supply rises with the price, so
/// the best points of either rule follow each other without a gap.
pub(super) fn curve(grid: &Grid, rule: Rule, buys: &[Row], sells: &[Row], scratch: &mut [Point]) -> (Point, Point) {
    let mut demand: u64 = buys.iter().map(|row| row.left as u64).sum();
    let mut supply: u64 = 0;
    let mut buys = buys.iter().peekable();
    let mut sells = sells.iter().rev().peekable();
    let end = grid.highest + grid.tick;
    let mut price = grid.lowest;
    let mut places = scratch.iter_mut();
    let mut best: Option<(Point, Point)> = None;
    while price < end {
        while let Some(sell) = sells.next_if(|row| row.sell_price() <= price) {
            supply += sell.left as u64;
        }
        while let Some(buy) = buys.next_if(|row| row.buy_price() < price) {
            demand -= buy.left as u64;
        }
        // The next price at which a sell comes in or a buy has fallen out.
        let mut until = end;
        if let Some(sell) = sells.peek() {
            until = until.min(sell.sell_price());
        }
        if let Some(buy) = buys.peek() {
            until = until.min(buy.buy_price() + grid.tick);
        }
        let first = Point { price, demand, supply };
        let steps = (until - price) / grid.tick;
        for place in places.by_ref().take(steps as usize) {
            *place = Point { price, demand, supply };
            price += grid.tick;
        }
        let last = Point { price: price - grid.tick, demand, supply };
        best = match best {
            Some((lowest, _)) if !rule.ahead(&first, &lowest) => {
                if rule.ahead(&lowest, &first) {
                    best
                } else {
                    Some((lowest, last))
                }
            }
            _ => Some((first, last)),
        };
    }
    let nothing = Point { price: grid.lowest, demand: 0, supply: 0 };
    best.unwrap_or((nothing, nothing))
}

/// The price from the lowest to the highest best one whose double is nearest
/// the target, the higher of two that are as near.
pub(super) fn nearest<const FAULT: u8>(lowest: u32, highest: u32, tick: u32, target: u32) -> u32 {
    let below = (target / 2 / tick * tick).clamp(lowest, highest);
    let above = (below + tick).min(highest);
    let (to_below, to_above) = ((2 * below).abs_diff(target), (2 * above).abs_diff(target));
    // Fault 6: the lower of two that are as near.
    if to_above < to_below || (FAULT != 6 && to_above == to_below) {
        above
    } else {
        below
    }
}
