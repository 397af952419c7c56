//! Settings, ranges and the grid.

pub const TOP_PRICE: u32 = 99_999;
pub const TOP_NUMBER: u64 = 999_999_999;
pub const TOP_QUANTITY: u64 = 1_000_000_000;
pub const TOP_MEMBER: u32 = 999;
pub const TOP_CAPACITY: usize = 4_096;
pub const TOP_TAPE: usize = 65_536;

#[derive(Clone, Copy, Debug, PartialEq, Eq)]
pub struct Settings {
    pub tick: u32,
    pub indicative: u32,
    pub absolute: u32,
    pub static_band: u32,
    pub last: u64,
}

impl Settings {
    /// The first two questions of making.
    pub fn grid(&self) -> Result<Grid, u8> {
        let bands = 1..=99;
        if !(1..=1_000).contains(&self.tick)
            || !bands.contains(&self.absolute)
            || !bands.contains(&self.static_band)
            || self.last > TOP_NUMBER
        {
            return Err(1);
        }
        if !(1..=TOP_PRICE).contains(&self.indicative) || self.indicative % self.tick != 0 {
            return Err(2);
        }
        let tick = self.tick;
        let highest = (self.indicative * (100 + self.absolute) / 100).min(TOP_PRICE);
        let lowest = (self.indicative * (100 - self.absolute)).div_ceil(100);
        Ok(Grid { tick, lowest: lowest.div_ceil(tick) * tick, highest: highest / tick * tick })
    }
}

/// Every multiple of the tick from the lowest to the highest price.
#[derive(Clone, Copy, Debug, PartialEq, Eq)]
pub struct Grid {
    pub tick: u32,
    pub lowest: u32,
    pub highest: u32,
}

impl Grid {
    pub fn points(&self) -> usize {
        ((self.highest - self.lowest) / self.tick + 1) as usize
    }

    /// For a price that is a multiple of the tick, as all accepted ones are.
    pub fn holds(&self, price: u32) -> bool {
        self.lowest <= price && price <= self.highest
    }
}
