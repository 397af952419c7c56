//! Random days. The plain engine runs along while a list is made, so that the
//! calls suit the phase and the orders that stand.

use crate::engine::{RawAnswer, RawCall, RawEnd, RawOrder, RawPoint, RawRecord, Setup};
use crate::plain::{Answer, Condition, Order, Phase, Point, Record, Session};
use crate::plain_day;
use crate::random::Random;

#[derive(Clone, Debug, PartialEq, Eq)]
pub struct Case {
    pub setup: Setup,
    pub calls: Vec<RawCall>,
    /// Lengths of the slices.
    pub answers: usize,
    pub tape: usize,
    pub scratch: usize,
    pub orders: usize,
    /// Interruptions by condition: none, fill-or-kill, immediate-or-cancel.
    pub interruptions: [u64; 3],
}

/// What a day leaves in its slices.
#[derive(Clone, Debug, PartialEq, Eq)]
pub struct Outcome {
    pub status: u64,
    pub answers: Vec<RawAnswer>,
    pub tape: Vec<RawRecord>,
    pub scratch: Vec<RawPoint>,
    pub orders: Vec<RawOrder>,
    pub end: RawEnd,
}

pub fn marked_record(at: usize) -> RawRecord {
    let i = at as u64 % 1_000;
    if at % 2 == 0 {
        RawRecord { kind: 0, first: 800_000_000 + i, second: 800_001_000 + i, price: 1 + i, quantity: 1 + i }
    } else {
        RawRecord { kind: 1, first: 800_000_000 + i, second: 1 + i % 5, price: 0, quantity: 1 + i }
    }
}

pub fn marked_point(at: usize) -> RawPoint {
    let i = at as u64 % 1_000;
    RawPoint { price: 1 + i, demand: 1_234_000 + i, supply: 4_321_000 + i }
}

pub fn marked_answer(at: usize) -> RawAnswer {
    RawAnswer { refusal: at as u64 % 16, answer: 777_000 + at as u64 % 1_000 }
}

pub fn marked_order(at: usize) -> RawOrder {
    let i = at as u64 % 900;
    RawOrder { number: 700_000_000 + i, member: 1 + i, side: i % 2, price: 1 + i, left: 1 + i }
}

impl Outcome {
    /// Slices with contents that tell when a place was not to be written.
    pub fn marked(case: &Case) -> Outcome {
        Outcome {
            status: 0,
            answers: (0..case.answers).map(marked_answer).collect(),
            tape: (0..case.tape).map(marked_record).collect(),
            scratch: (0..case.scratch).map(marked_point).collect(),
            orders: (0..case.orders).map(marked_order).collect(),
            end: RawEnd { phase: 91, reference: 92, last: 93, used: 94, standing: 95 },
        }
    }
}

pub type Day =
    fn(&Setup, &[RawCall], &mut [RawAnswer], &mut [RawRecord], &mut [RawPoint], &mut [RawOrder], &mut RawEnd) -> u64;

pub fn run(day: Day, case: &Case) -> Outcome {
    let mut out = Outcome::marked(case);
    out.status =
        day(&case.setup, &case.calls, &mut out.answers, &mut out.tape, &mut out.scratch, &mut out.orders, &mut out.end);
    out
}

/// The day that the list runs along with.
struct Maker<'a> {
    random: &'a mut Random,
    session: Session,
    tape: Vec<Record>,
    scratch: Vec<Point>,
    calls: Vec<RawCall>,
    interruptions: [u64; 3],
    standing: Vec<Order>,
    /// Auctions refused for want of places; a day seldom goes on from there.
    stuck: u64,
    /// Percent of strange contents.
    odd: u64,
    /// Percent of orders with a condition.
    conditions: u64,
    /// Percent of market orders.
    markets: u64,
    /// In a thousand calls.
    close: u64,
    /// Percent of calls that end pre-opening, and the random period.
    shut: u64,
    strike: u64,
    /// The static band.
    band: u32,
}

const BLANK: RawCall =
    RawCall { kind: 0, side: 0, condition: 0, market: 0, member: 1, price: 0, quantity: 0, number: 0 };

impl<'a> Maker<'a> {
    fn new(random: &'a mut Random, setup: &Setup, session: Session, tape: usize, scratch: usize) -> Maker<'a> {
        Maker {
            odd: random.pick(&[0, 1, 1, 2, 8]),
            conditions: random.pick(&[0, 20, 30, 60]),
            markets: random.pick(&[5, 15, 20, 40]),
            close: random.pick(&[0, 5, 10, 40]),
            shut: random.pick(&[5, 10, 20, 30]),
            strike: random.pick(&[20, 50, 80]),
            random,
            session,
            tape: (0..tape).map(|at| plain_day::record(&marked_record(at))).collect(),
            scratch: vec![Point { price: 1, demand: 0, supply: 0 }; scratch],
            calls: Vec::new(),
            interruptions: [0; 3],
            standing: Vec::new(),
            stuck: 0,
            band: setup.static_band,
        }
    }

    fn push(&mut self, raw: RawCall) {
        let call = plain_day::call(&raw);
        let before = self.session.phase();
        let mut answer = [Answer { refusal: 0, answer: 0 }];
        self.session.run(&[call], &mut answer, &mut self.tape, &mut self.scratch);
        if before == Phase::Trading && self.session.phase() == Phase::PreOpening {
            if let crate::plain::Call::Order { condition, .. } = call {
                self.interruptions[match condition {
                    Condition::None => 0,
                    Condition::FillOrKill => 1,
                    Condition::ImmediateOrCancel => 2,
                }] += 1;
            }
        }
        if answer[0].refusal == 0 && raw.kind != 2 {
            self.standing = self.session.orders();
        }
        if raw.kind == 3 && matches!(answer[0].refusal, 11 | 14) {
            self.stuck += 1;
        }
        self.calls.push(raw);
    }

    fn some_order(&mut self) -> Option<Order> {
        if self.standing.is_empty() {
            return None;
        }
        // Late orders are more often the ones of interest.
        let last = self.standing.len() as u64;
        let at =
            if self.random.chance(50) { self.random.below(last) } else { last - 1 - self.random.below(last.min(4)) };
        Some(self.standing[at as usize])
    }

    fn member(&mut self) -> u32 {
        if self.random.below(100) < self.odd {
            return self.random.pick(&[0, 1_000, 1_001, 65_537, u32::MAX]);
        }
        match self.random.below(20) {
            0 => 999,
            1 => self.random.range(1, 999) as u32,
            _ => self.random.range(1, 4) as u32,
        }
    }

    fn quantity(&mut self) -> u64 {
        if self.random.below(100) < self.odd {
            return self.random.pick(&[0, 1_000_000_001, 1 << 32, (1 << 32) + 5, u64::MAX]);
        }
        match self.random.below(20) {
            0..=10 => self.random.range(1, 6),
            11..=13 => self.some_order().map_or(5, |order| order.left),
            14 => {
                let two = [self.some_order(), self.some_order()];
                two.iter().flatten().map(|order| order.left).sum::<u64>().clamp(1, 1_000_000_000)
            }
            15..=18 => self.random.range(1, 60),
            _ => self.random.pick(&[1_000_000_000, 999_999_999, 500_000_000, 1]),
        }
    }

    fn price(&mut self) -> u32 {
        let grid = self.session.grid();
        let tick = grid.tick as i64;
        let reference = self.session.reference() as i64;
        if self.random.below(100) < self.odd {
            let over = (99_999 / grid.tick + 1) * grid.tick;
            return match self.random.below(6) {
                0 => 0,
                1 => over,
                2 => 100_000,
                3 => u32::MAX,
                4 => u32::MAX / grid.tick * grid.tick,
                _ => grid.lowest + 1,
            };
        }
        let around = |random: &mut Random, ticks: u64| (random.range(0, 2 * ticks) as i64 - ticks as i64) * tick;
        let price = match self.random.below(100) {
            0..=44 => reference + around(self.random, 3),
            45..=64 => {
                let ticks = (grid.highest - grid.lowest) / grid.tick;
                grid.lowest as i64 + (self.random.range(0, ticks as u64 + 4) as i64 - 2) * tick
            }
            65..=79 => {
                let band = self.band as i64;
                let edge = if self.random.chance(50) { reference * (100 + band) } else { reference * (100 - band) };
                let off = if self.random.chance(60) { 0 } else { around(self.random, 1) };
                edge / 100 / tick * tick + off
            }
            80..=95 => self.some_order().map_or(reference, |order| order.price as i64),
            96 => tick,
            97 => 99_999,
            98 => grid.highest as i64,
            _ => grid.lowest as i64,
        };
        (price.clamp(tick, 99_999) / tick * tick) as u32
    }

    fn order(&mut self) -> RawCall {
        let conditions = if self.session.phase() == Phase::Trading { self.conditions } else { 4 };
        let sell = if self.random.chance(5) { self.random.pick(&[2, u32::MAX]) } else { 1 };
        RawCall {
            kind: 0,
            side: if self.random.chance(50) { 0 } else { sell },
            condition: match self.random.chance(conditions) {
                true => self.random.pick(&[1, 1, 1, 2, 2, 2, 3, u32::MAX]),
                false => 0,
            },
            market: match self.random.chance(self.markets) {
                true => self.random.pick(&[1, 1, 1, 1, 2, u32::MAX]),
                false => 0,
            },
            member: self.member(),
            price: self.price(),
            quantity: self.quantity(),
            number: self.random.below(5),
        }
    }

    fn withdrawal(&mut self) -> RawCall {
        let mut raw = RawCall { kind: 1, ..BLANK };
        match self.some_order() {
            Some(order) if self.random.chance(85) => {
                raw.number = order.number;
                raw.member = order.member;
                if self.random.chance(15) {
                    raw.member = self.random.pick(&[0, 1, 2, 3, 999, 1_000, order.member + 65_536, u32::MAX]);
                }
                if self.random.chance(4) {
                    // The same in its lower half only.
                    raw.number += 1 << 32;
                }
            }
            _ => {
                let last = self.session.last();
                let own = self.random.below(last + 2);
                raw.number = self.random.pick(&[0, last, last + 1, own, 1_000_000_000, u64::MAX]);
                raw.member = self.member();
            }
        }
        raw
    }

    /// A call that suits the phase, mostly.
    fn step(&mut self) {
        let of = |kind: u32| RawCall { kind, ..BLANK };
        let at = self.random.below(100);
        let close = self.random.below(1_000) < self.close;
        let raw = match self.session.phase() {
            _ if close => of(self.random.pick(&[4, 4, 4, 4, 5, u32::MAX])),
            Phase::PreOpening if self.random.chance(self.shut) => of(2),
            Phase::PreOpening => match at {
                0..=85 => self.order(),
                86..=97 => self.withdrawal(),
                _ => of(3),
            },
            Phase::Random | Phase::Called if self.random.chance(self.strike) => of(3),
            Phase::Random | Phase::Called => match at {
                0..=86 => self.order(),
                87..=94 => self.withdrawal(),
                _ => of(2),
            },
            Phase::Trading => match at {
                0..=86 => self.order(),
                87..=96 => self.withdrawal(),
                97..=98 => of(2),
                _ => of(3),
            },
            Phase::Closed => match at {
                0..=39 => self.order(),
                40..=59 => self.withdrawal(),
                60..=74 => of(2),
                75..=89 => of(3),
                _ => of(4),
            },
        };
        self.push(raw);
    }
}

fn setup(random: &mut Random) -> Setup {
    let tick = match random.below(10) {
        0..=4 => 1,
        5 => 2,
        6 => 5,
        7 => 10,
        8 => random.range(1, 1_000) as u32,
        _ => random.pick(&[3, 7, 25, 100, 250, 1_000]),
    };
    let most = 99_999 / tick;
    let mut absolute = random.range(5, 45) as u32;
    let steps = match random.below(100) {
        // Where percents and ticks meet exactly, the ends of bands are hit.
        0..=44 => random.pick(&[4, 5, 10, 20, 25, 50]),
        45..=74 => random.range(1, 30) as u32,
        75..=84 => 100,
        85..=89 => {
            absolute = random.range(1, 3) as u32;
            most - random.below(20) as u32
        }
        90..=98 => random.range(1, 400) as u32,
        _ if tick == 1 && random.chance(30) => {
            // The grid with the most prices.
            absolute = 99;
            50_251
        }
        _ => {
            absolute = random.range(1, 99) as u32;
            random.range(1, most as u64) as u32
        }
    }
    .clamp(1, most);
    if random.chance(10) {
        absolute = random.pick(&[1, 2, 50, 98, 99]);
    }
    let static_band = if random.chance(65) {
        // As wide as a few ticks.
        let off = random.pick(&[1, 1, 1, 1, 0, 2]);
        (100 * random.range(1, 5) / steps as u64 + off).saturating_sub(1).clamp(1, 99) as u32
    } else if random.chance(50) {
        random.range(1, 30) as u32
    } else {
        random.range(1, 99) as u32
    };
    let last = match random.below(20) {
        0 => 999_999_999 - random.below(25),
        1 => random.below(999_999_999),
        2 => 999_999_999 - random.below(3),
        _ => random.below(3),
    };
    Setup {
        table: random.pick(&[0, 0, 0, 0, 1, 1, 2, u32::MAX]),
        rule: random.pick(&[0, 0, 0, 0, 1, 1, 2, u32::MAX]),
        tick,
        indicative: steps * tick,
        absolute,
        static_band,
        last,
        capacity: match random.below(20) {
            0..=1 => random.below(3) as usize,
            2..=11 => random.range(2, 12) as usize,
            12..=18 => random.range(8, 60) as usize,
            _ => random.pick(&[200, 4_096, 4_097, 100_000, usize::MAX]),
        },
    }
}

/// Takes one setting, or two, out of range.
fn spoil(random: &mut Random, setup: &mut Setup) {
    for _ in 0..random.range(1, 2) {
        match random.below(7) {
            0 => setup.tick = random.pick(&[0, 1_001, 2_000, u32::MAX]),
            1 => setup.absolute = random.pick(&[0, 100, 101, u32::MAX]),
            2 => setup.static_band = random.pick(&[0, 100, 101, u32::MAX]),
            3 => setup.last = random.pick(&[1_000_000_000, 1_000_000_001, 1 << 32, u64::MAX]),
            _ => {
                let off = setup.indicative.wrapping_add(1);
                setup.indicative = random.pick(&[0, off, off, 100_000, 99_999 + setup.tick % 5_000, u32::MAX]);
            }
        }
    }
}

/// Finishes a list that was made with these lengths.
fn case(maker: Maker, setup: Setup, tape: usize, scratch: usize) -> Case {
    let orders = match maker.random.below(4) {
        0 => maker.random.below(4) as usize,
        _ => maker.session.standing() + maker.random.below(4) as usize,
    };
    let calls = maker.calls.len() as u64;
    let answers = match maker.random.below(100) {
        0..=1 => maker.random.below(calls + 1),
        2 => calls.saturating_sub(1),
        3..=25 => calls + maker.random.below(5),
        _ => calls,
    };
    Case {
        setup,
        calls: maker.calls,
        answers: answers as usize,
        tape,
        scratch,
        orders,
        interruptions: maker.interruptions,
    }
}

/// Any list: mostly short days on small grids, with every slice too short now
/// and then.
fn short_day(random: &mut Random) -> Case {
    let mut setup = setup(random);
    let mut spoiled = setup;
    if random.chance(3) {
        spoil(random, &mut spoiled);
    }
    let Ok(session) = Session::new(plain_day::settings(&spoiled), setup.capacity, plain_day::rule(&setup)) else {
        return refused_making(random, spoiled);
    };
    // What was spoiled can have stayed lawful.
    setup = spoiled;
    let length = match random.below(20) {
        0 => random.below(4),
        1..=14 => random.range(5, 45),
        15..=18 => random.range(30, 90),
        _ => random.range(100, 250),
    };
    let tape = match random.below(20) {
        0..=12 => 2 * length + 40,
        13..=15 => random.below(40),
        16..=18 => random.below(12),
        _ => random.below(3),
    } as usize;
    let points = session.grid().points() as u64;
    let scratch = match random.below(40) {
        0 => 0,
        1 => points - 1,
        2 => random.below(points),
        3..=20 => points,
        _ => points + random.below(6),
    } as usize;
    let mut maker = Maker::new(random, &setup, session, tape, scratch);
    for _ in 0..length {
        maker.step();
        let over = maker.session.phase() == Phase::Closed || maker.stuck > 1;
        if over && maker.random.chance(25) {
            break;
        }
    }
    case(maker, setup, tape, scratch)
}

/// A few calls that must never run.
fn refused_making(random: &mut Random, setup: Setup) -> Case {
    let calls: Vec<RawCall> = (0..random.below(6))
        .map(|_| RawCall { kind: random.below(5) as u32, quantity: 5, price: 10, ..BLANK })
        .collect();
    Case {
        setup,
        answers: random.below(8) as usize,
        calls,
        tape: random.below(8) as usize,
        scratch: random.below(300) as usize,
        orders: random.below(4) as usize,
        interruptions: [0; 3],
    }
}

const BASE: Setup =
    Setup { table: 0, rule: 0, tick: 1, indicative: 100, absolute: 20, static_band: 10, last: 0, capacity: 12 };

/// A day that comes to the end of the longest tape.
fn full_tape(random: &mut Random) -> Case {
    let setup = Setup { table: random.below(2) as u32, rule: random.below(2) as u32, ..BASE };
    let tape = random.pick(&[65_530, 65_535, 65_536, 65_537, 65_600, 70_000]);
    let session = Session::new(plain_day::settings(&setup), setup.capacity, plain_day::rule(&setup)).unwrap();
    let mut maker = Maker::new(random, &setup, session, tape, 41);
    maker.push(RawCall { kind: 2, ..BLANK });
    maker.push(RawCall { kind: 3, ..BLANK });
    while maker.session.used() < 65_490 {
        let side = maker.random.below(2) as u32;
        let price = maker.random.range(95, 105) as u32;
        let raw = RawCall { side, price, quantity: 5, ..BLANK };
        // A pair that trades whole, or an order with nothing opposite.
        if maker.random.chance(30) {
            maker.push(raw);
            maker.push(RawCall { side: 1 - side, ..raw });
        } else {
            maker.push(RawCall { condition: 2, ..raw });
        }
    }
    for _ in 0..250 {
        maker.step();
    }
    case(maker, setup, tape, 41)
}

/// A day whose book comes to the largest capacity.
fn full_book(random: &mut Random) -> Case {
    let setup = Setup {
        table: random.below(2) as u32,
        rule: random.below(2) as u32,
        capacity: random.pick(&[4_095, 4_096, 4_097, 6_000, usize::MAX]),
        ..BASE
    };
    let tape = 14_000;
    let session = Session::new(plain_day::settings(&setup), setup.capacity, plain_day::rule(&setup)).unwrap();
    let mut maker = Maker::new(random, &setup, session, tape, 41);
    for _ in 0..4_100 {
        let raw = RawCall {
            side: maker.random.below(2) as u32,
            price: maker.random.range(78, 122) as u32,
            market: maker.random.chance(5) as u32,
            quantity: maker.random.range(1, 50),
            member: maker.random.range(1, 9) as u32,
            ..BLANK
        };
        maker.push(raw);
    }
    // An auction of so many orders takes the arrival table minutes.
    if setup.table == 1 {
        for _ in 0..60 {
            maker.step();
        }
    }
    maker.push(RawCall { kind: 4, ..BLANK });
    case(maker, setup, tape, 41)
}

/// The list with this number of a seed.
pub fn random_case(seed: u64, at: u64) -> Case {
    let mut random = Random::new(seed, at);
    match at % 10_000 {
        2_500 => full_book(&mut random),
        5_000 => full_tape(&mut random),
        _ => short_day(&mut random),
    }
}

/// A day without refused settings or short slices, for times.
pub fn mixed_day(seed: u64, length: usize) -> Case {
    let mut random = Random::new(seed, 0);
    let setup = Setup { indicative: 1_000, static_band: 3, capacity: 1_000, rule: 1, ..BASE };
    let session = Session::new(plain_day::settings(&setup), setup.capacity, plain_day::rule(&setup)).unwrap();
    let scratch = session.grid().points();
    let tape = (3 * length).min(65_536);
    let mut maker = Maker::new(&mut random, &setup, session, tape, scratch);
    (maker.odd, maker.conditions, maker.markets, maker.close) = (1, 20, 5, 0);
    while maker.calls.len() < length {
        // An opening with many orders, then trading.
        while maker.session.phase() != Phase::Trading {
            for _ in 0..maker.random.range(20, 60) {
                let raw = maker.order();
                maker.push(raw);
            }
            for kind in [2, 3] {
                maker.push(RawCall { kind, ..BLANK });
            }
        }
        maker.step();
    }
    maker.push(RawCall { kind: 4, ..BLANK });
    Case {
        setup,
        answers: maker.calls.len(),
        calls: maker.calls,
        tape,
        scratch,
        orders: 4_096,
        interruptions: maker.interruptions,
    }
}
