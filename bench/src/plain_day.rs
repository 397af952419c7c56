//! A whole day on the plain engine, in the form of the boundary.

use crate::engine::{RawAnswer, RawCall, RawEnd, RawOrder, RawPoint, RawRecord, Setup};
use crate::plain::{Answer, Call, Condition, Engine, Phase, Point, Record, Rule, Settings, Side};

pub fn settings(setup: &Setup) -> Settings {
    Settings {
        tick: setup.tick,
        indicative: setup.indicative,
        absolute: setup.absolute,
        static_band: setup.static_band,
        last: setup.last,
    }
}

pub fn rule(setup: &Setup) -> Rule {
    if setup.rule == 0 {
        Rule::Nearest
    } else {
        Rule::Middle
    }
}

pub fn call(raw: &RawCall) -> Call {
    match raw.kind {
        0 => Call::Order {
            member: raw.member,
            side: if raw.side == 0 { Side::Buy } else { Side::Sell },
            price: if raw.market == 0 { Some(raw.price) } else { None },
            quantity: raw.quantity,
            condition: match raw.condition {
                0 => Condition::None,
                1 => Condition::FillOrKill,
                _ => Condition::ImmediateOrCancel,
            },
        },
        1 => Call::Withdrawal { member: raw.member, number: raw.number },
        2 => Call::RandomPeriod,
        3 => Call::Auction,
        _ => Call::Close,
    }
}

pub fn record(raw: &RawRecord) -> Record {
    if raw.kind == 0 {
        Record::Trade { buy: raw.first, sell: raw.second, price: raw.price as u32, quantity: raw.quantity }
    } else {
        Record::Withdrawal { number: raw.first, quantity: raw.quantity, reason: raw.second as u8 }
    }
}

pub fn raw_record(record: &Record) -> RawRecord {
    match *record {
        Record::Trade { buy, sell, price, quantity } => {
            RawRecord { kind: 0, first: buy, second: sell, price: price as u64, quantity }
        }
        Record::Withdrawal { number, quantity, reason } => {
            RawRecord { kind: 1, first: number, second: reason as u64, price: 0, quantity }
        }
    }
}

pub fn phase(phase: Phase) -> u64 {
    match phase {
        Phase::PreOpening => 0,
        Phase::Random => 1,
        Phase::Called => 2,
        Phase::Trading => 3,
        Phase::Closed => 4,
    }
}

pub fn day<const FAULT: u8>(
    setup: &Setup,
    calls: &[RawCall],
    answers: &mut [RawAnswer],
    tape: &mut [RawRecord],
    scratch: &mut [RawPoint],
    orders: &mut [RawOrder],
    end: &mut RawEnd,
) -> u64 {
    let mut session = match Engine::<FAULT>::new(settings(setup), setup.capacity, rule(setup)) {
        Ok(session) => session,
        Err(refusal) => return refusal as u64,
    };
    let own_calls: Vec<Call> = calls.iter().map(call).collect();
    let mut own_answers: Vec<Answer> =
        answers.iter().map(|raw| Answer { refusal: raw.refusal as u8, answer: raw.answer }).collect();
    let mut own_tape: Vec<Record> = tape.iter().map(record).collect();
    let mut own_scratch: Vec<Point> =
        scratch.iter().map(|raw| Point { price: raw.price as u32, demand: raw.demand, supply: raw.supply }).collect();
    let refusal = session.run(&own_calls, &mut own_answers, &mut own_tape, &mut own_scratch);
    for (raw, own) in answers.iter_mut().zip(&own_answers) {
        *raw = RawAnswer { refusal: own.refusal as u64, answer: own.answer };
    }
    for (raw, own) in tape.iter_mut().zip(&own_tape) {
        *raw = raw_record(own);
    }
    for (raw, own) in scratch.iter_mut().zip(&own_scratch) {
        *raw = RawPoint { price: own.price as u64, demand: own.demand, supply: own.supply };
    }
    // Sorting them is for nothing without a place.
    let standing = if orders.is_empty() { Vec::new() } else { session.orders() };
    for (raw, order) in orders.iter_mut().zip(standing) {
        *raw = RawOrder {
            number: order.number,
            member: order.member as u64,
            side: order.side as u64,
            price: order.price as u64,
            left: order.left,
        };
    }
    *end = RawEnd {
        phase: phase(session.phase()),
        reference: session.reference() as u64,
        last: session.last(),
        used: session.used() as u64,
        standing: session.standing() as u64,
    };
    refusal as u64
}
