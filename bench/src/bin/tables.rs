//! What the operations of the two tables cost, by days that do little else.

use bench::engine::{self, RawAnswer, RawCall, RawEnd, RawPoint, RawRecord, Setup};
use std::hint::black_box;
use std::time::{Duration, Instant};

const BLANK: RawCall =
    RawCall { kind: 0, side: 0, condition: 0, market: 0, member: 1, price: 0, quantity: 1, number: 0 };

/// Orders on both sides that do not cross, the sides in turn, at prices in no order.
fn orders(count: usize) -> Vec<RawCall> {
    (0..count)
        .map(|at| {
            let away = (at as u32 * 37) % 99 + 1;
            let side = at as u32 % 2;
            RawCall { side, price: if side == 0 { 1_000 - away } else { 1_000 + away }, ..BLANK }
        })
        .collect()
}

/// The best time of a day of these calls.
fn time(table: u32, calls: &[RawCall]) -> Duration {
    let setup = Setup { table, rule: 0, tick: 1, indicative: 1_000, absolute: 20, static_band: 10, last: 0, capacity: 4_096 };
    let mut answers = vec![RawAnswer { refusal: 0, answer: 0 }; calls.len()];
    let mut tape = vec![RawRecord { kind: 1, first: 1, second: 1, price: 0, quantity: 1 }; calls.len() + 1];
    let mut scratch = vec![RawPoint { price: 1, demand: 0, supply: 0 }; 401];
    let mut end = RawEnd { phase: 0, reference: 0, last: 0, used: 0, standing: 0 };
    let start = Instant::now();
    let mut best = Duration::MAX;
    for run in 0..1_000 {
        if run > 1 && start.elapsed() > Duration::from_millis(300) {
            break;
        }
        let from = Instant::now();
        let status =
            engine::day(&setup, black_box(calls), &mut answers, &mut tape, &mut scratch, &mut [], &mut end);
        best = best.min(from.elapsed());
        assert_eq!(status, 0);
        assert!(answers.iter().all(|answer| answer.refusal == 0));
    }
    best
}

/// Nanoseconds for each of `count`, of what `with` takes longer than `without`.
fn each(with: Duration, without: Duration, count: usize) -> f64 {
    with.saturating_sub(without).as_nanos() as f64 / count as f64
}

fn row(table: u32, name: &str, count: usize) {
    let enter = orders(count);
    let mut leave = enter.clone();
    leave.extend((1..=count as u64).map(|number| RawCall { kind: 1, number, ..BLANK }));
    let mut random = enter.clone();
    random.push(RawCall { kind: 2, ..BLANK });
    let mut call = random.clone();
    call.push(RawCall { kind: 3, ..BLANK });
    let mut close = enter.clone();
    close.push(RawCall { kind: 4, ..BLANK });
    let entered = time(table, &enter);
    println!(
        "  {name:<8} {count:>6} {:>10.0} {:>12.0} {:>12.0} {:>12.0}",
        each(entered, time(table, &[]), count),
        each(time(table, &leave), entered, count),
        each(time(table, &call), time(table, &random), count),
        each(time(table, &close), entered, count),
    );
}

fn main() {
    if !engine::LINKED {
        eprintln!("the Rattle engine is not linked");
        std::process::exit(1);
    }
    println!("Nanoseconds for each order, on average over a table that fills up or empties:");
    println!("  table    orders      enter     withdraw         call        close");
    for count in [16, 64, 256] {
        row(0, "arrival", count);
    }
    for count in [16, 64, 256, 1_024, 4_096] {
        row(1, "ranked", count);
    }
    println!("enter: add. withdraw: find and take, the first that came first. call: nth, each order once, and");
    println!("the grid of 401 prices. close: after and take, by number.");
}
