//! Times of both engines on the same input.

use bench::engine::{self, RawCall, RawOrder, RawPoint, RawRecord, Setup};
use bench::lists::{mixed_day, run, Case, Outcome};
use bench::plain::{Answer, Call, Point, Record, Session};
use bench::plain_day;
use bench::random::Random;
use std::hint::black_box;
use std::time::{Duration, Instant};

/// Time for one number of the table; slow days run at least twice.
const BUDGET: Duration = Duration::from_millis(400);
const MOST_RUNS: usize = 2_000;

const BLANK: RawCall =
    RawCall { kind: 0, side: 0, condition: 0, market: 0, member: 1, price: 0, quantity: 0, number: 0 };

fn best(run: impl FnMut()) -> Duration {
    best_of([&mut { run }])[0]
}

/// The best of each, run in turn so that a busy moment falls on all.
fn best_of<const N: usize>(runs: [&mut dyn FnMut(); N]) -> [Duration; N] {
    let start = Instant::now();
    let mut best = [Duration::MAX; N];
    for at in 0..MOST_RUNS {
        if at >= 2 && start.elapsed() > BUDGET * N as u32 {
            break;
        }
        for i in 0..N {
            let from = Instant::now();
            runs[i]();
            best[i] = best[i].min(from.elapsed());
        }
    }
    best
}

/// The slices of the plain engine, made once.
struct Plain {
    calls: Vec<Call>,
    answers: Vec<Answer>,
    tape: Vec<Record>,
    scratch: Vec<Point>,
}

impl Plain {
    fn new(case: &Case) -> Plain {
        Plain {
            calls: case.calls.iter().map(plain_day::call).collect(),
            answers: vec![Answer { refusal: 0, answer: 0 }; case.answers],
            tape: vec![Record::Withdrawal { number: 1, quantity: 1, reason: 1 }; case.tape],
            scratch: vec![Point { price: 1, demand: 0, supply: 0 }; case.scratch],
        }
    }

    fn day(&mut self, setup: &Setup) -> Session {
        let settings = plain_day::settings(setup);
        let mut session = Session::new(settings, setup.capacity, plain_day::rule(setup)).expect("lawful settings");
        session.run(&self.calls, &mut self.answers, &mut self.tape, &mut self.scratch);
        session
    }
}

fn rattle_day(setup: &Setup, calls: &[RawCall], out: &mut Outcome) {
    out.status =
        engine::day(setup, calls, &mut out.answers, &mut out.tape, &mut out.scratch, &mut out.orders, &mut out.end);
}

/// Times of one day: the plain engine, and the Rattle one with both tables.
#[derive(Clone, Copy)]
struct Times {
    plain: Duration,
    tables: [Option<Duration>; 2],
}

impl Times {
    fn minus(&self, less: &Times) -> Times {
        Times {
            plain: self.plain.saturating_sub(less.plain),
            tables: [0, 1].map(|at| match (self.tables[at], less.tables[at]) {
                (Some(all), Some(part)) => Some(all.saturating_sub(part)),
                _ => None,
            }),
        }
    }
}

/// Looks whether both engines give the same, so that the times mean the same.
fn agree(case: &Case, table: u32) {
    let other = Case { setup: Setup { table, ..case.setup }, ..case.clone() };
    if run(engine::day, &other) != run(plain_day::day::<0>, &other) {
        eprintln!("the engines differ with table {table}; see compare");
        std::process::exit(1);
    }
}

/// The most calls before an auction with which the arrival table is timed: its
/// walks in rank grow with the cube of the orders.
const ARRIVAL_MOST: usize = 600;

/// Measures days in turn, with these tables.
fn measure<const N: usize>(cases: [&Case; N], tables: &[u32]) -> [Times; N] {
    let mut slices = cases.map(Plain::new);
    let own = {
        let mut at = 0;
        let mut runs = slices.each_mut().map(|plain| {
            at += 1;
            let setup = &cases[at - 1].setup;
            move || {
                black_box(plain.day(black_box(setup)));
            }
        });
        best_of(runs.each_mut().map(|run| run as &mut dyn FnMut()))
    };
    let mut times = own.map(|plain| Times { plain, tables: [None, None] });
    if engine::LINKED {
        for &table in tables {
            cases.iter().for_each(|case| agree(case, table));
            let mut slices = cases.map(Outcome::marked);
            let mut at = 0;
            let mut runs = slices.each_mut().map(|out| {
                at += 1;
                let case = cases[at - 1];
                let setup = Setup { table, ..case.setup };
                move || rattle_day(black_box(&setup), &case.calls, black_box(&mut *out))
            });
            let rattle = best_of(runs.each_mut().map(|run| run as &mut dyn FnMut()));
            for i in 0..N {
                times[i].tables[table as usize] = Some(rattle[i]);
            }
        }
    }
    times
}

fn show(time: Option<Duration>) -> String {
    let Some(time) = time else { return "-".into() };
    let nanos = time.as_nanos() as f64;
    match nanos {
        n if n < 1e4 => format!("{n:.0} ns"),
        n if n < 1e7 => format!("{:.1} us", n / 1e3),
        n => format!("{:.1} ms", n / 1e6),
    }
}

fn ratio(of: Option<Duration>, to: Duration) -> String {
    match of {
        Some(of) if !to.is_zero() => format!("{:.2}", of.as_secs_f64() / to.as_secs_f64()),
        _ => "-".into(),
    }
}

fn heading(title: &str) {
    println!();
    println!("{title:<46} {:>10} | {:>10} {:>7} | {:>10} {:>7}", "plain", "arrival", "ratio", "ranked", "ratio");
}

fn row(name: &str, times: &Times) {
    let [arrival, ranked] = times.tables;
    println!(
        "  {name:<44} {:>10} | {:>10} {:>7} | {:>10} {:>7}",
        show(Some(times.plain)),
        show(arrival),
        ratio(arrival, times.plain),
        show(ranked),
        ratio(ranked, times.plain),
    );
}

/// Without ratios, which mean little where the plain engine copies nothing.
fn bare_row(name: &str, times: &Times) {
    let [arrival, ranked] = times.tables;
    let plain = show(Some(times.plain));
    println!("  {name:<44} {plain:>10} | {:>10} {:>7} | {:>10} {:>7}", show(arrival), "", show(ranked), "");
}

/// The same lengths without a call: what making and copying cost.
fn empty(case: &Case) -> Case {
    Case { calls: Vec::new(), ..case.clone() }
}

fn setup(indicative: u32, absolute: u32, rule: u32) -> Setup {
    Setup { table: 0, rule, tick: 1, indicative, absolute, static_band: 20, last: 0, capacity: 4_096 }
}

/// Orders all over the grid and a random period, and the same with an auction.
fn opening(setup: Setup, orders: usize) -> (Case, Case) {
    let grid = plain_day::settings(&setup).grid().expect("lawful settings");
    let mut random = Random::new(7, orders as u64);
    let mut calls: Vec<RawCall> = (0..orders)
        .map(|_| RawCall {
            side: random.below(2) as u32,
            market: random.chance(2) as u32,
            member: random.range(1, 999) as u32,
            price: random.range(grid.lowest as u64, grid.highest as u64) as u32,
            quantity: random.range(1, 1_000),
            ..BLANK
        })
        .collect();
    calls.push(RawCall { kind: 2, ..BLANK });
    let without = Case {
        setup,
        answers: orders + 2,
        calls,
        tape: 2 * orders,
        scratch: grid.points(),
        // Not copied out: before the auction there are many, after it few.
        orders: 0,
        interruptions: [0; 3],
    };
    let mut with = without.clone();
    with.calls.push(RawCall { kind: 3, ..BLANK });
    (without, with)
}

/// The time that the auction adds to its day.
fn auction(setup: Setup, orders: usize) -> (Times, Times, Case) {
    let (without, with) = opening(setup, orders);
    let tables: &[u32] = if orders > ARRIVAL_MOST { &[1] } else { &[0, 1] };
    let [entries, all] = measure([&without, &with], tables);
    (entries, all.minus(&entries), with)
}

/// Trading on a book that stays at 500 orders: two orders that stand, each
/// followed by one that fills the best of its side.
fn trading(orders: usize) -> Case {
    let mut random = Random::new(11, 0);
    let mut calls = Vec::new();
    let passive = |side: u32, random: &mut Random| {
        let away = random.range(1, 200) as u32;
        let price = if side == 0 { 10_000 - away } else { 10_000 + away };
        RawCall { side, price, member: random.range(1, 999) as u32, quantity: 10, ..BLANK }
    };
    for at in 0..500 {
        calls.push(passive(at % 2, &mut random));
    }
    calls.push(RawCall { kind: 2, ..BLANK });
    calls.push(RawCall { kind: 3, ..BLANK });
    for at in 0..orders {
        let side = (at / 2 % 2) as u32;
        if at % 2 == 0 {
            calls.push(passive(side, &mut random));
        } else {
            let (market, condition) = (random.chance(10) as u32, random.pick(&[0, 0, 0, 1, 2]));
            let price = if side == 0 { 9_500 } else { 10_500 };
            calls.push(RawCall { side: 1 - side, price, market, condition, quantity: 10, ..BLANK });
        }
    }
    Case {
        setup: setup(10_000, 50, 0),
        answers: calls.len(),
        calls,
        tape: 65_536,
        scratch: 10_001,
        orders: 4_096,
        interruptions: [0; 3],
    }
}

/// What the plain engine did in a day.
fn contents(case: &Case) -> String {
    let mut plain = Plain::new(case);
    let session = plain.day(&case.setup);
    let count = |kind: u32| {
        case.calls.iter().zip(&plain.answers).filter(|(call, answer)| call.kind == kind && answer.refusal == 0).count()
    };
    let refused = plain.answers.iter().filter(|answer| answer.refusal > 0).count();
    format!(
        "{} calls: {} orders, {} withdrawals and {} auctions done, {} refused; {} records, {} orders stand at the end",
        case.calls.len(),
        count(0),
        count(1),
        count(3),
        refused,
        session.used(),
        session.standing(),
    )
}

fn main() {
    let start = Instant::now();
    println!("Best of several runs; ratio is Rattle to plain.");
    if engine::LINKED {
        let noop = best(|| {
            for _ in 0..1_000 {
                black_box(engine::noop());
            }
        });
        println!("A call over the boundary that does nothing: {:.1} ns.", noop.as_nanos() as f64 / 1e3);
    } else {
        println!("The Rattle engine is not linked: only the plain one is timed.");
    }
    println!("A Rattle day includes copying all slices in and out; \"no calls\" is the same day without a call.");
    println!("An auction is the difference of a day with it and the same day without.");

    heading("(a) auction, 99,497 prices, 4,096 orders");
    for (rule, name) in [(0, "nearest"), (1, "middle")] {
        let (entries, auction, case) = auction(setup(50_251, 99, rule), 4_096);
        row(&format!("auction, {name}"), &auction);
        if rule == 1 {
            row("entering the orders before it", &entries);
            bare_row("no calls", &measure([&empty(&case)], &[0, 1])[0]);
        }
    }

    let case = trading(100_000);
    heading("(b) 100,000 orders in trading");
    let [all, none] = measure([&case, &empty(&case)], &[0, 1]);
    row("whole day", &all);
    bare_row("no calls", &none);
    row("without what no calls cost", &all.minus(&none));
    println!("  {}", contents(&case));

    let case = mixed_day(3, 4_000);
    heading("(c) a mixed day");
    let [all, none] = measure([&case, &empty(&case)], &[0, 1]);
    row("whole day", &all);
    bare_row("no calls", &none);
    row("without what no calls cost", &all.minus(&none));
    println!("  {}", contents(&case));

    heading("(d) growth of an auction");
    for (orders, name) in [(64, "64"), (256, "256"), (1_024, "1,024"), (4_096, "4,096")] {
        row(&format!("1,001 prices, {name} orders"), &auction(setup(2_500, 20, 1), orders).1);
    }
    let grids = [(100, 20, "41"), (2_500, 20, "1,001"), (10_000, 50, "10,001"), (50_251, 99, "99,497")];
    for (indicative, absolute, name) in grids {
        row(&format!("{name} prices, 1,024 orders"), &auction(setup(indicative, absolute, 1), 1_024).1);
    }
    println!();
    println!("{:.0} s in all", start.elapsed().as_secs_f64());
}

// The sizes that the boundary copies.
const _: () = {
    assert!(size_of::<RawCall>() == 40);
    assert!(size_of::<RawRecord>() == 40);
    assert!(size_of::<RawPoint>() == 24);
    assert!(size_of::<RawOrder>() == 40);
};
