//! Runs random lists on both engines and compares all that they leave.
//!
//! `compare [lists] [seed] [--plant N] [--only N] [--plain-only] [--count]`

use bench::engine::{self, RawAnswer, RawCall, RawOrder, RawRecord};
use bench::lists::{random_case, run, Case, Day, Outcome};
use bench::plain_day;
use std::fmt::Debug;
use std::process::exit;

const USAGE: &str = "compare [lists] [seed] [--plant N] [--only N] [--plain-only] [--count]
  lists         how many lists, 100,000 unless said
  seed          the first number of its draw, 1 unless said
  --plant N     the plain engine errs on purpose, in place 1 to 8
  --only N      only the list with this number
  --plain-only  the plain engine in place of the Rattle one
  --count       counts the lists that differ and shows none";

/// What the plain engine errs in, by the number planted.
const PLANTS: [&str; 9] = [
    "nothing",
    "of sells at one price the later goes first",
    "the upper end does not belong to the static band",
    "what remains of a market order stands at its first fill",
    "a market order with nothing opposite is withdrawn by reason 3",
    "the last place of the tape is left unused",
    "the lower of two prices that are as near is called",
    "a killed fill-or-kill order interrupts",
    "capacity counts the orders that the call fills",
];

const PLAIN: [Day; 9] = [
    plain_day::day::<0>,
    plain_day::day::<1>,
    plain_day::day::<2>,
    plain_day::day::<3>,
    plain_day::day::<4>,
    plain_day::day::<5>,
    plain_day::day::<6>,
    plain_day::day::<7>,
    plain_day::day::<8>,
];

struct Options {
    lists: u64,
    seed: u64,
    plant: usize,
    only: Option<u64>,
    plain_only: bool,
    count: bool,
}

fn options() -> Result<Options, String> {
    let mut options = Options { lists: 100_000, seed: 1, plant: 0, only: None, plain_only: false, count: false };
    let mut words = std::env::args().skip(1);
    let mut place = 0;
    while let Some(word) = words.next() {
        let number = |word: Option<String>| -> Result<u64, String> {
            let word = word.ok_or("a number is missing")?;
            word.replace([',', '_'], "").parse().map_err(|_| format!("not a number: {word}"))
        };
        match word.as_str() {
            "--plant" => options.plant = number(words.next())? as usize,
            "--only" => options.only = Some(number(words.next())?),
            "--plain-only" => options.plain_only = true,
            "--count" => options.count = true,
            _ => {
                let value = number(Some(word))?;
                match place {
                    0 => options.lists = value,
                    1 => options.seed = value,
                    _ => return Err("too many numbers".into()),
                }
                place += 1;
            }
        }
    }
    if options.plant >= PLAIN.len() {
        return Err(format!("plants are 1 to {}", PLAIN.len() - 1));
    }
    Ok(options)
}

#[derive(Default)]
struct Counts {
    lists: u64,
    calls: u64,
    kinds: [u64; 5],
    refusals: [u64; 16],
    tables: [u64; 2],
    rules: [u64; 2],
    interruptions: [u64; 3],
    with_price: u64,
    without_price: u64,
    put_back: u64,
    trades: u64,
    reasons: [u64; 6],
    ends: [u64; 5],
    untouched: [u64; 3],
    most_points: usize,
    most_standing: u64,
    most_used: u64,
}

impl Counts {
    fn add(&mut self, case: &Case, out: &Outcome) {
        self.lists += 1;
        self.tables[(case.setup.table != 0) as usize] += 1;
        self.rules[(case.setup.rule != 0) as usize] += 1;
        if out.status != 0 {
            self.refusals[out.status.min(15) as usize] += 1;
            return;
        }
        for (i, count) in case.interruptions.iter().enumerate() {
            self.interruptions[i] += count;
        }
        for (call, answer) in case.calls.iter().zip(&out.answers) {
            self.calls += 1;
            self.kinds[call.kind.min(4) as usize] += 1;
            self.refusals[answer.refusal.min(15) as usize] += 1;
            if call.kind == 3 {
                match (answer.refusal, answer.answer) {
                    (0, 0) => self.without_price += 1,
                    (0, _) => {
                        self.with_price += 1;
                        self.most_points = self.most_points.max(case.scratch);
                    }
                    (11, _) => self.put_back += 1,
                    _ => {}
                }
            }
        }
        for record in &out.tape[..(out.end.used as usize).min(out.tape.len())] {
            match record.kind {
                0 => self.trades += 1,
                _ => self.reasons[record.second.min(5) as usize] += 1,
            }
        }
        self.ends[out.end.phase.min(4) as usize] += 1;
        self.untouched[0] += (case.answers > case.calls.len()) as u64;
        self.untouched[1] += (case.tape as u64 > out.end.used) as u64;
        self.untouched[2] += (case.orders as u64 > out.end.standing) as u64;
        self.most_standing = self.most_standing.max(out.end.standing);
        self.most_used = self.most_used.max(out.end.used);
    }

    fn print(&self) {
        println!("lists                {:>10}", self.lists);
        println!("  arrival, ranked    {:>10} {:>10}", self.tables[0], self.tables[1]);
        println!("  nearest, middle    {:>10} {:>10}", self.rules[0], self.rules[1]);
        println!("calls                {:>10}", self.calls);
        for (name, count) in ["orders", "withdrawals", "random periods", "auctions", "closes"].iter().zip(self.kinds) {
            println!("  {name:<18} {count:>10}");
        }
        println!("refusals by number (0 is done; 1 to 3 and 15 are of whole lists)");
        for (number, count) in self.refusals.iter().enumerate() {
            let note = match number {
                3 => "  (a day starts with an empty book)",
                13 => "  (a list has no foreign tokens)",
                _ => "",
            };
            println!("  {number:>2}                 {count:>10}{note}");
        }
        println!("auctions with a price, without, refused by 11");
        println!("                     {:>10} {:>10} {:>10}", self.with_price, self.without_price, self.put_back);
        println!("interruptions by orders with no condition, fill-or-kill, immediate-or-cancel");
        println!(
            "                     {:>10} {:>10} {:>10}",
            self.interruptions[0], self.interruptions[1], self.interruptions[2]
        );
        println!("trades               {:>10}", self.trades);
        println!("withdrawals by reason 1 to 5");
        println!("            {}", self.reasons[1..].iter().map(|n| format!("{n:>10}")).collect::<String>());
        println!("lists that end in pre-opening, random, called, trading, closed");
        println!("            {}", self.ends.iter().map(|n| format!("{n:>10}")).collect::<String>());
        println!("lists with untouched places of answers, tape, orders");
        println!("            {}", self.untouched.iter().map(|n| format!("{n:>10}")).collect::<String>());
        println!(
            "longest scratch of an auction {}, most standing at an end {}, longest tape used {}",
            self.most_points, self.most_standing, self.most_used
        );
    }
}

/// Leaves out calls one by one while the engines still differ.
fn shorten(case: &Case, sides: [Day; 2]) -> Case {
    let differs = |case: &Case| run(sides[0], case) != run(sides[1], case);
    let mut best = case.clone();
    let mut size = (best.calls.len() / 2).max(1);
    // Bounded, as each trial runs a whole day twice.
    let mut trials = 5_000;
    loop {
        let mut from = 0;
        while from < best.calls.len() && trials > 0 {
            trials -= 1;
            let mut less = best.clone();
            less.calls.drain(from..(from + size).min(best.calls.len()));
            if differs(&less) {
                best = less;
            } else {
                from += size;
            }
        }
        if size == 1 || trials == 0 {
            return best;
        }
        size = (size / 2).max(1);
    }
}

fn show_call(call: &RawCall) -> String {
    match call.kind {
        0 => {
            let side = if call.side == 0 { "buy" } else { "sell" };
            let price = if call.market == 0 { format!("at {}", call.price) } else { "market".into() };
            let condition = match call.condition {
                0 => "",
                1 => ", fill-or-kill",
                _ => ", immediate-or-cancel",
            };
            format!("{side} {} {price}{condition}, member {}", call.quantity, call.member)
        }
        1 => format!("withdrawal of {}, member {}", call.number, call.member),
        2 => "random period".into(),
        3 => "auction".into(),
        _ => "close".into(),
    }
}

fn show_answer(answer: Option<&RawAnswer>) -> String {
    match answer {
        Some(RawAnswer { refusal: 0, answer }) => format!("{answer}"),
        Some(RawAnswer { refusal, answer: 0 }) => format!("refused by {refusal}"),
        Some(RawAnswer { refusal, answer }) => format!("refused by {refusal}, answer {answer}"),
        None => "-".into(),
    }
}

fn show_record(record: &RawRecord) -> String {
    match record.kind {
        0 => format!("trade {}/{} {} at {}", record.first, record.second, record.quantity, record.price),
        kind => {
            let mut text = format!("withdrawal {} of {}, reason {}", record.quantity, record.first, record.second);
            if kind != 1 || record.price != 0 {
                text += &format!(" (kind {kind}, price {})", record.price);
            }
            text
        }
    }
}

fn show_order(order: &RawOrder) -> String {
    let side = if order.side == 0 { "buy" } else { "sell" };
    format!("{}: {side} {} at {}, member {}", order.number, order.left, order.price, order.member)
}

/// Shows two slices side by side, as far as `used` and the last difference; of
/// long ones only what is around the first difference.
fn show_both<T: PartialEq + Debug>(name: &str, used: usize, of: &[T], other: &[T], show: impl Fn(&T) -> String) {
    if of.len() != other.len() {
        println!("{name}: lengths {} and {}", of.len(), other.len());
    }
    let first = of.iter().zip(other).position(|(a, b)| a != b);
    let Some(first) = first else {
        println!("{name}: no difference in {} places", of.len());
        return;
    };
    println!("{name}: first difference at place {first} (plain | other)");
    let last = of.iter().zip(other).rposition(|(a, b)| a != b).unwrap_or(first);
    let end = (last + 1).max(used);
    let (from, to) = if end <= 200 { (0, end) } else { (first.saturating_sub(5), first + 15) };
    for at in from..to.min(of.len()).min(other.len()) {
        let mark = if of[at] == other[at] { ' ' } else { '*' };
        println!("  {mark} {at:>5}  {:<48} | {}", show(&of[at]), show(&other[at]));
    }
}

fn show_difference(case: &Case, plain: &Outcome, other: &Outcome) {
    println!("{:?}", case.setup);
    println!("lengths: answers {}, tape {}, scratch {}, orders {}", case.answers, case.tape, case.scratch, case.orders);
    println!("whole list: plain {}, other {}", plain.status, other.status);
    println!("calls (plain | other)");
    let (calls, first) = (case.calls.len(), plain.answers.iter().zip(&other.answers).position(|(a, b)| a != b));
    let near = first.unwrap_or(calls);
    for (at, call) in case.calls.iter().enumerate() {
        if calls > 300 && (at + 150 < near || at > near + 10) {
            continue;
        }
        let (a, b) = (plain.answers.get(at), other.answers.get(at));
        let mark = if a == b { ' ' } else { '*' };
        println!("  {mark} {at:>5}  {:<48} {:>16} | {}", show_call(call), show_answer(a), show_answer(b));
    }
    let used = plain.end.used.max(other.end.used) as usize;
    let standing = plain.end.standing.max(other.end.standing) as usize;
    show_both("answers", calls, &plain.answers, &other.answers, |answer| format!("{answer:?}"));
    show_both("tape", used, &plain.tape, &other.tape, show_record);
    show_both("scratch", case.scratch, &plain.scratch, &other.scratch, |point| {
        format!("{}: demand {}, supply {}", point.price, point.demand, point.supply)
    });
    show_both("orders", standing, &plain.orders, &other.orders, show_order);
    println!("end, plain {:?}", plain.end);
    println!("end, other {:?}", other.end);
}

fn main() {
    let options = options().unwrap_or_else(|error| {
        eprintln!("{error}\n{USAGE}");
        exit(2);
    });
    let itself = options.plain_only || !engine::LINKED;
    let other: Day = if itself { plain_day::day::<0> } else { engine::day };
    let plain = PLAIN[options.plant];
    if itself {
        println!("The plain engine against itself: the Rattle engine is not compared.");
    }
    if options.plant > 0 {
        println!("Planted: {}.", PLANTS[options.plant]);
    }
    let numbers = match options.only {
        Some(at) => at..at + 1,
        None => 0..options.lists,
    };
    let mut counts = Counts::default();
    let mut differences = 0;
    for at in numbers {
        let case = random_case(options.seed, at);
        let out = run(plain, &case);
        let same = out == run(other, &case);
        differences += !same as u64;
        if !same && !options.count {
            println!(
                "list {at} of seed {} differs after {} without a difference; shortened:",
                options.seed, counts.lists
            );
            let less = shorten(&case, [plain, other]);
            show_difference(&less, &run(plain, &less), &run(other, &less));
            exit(1);
        }
        counts.add(&case, &out);
    }
    counts.print();
    println!("{} lists, {differences} differences", counts.lists);
    if differences > 0 {
        exit(1);
    }
}
