//! The plain engine against the rules taken word by word: everything is
//! searched for and nothing is kept, and a call works on a copy that is thrown
//! away when it is refused.

use bench::engine::{RawAnswer, RawCall, RawEnd, RawOrder, RawPoint, RawRecord, Setup};
use bench::lists::{marked_point, marked_record, random_case, run, Case, Day, Outcome};
use bench::plain_day;

#[derive(Clone, Copy)]
struct Order {
    number: u64,
    member: u32,
    sell: bool,
    price: Option<u64>,
    left: u64,
}

#[derive(Clone, Copy)]
struct Point {
    price: u64,
    demand: u64,
    supply: u64,
}

#[derive(Clone)]
struct Naive {
    setup: Setup,
    grid: Vec<u64>,
    orders: Vec<Order>,
    phase: u64,
    reference: u64,
    last: u64,
    records: Vec<RawRecord>,
}

fn within(price: u64, reference: u64, band: u32) -> bool {
    reference * (100 - band as u64) <= 100 * price && 100 * price <= reference * (100 + band as u64)
}

fn trades(point: &Point) -> u64 {
    point.demand.min(point.supply)
}

impl Naive {
    fn new(setup: Setup) -> Result<Naive, u64> {
        let band = 1..=99;
        if !((1..=1_000).contains(&setup.tick)
            && band.contains(&setup.absolute)
            && band.contains(&setup.static_band)
            && setup.last <= 999_999_999)
        {
            return Err(1);
        }
        if setup.indicative < 1 || setup.indicative > 99_999 || setup.indicative % setup.tick != 0 {
            return Err(2);
        }
        let indicative = setup.indicative as u64;
        let on_grid = |price: &u64| price % setup.tick as u64 == 0 && within(*price, indicative, setup.absolute);
        Ok(Naive {
            setup,
            grid: (0..=99_999).filter(on_grid).collect(),
            orders: Vec::new(),
            phase: 0,
            reference: indicative,
            last: setup.last,
            records: Vec::new(),
        })
    }

    fn active(&self, order: &Order) -> bool {
        order.price.is_none_or(|price| self.grid.contains(&price))
    }

    /// The active orders of a side in rank.
    fn ranked(&self, sell: bool) -> Vec<Order> {
        let mut orders: Vec<Order> =
            self.orders.iter().filter(|order| order.sell == sell && self.active(order)).copied().collect();
        orders.sort_by(|a, b| match (a.price, b.price) {
            (None, None) => a.number.cmp(&b.number),
            (None, Some(_)) => std::cmp::Ordering::Less,
            (Some(_), None) => std::cmp::Ordering::Greater,
            (Some(x), Some(y)) if x != y => {
                if sell {
                    x.cmp(&y)
                } else {
                    y.cmp(&x)
                }
            }
            _ => a.number.cmp(&b.number),
        });
        orders
    }

    fn take(&mut self, number: u64, amount: u64) {
        let at = self.orders.iter().position(|order| order.number == number).unwrap();
        assert!(amount > 0 && amount <= self.orders[at].left);
        self.orders[at].left -= amount;
        if self.orders[at].left == 0 {
            self.orders.remove(at);
        }
    }

    fn trade(&mut self, buy: u64, sell: u64, price: u64, quantity: u64) {
        self.records.push(RawRecord { kind: 0, first: buy, second: sell, price, quantity });
    }

    fn gone(&mut self, number: u64, quantity: u64, reason: u64) {
        self.records.push(RawRecord { kind: 1, first: number, second: reason, price: 0, quantity });
    }

    fn withdraw(&mut self, which: impl Fn(&Order) -> bool, reason: u64) -> u64 {
        let out: Vec<Order> = self.orders.iter().filter(|order| which(order)).copied().collect();
        for order in &out {
            self.take(order.number, order.left);
            self.gone(order.number, order.left, reason);
        }
        out.len() as u64
    }

    fn order(&mut self, call: &RawCall) -> Result<u64, u64> {
        if ![0, 1, 3].contains(&self.phase) {
            return Err(4);
        }
        if call.member < 1 || call.member > 999 {
            return Err(5);
        }
        if call.quantity < 1 || call.quantity > 1_000_000_000 {
            return Err(6);
        }
        if call.market == 0 && (call.price < 1 || call.price > 99_999 || call.price % self.setup.tick != 0) {
            return Err(7);
        }
        if call.condition != 0 && self.phase != 3 {
            return Err(8);
        }
        if self.last >= 999_999_999 {
            return Err(9);
        }
        self.last += 1;
        let mut order = Order {
            number: self.last,
            member: call.member,
            sell: call.side != 0,
            price: if call.market == 0 { Some(call.price as u64) } else { None },
            left: call.quantity,
        };
        if self.phase != 3 || !self.active(&order) {
            match call.condition {
                0 => self.orders.push(order),
                _ => self.gone(order.number, order.left, 3),
            }
        } else {
            let before = self.clone();
            let mut fills = Vec::new();
            let mut interrupted = false;
            let opposite = self.ranked(!order.sell);
            for other in &opposite {
                let price = other.price.expect("no market order stands in trading");
                let allows = match order.price {
                    None => true,
                    Some(own) if order.sell => price >= own,
                    Some(own) => price <= own,
                };
                if order.left == 0 || !allows {
                    break;
                }
                if !within(price, self.reference, self.setup.static_band) {
                    interrupted = true;
                    break;
                }
                let amount = order.left.min(other.left);
                let (buy, sell) = if order.sell { (other.number, order.number) } else { (order.number, other.number) };
                self.trade(buy, sell, price, amount);
                self.take(other.number, amount);
                order.left -= amount;
                fills.push(price);
            }
            match call.condition {
                1 if order.left > 0 => {
                    *self = before;
                    interrupted = false;
                    self.gone(order.number, call.quantity, 3);
                }
                _ if order.left == 0 => {}
                0 => {
                    if order.price.is_none() && opposite.is_empty() {
                        self.gone(order.number, order.left, 4);
                    } else {
                        if order.price.is_none() {
                            assert!(interrupted || !fills.is_empty());
                            order.price = fills.last().copied();
                        }
                        self.orders.push(order);
                    }
                }
                _ => self.gone(order.number, order.left, 3),
            }
            if interrupted {
                self.phase = 0;
            }
        }
        if self.orders.len() > self.setup.capacity.min(4_096) {
            return Err(10);
        }
        Ok(order.number)
    }

    fn curve(&self) -> Vec<Point> {
        let sum = |sell: bool, price: u64| {
            let allows = |order: &&Order| match order.price {
                _ if order.sell != sell || !self.active(order) => false,
                None => true,
                Some(own) if sell => price >= own,
                Some(own) => price <= own,
            };
            self.orders.iter().filter(allows).map(|order| order.left).sum()
        };
        self.grid.iter().map(|&price| Point { price, demand: sum(false, price), supply: sum(true, price) }).collect()
    }

    fn ahead(&self, a: &Point, b: &Point) -> bool {
        let surplus = |point: &Point| point.demand.max(point.supply) - trades(point);
        trades(a) > trades(b) || (trades(a) == trades(b) && self.setup.rule != 0 && surplus(a) < surplus(b))
    }

    fn auction(&mut self, scratch: &mut [RawPoint]) -> Result<u64, u64> {
        if self.phase != 1 {
            return Err(4);
        }
        if scratch.len() < self.grid.len() {
            return Err(14);
        }
        let curve = self.curve();
        for (place, point) in scratch.iter_mut().zip(&curve) {
            *place = RawPoint { price: point.price, demand: point.demand, supply: point.supply };
        }
        self.phase = 3;
        if curve.iter().all(|point| trades(point) == 0) {
            self.withdraw(|order| order.price.is_none(), 2);
            return Ok(0);
        }
        let best: Vec<Point> =
            curve.iter().filter(|point| !curve.iter().any(|other| self.ahead(other, point))).copied().collect();
        let (low, high) = (best[0], best[best.len() - 1]);
        let target = if self.setup.rule == 0 {
            2 * self.setup.indicative as u64
        } else if low.demand > low.supply && high.demand > high.supply {
            2 * high.price
        } else if low.demand < low.supply && high.demand < high.supply {
            2 * low.price
        } else {
            low.price + high.price
        };
        let called =
            best.iter().min_by_key(|point| ((2 * point.price).abs_diff(target), u64::MAX - point.price)).unwrap();
        let price = called.price;
        let mut rest = trades(called);
        let mut traded = Vec::new();
        while rest > 0 {
            // First in rank with first in rank, looked for anew each time.
            let first = |sell: bool| {
                let allows = |order: &&Order| match order.price {
                    None => true,
                    Some(own) if sell => price >= own,
                    Some(own) => price <= own,
                };
                self.ranked(sell).iter().find(allows).copied().unwrap()
            };
            let (buy, sell) = (first(false), first(true));
            let amount = buy.left.min(sell.left).min(rest);
            self.trade(buy.number, sell.number, price, amount);
            self.take(buy.number, amount);
            self.take(sell.number, amount);
            traded.extend([buy.number, sell.number]);
            rest -= amount;
        }
        self.withdraw(|order| order.price.is_none() && !traded.contains(&order.number), 2);
        for order in &mut self.orders {
            order.price = order.price.or(Some(price));
        }
        self.reference = price;
        Ok(trades(called))
    }

    fn call(&mut self, call: &RawCall, scratch: &mut [RawPoint]) -> Result<u64, u64> {
        match call.kind {
            0 => self.order(call),
            1 if ![0, 3].contains(&self.phase) => Err(4),
            1 => {
                let found = self.orders.iter().find(|order| order.number == call.number && order.member == call.member);
                let left = found.ok_or(12u64)?.left;
                self.withdraw(|order| order.number == call.number, 1);
                Ok(left)
            }
            2 if self.phase != 0 => Err(4),
            2 => {
                self.phase = 1;
                Ok(0)
            }
            3 => self.auction(scratch),
            _ if ![0, 1, 3].contains(&self.phase) => Err(4),
            _ => {
                self.phase = 4;
                Ok(self.withdraw(|_| true, 5))
            }
        }
    }

    /// No market order stands in trading, and no active buy at or above an
    /// active sell.
    fn uncrossed(&self) -> bool {
        let price = |order: &Order| order.price.unwrap();
        self.orders.iter().all(|order| order.price.is_some())
            && !matches!(
                (self.ranked(false).first(), self.ranked(true).first()),
                (Some(buy), Some(sell)) if price(buy) >= price(sell)
            )
    }
}

fn naive_day(case: &Case) -> Outcome {
    let mut out = Outcome::marked(case);
    let mut session = match Naive::new(case.setup) {
        Ok(session) => session,
        Err(refusal) => {
            out.status = refusal;
            return out;
        }
    };
    if case.answers < case.calls.len() {
        out.status = 15;
    } else {
        for (call, place) in case.calls.iter().zip(&mut out.answers) {
            let mut tried = session.clone();
            let done = tried.call(call, &mut out.scratch).and_then(|answer| {
                let written = tried.records.len() - session.records.len();
                // Places that are not there are as good as none.
                let free = (case.tape.min(65_536)).saturating_sub(session.records.len());
                if written > free {
                    Err(11)
                } else {
                    Ok(answer)
                }
            });
            *place = match done {
                Ok(answer) => {
                    session = tried;
                    RawAnswer { refusal: 0, answer }
                }
                Err(refusal) => RawAnswer { refusal, answer: 0 },
            };
            assert!(session.phase != 3 || session.uncrossed());
        }
    }
    for (place, record) in out.tape.iter_mut().zip(&session.records) {
        *place = *record;
    }
    for (place, order) in out.orders.iter_mut().zip(&session.orders) {
        *place = RawOrder {
            number: order.number,
            member: order.member as u64,
            side: order.sell as u64,
            price: order.price.unwrap_or(0),
            left: order.left,
        };
    }
    out.end = RawEnd {
        phase: session.phase,
        reference: session.reference,
        last: session.last,
        used: session.records.len() as u64,
        standing: session.orders.len() as u64,
    };
    out
}

#[test]
fn plain_as_the_rules_say() {
    // More on wish: it is quick in a release build.
    let lists = std::env::var("LISTS").ok().and_then(|lists| lists.parse().ok()).unwrap_or(2_400);
    let mut compared = 0;
    for at in 0..lists {
        let case = random_case(20, at);
        // Word by word is slow on large grids and long tapes.
        if case.scratch > 500 || case.calls.len() > 5_000 {
            continue;
        }
        let (plain, naive) = (run(plain_day::day::<0>, &case), naive_day(&case));
        assert_eq!(plain, naive, "list {at}: {case:#?}");
        compared += 1;
    }
    assert!(compared > lists / 10 * 8);
    println!("{compared} lists, 0 differences");
}

/// Each planted fault shows within a few hundred lists.
#[test]
fn planted_faults_show() {
    let planted: [Day; 8] = [
        plain_day::day::<1>,
        plain_day::day::<2>,
        plain_day::day::<3>,
        plain_day::day::<4>,
        plain_day::day::<5>,
        plain_day::day::<6>,
        plain_day::day::<7>,
        plain_day::day::<8>,
    ];
    for (at, day) in planted.iter().enumerate() {
        let mut cases = (0..500).map(|at| random_case(20, at)).filter(|case| case.scratch <= 500);
        assert!(cases.any(|case| run(*day, &case) != naive_day(&case)), "fault {}", at + 1);
    }
}

/// The marks must be lawful contents, or the other engine could not read them.
#[test]
fn marks_are_lawful() {
    for at in 0..3_000 {
        let record = marked_record(at);
        let number = |n: u64| (1..=999_999_999).contains(&n);
        assert!(number(record.first) && (1..=1_000_000_000).contains(&record.quantity));
        match record.kind {
            0 => assert!(number(record.second) && (1..=99_999).contains(&record.price)),
            _ => assert!((1..=5).contains(&record.second) && record.price == 0),
        }
        assert!((1..=99_999).contains(&marked_point(at).price));
    }
}
