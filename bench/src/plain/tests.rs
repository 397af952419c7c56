use super::settings::{TOP_NUMBER, TOP_QUANTITY};
use super::*;

const BASE: Settings = Settings { tick: 1, indicative: 100, absolute: 20, static_band: 10, last: 0 };

/// A session with its slices.
struct Desk {
    session: Session,
    tape: Vec<Record>,
    scratch: Vec<Point>,
}

impl Desk {
    fn with(settings: Settings, capacity: usize, rule: Rule, tape: usize) -> Desk {
        let session = Session::new(settings, capacity, rule).unwrap();
        let empty = Record::Withdrawal { number: 0, quantity: 0, reason: 0 };
        let points = session.grid().points();
        Desk { session, tape: vec![empty; tape], scratch: vec![Point { price: 0, demand: 0, supply: 0 }; points] }
    }

    fn new(rule: Rule) -> Desk {
        Desk::with(BASE, 100, rule, 100)
    }

    fn one(&mut self, call: Call) -> Answer {
        let mut answers = [Answer { refusal: 99, answer: 99 }];
        assert_eq!(self.session.run(&[call], &mut answers, &mut self.tape, &mut self.scratch), 0);
        answers[0]
    }

    /// The answer of a call that is done.
    fn done(&mut self, call: Call) -> u64 {
        let answer = self.one(call);
        assert_eq!(answer.refusal, 0, "{call:?}");
        answer.answer
    }

    fn refused(&mut self, call: Call, refusal: u8) {
        let before = (self.records(), self.session.orders(), self.session.phase(), self.session.last());
        assert_eq!(self.one(call), Answer { refusal, answer: 0 }, "{call:?}");
        assert_eq!(before, (self.records(), self.session.orders(), self.session.phase(), self.session.last()));
    }

    fn records(&self) -> Vec<Record> {
        self.tape[..self.session.used().min(self.tape.len())].to_vec()
    }

    /// What is left of a standing order, else 0.
    fn left(&self, number: u64) -> u64 {
        self.session.orders().iter().find(|order| order.number == number).map_or(0, |order| order.left)
    }

    fn open(&mut self) -> u64 {
        self.done(Call::RandomPeriod);
        self.done(Call::Auction)
    }
}

fn buy(quantity: u64, price: u32) -> Call {
    conditional(Side::Buy, quantity, price, Condition::None)
}

fn sell(quantity: u64, price: u32) -> Call {
    conditional(Side::Sell, quantity, price, Condition::None)
}

/// A price of 0 is the mark market.
fn conditional(side: Side, quantity: u64, price: u32, condition: Condition) -> Call {
    let price = if price == 0 { None } else { Some(price) };
    Call::Order { member: 1, side, price, quantity, condition }
}

fn trade(buy: u64, sell: u64, price: u32, quantity: u64) -> Record {
    Record::Trade { buy, sell, price, quantity }
}

fn gone(number: u64, quantity: u64, reason: u8) -> Record {
    Record::Withdrawal { number, quantity, reason }
}

/// The struck price of an auction over these orders.
fn struck(rule: Rule, calls: &[Call]) -> u32 {
    let mut desk = Desk::new(rule);
    for call in calls {
        desk.done(*call);
    }
    assert!(desk.open() > 0);
    desk.session.reference()
}

#[test]
fn outcomes_1_to_4() {
    let first = [buy(50, 106), sell(50, 98)];
    assert_eq!(struck(Rule::Nearest, &first), 100);
    assert_eq!(struck(Rule::Middle, &first), 102);
    assert_eq!(struck(Rule::Middle, &[buy(50, 103), sell(50, 98)]), 101);
    let third = [buy(80, 105), sell(50, 98)];
    assert_eq!(struck(Rule::Nearest, &third), 100);
    assert_eq!(struck(Rule::Middle, &third), 105);
    assert_eq!(struck(Rule::Middle, &[buy(50, 105), sell(80, 98)]), 98);
}

#[test]
fn outcome_5() {
    for (rule, price) in [(Rule::Nearest, 100), (Rule::Middle, 120)] {
        let mut desk = Desk::new(rule);
        desk.done(buy(30, 0));
        desk.done(sell(20, 0));
        assert_eq!(desk.open(), 20);
        assert_eq!(desk.records(), [trade(1, 2, price, 20)]);
        assert_eq!(desk.session.orders(), [Order { number: 1, member: 1, side: Side::Buy, price, left: 10 }]);
    }
}

#[test]
fn outcome_6() {
    for rule in [Rule::Nearest, Rule::Middle] {
        let mut desk = Desk::new(rule);
        desk.done(buy(10, 121));
        desk.done(sell(10, 90));
        assert_eq!(desk.open(), 0);
        assert_eq!(desk.session.phase(), Phase::Trading);
        assert_eq!((desk.session.reference(), desk.session.standing(), desk.session.used()), (100, 2, 0));
    }
}

#[test]
fn outcome_7() {
    let settings = Settings { indicative: 95, absolute: 10, ..BASE };
    let grid = settings.grid().unwrap();
    assert_eq!((grid.lowest, grid.highest, grid.points()), (86, 104, 19));
    for price in [85, 86, 104, 105] {
        for side in [Side::Buy, Side::Sell] {
            let mut desk = Desk::with(settings, 10, Rule::Nearest, 10);
            desk.done(conditional(side, 10, price, Condition::None));
            desk.done(conditional(side.other(), 10, 0, Condition::None));
            let traded = if grid.holds(price) { 10 } else { 0 };
            assert_eq!(desk.open(), traded, "{price}");
        }
    }
}

#[test]
fn outcome_8() {
    let mut desk = Desk::new(Rule::Nearest);
    for call in [buy(10, 102), buy(10, 0), buy(10, 103), sell(25, 100)] {
        desk.done(call);
    }
    assert_eq!(desk.open(), 25);
    assert_eq!(desk.records(), [trade(2, 4, 100, 10), trade(3, 4, 100, 10), trade(1, 4, 100, 5)]);
    assert_eq!(desk.session.orders(), [Order { number: 1, member: 1, side: Side::Buy, price: 102, left: 5 }]);
}

#[test]
fn outcome_9() {
    let cases = [
        (Condition::None, vec![trade(3, 1, 109, 5)], 2, Phase::PreOpening),
        (Condition::FillOrKill, vec![gone(3, 8, 3)], 2, Phase::Trading),
        (Condition::ImmediateOrCancel, vec![trade(3, 1, 109, 5), gone(3, 3, 3)], 1, Phase::PreOpening),
    ];
    for (condition, records, standing, phase) in cases {
        let mut desk = Desk::new(Rule::Nearest);
        desk.open();
        desk.done(sell(5, 109));
        desk.done(sell(5, 111));
        assert_eq!(desk.done(conditional(Side::Buy, 8, 112, condition)), 3);
        assert_eq!(desk.records(), records);
        assert_eq!((desk.session.standing(), desk.session.phase()), (standing, phase));
        assert_eq!(desk.left(3), if condition == Condition::None { 3 } else { 0 });
        assert_eq!(desk.session.reference(), 100);
    }
}

#[test]
fn outcome_10() {
    let mut desk = Desk::new(Rule::Nearest);
    desk.open();
    desk.done(sell(5, 101));
    assert_eq!(desk.done(buy(7, 0)), 2);
    assert_eq!(desk.records(), [trade(2, 1, 101, 5)]);
    assert_eq!(desk.session.orders(), [Order { number: 2, member: 1, side: Side::Buy, price: 101, left: 2 }]);
}

#[test]
fn outcome_11() {
    let mut desk = Desk::with(BASE, 1, Rule::Nearest, 10);
    desk.open();
    desk.done(sell(5, 101));
    desk.refused(buy(8, 100), 10);
    assert_eq!(desk.done(buy(8, 101)), 2);
    assert_eq!(desk.left(2), 3);
}

#[test]
fn outcome_12() {
    let with = |indicative| Session::new(Settings { tick: 5, indicative, ..BASE }, 1, Rule::Nearest).err();
    assert_eq!((with(100), with(0), with(102)), (None, Some(2), Some(2)));
}

#[test]
fn making() {
    let with = |settings| Session::new(settings, 1, Rule::Middle).err();
    assert_eq!(with(BASE), None);
    for value in [0, 1_001, u32::MAX] {
        assert_eq!(with(Settings { tick: value, ..BASE }), Some(1));
    }
    for value in [0, 100, u32::MAX] {
        assert_eq!(with(Settings { absolute: value, indicative: 0, ..BASE }), Some(1));
        assert_eq!(with(Settings { static_band: value, ..BASE }), Some(1));
    }
    for value in [1_000_000_000, u64::MAX] {
        assert_eq!(with(Settings { last: value, ..BASE }), Some(1));
    }
    for value in [0, 100_000, u32::MAX] {
        assert_eq!(with(Settings { indicative: value, ..BASE }), Some(2));
    }
    let mut desk = Desk::new(Rule::Nearest);
    desk.done(buy(1, 100));
    let book = desk.session.into_book();
    let refused = Engine::over(Settings { tick: 0, ..BASE }, book, Rule::Nearest).err().unwrap();
    assert_eq!(refused.0, 1);
    let refused = Engine::over(BASE, refused.1, Rule::Nearest).err().unwrap();
    assert_eq!((refused.0, refused.1.standing()), (3, 1));
}

#[test]
fn grids() {
    let grid = |tick, indicative, absolute| {
        let grid = Settings { tick, indicative, absolute, ..BASE }.grid().unwrap();
        (grid.lowest, grid.highest, grid.points())
    };
    assert_eq!(grid(1, 50_251, 99), (503, 99_999, 99_497));
    assert_eq!(grid(1, 1, 99), (1, 1, 1));
    assert_eq!(grid(1_000, 99_000, 99), (1_000, 99_000, 99));
    assert_eq!(grid(5, 100, 8), (95, 105, 3));
    let most = (1..=99_999).map(|indicative| grid(1, indicative, 99).2).max();
    assert_eq!(most, Some(99_497));
}

#[test]
fn questions_of_an_order_in_their_order() {
    let call = |member, quantity, price, condition| Call::Order {
        member,
        side: Side::Buy,
        price: Some(price),
        quantity,
        condition,
    };
    let settings = Settings { tick: 5, last: TOP_NUMBER - 1, ..BASE };
    let mut desk = Desk::with(settings, 0, Rule::Nearest, 0);
    let fok = Condition::FillOrKill;
    desk.refused(call(0, 0, 0, fok), 5);
    desk.refused(call(1_000, 0, 0, fok), 5);
    desk.refused(call(u32::MAX, 0, 0, fok), 5);
    for quantity in [0, TOP_QUANTITY + 1, u64::MAX] {
        desk.refused(call(1, quantity, 0, fok), 6);
    }
    for price in [0, 101, 99_999, 100_000, u32::MAX] {
        desk.refused(call(1, 1, price, fok), 7);
    }
    desk.refused(call(1, 1, 99_995, fok), 8);
    desk.refused(call(999, TOP_QUANTITY, 5, Condition::None), 10);
    desk.open();
    desk.refused(call(1, 1, 100, fok), 11);
    desk.tape.push(gone(0, 0, 0));
    assert_eq!(desk.done(call(1, 1, 100, fok)), TOP_NUMBER);
    desk.refused(call(1, 1, 100, fok), 9);
    desk.done(Call::Close);
    desk.refused(call(0, 1, 100, fok), 4);
    for call in [Call::RandomPeriod, Call::Auction, Call::Close, Call::Withdrawal { member: 1, number: 1 }] {
        desk.refused(call, 4);
    }
}

#[test]
fn withdrawals() {
    let mut desk = Desk::with(BASE, 4, Rule::Nearest, 1);
    desk.done(buy(7, 100));
    desk.done(buy(8, 130));
    for (member, number) in [(2, 1), (1, 0), (1, 3), (u32::MAX, 1), (65_537, 1), (1, (1 << 32) + 1), (1, u64::MAX)] {
        desk.refused(Call::Withdrawal { member, number }, 12);
    }
    assert_eq!(desk.done(Call::Withdrawal { member: 1, number: 2 }), 8);
    assert_eq!(desk.records(), [gone(2, 8, 1)]);
    desk.refused(Call::Withdrawal { member: 1, number: 2 }, 12);
    desk.refused(Call::Withdrawal { member: 1, number: 1 }, 11);
    desk.done(Call::RandomPeriod);
    desk.refused(Call::Withdrawal { member: 1, number: 1 }, 4);
}

#[test]
fn an_auction_without_room() {
    // With a price: the call is put back.
    let mut desk = Desk::with(BASE, 4, Rule::Nearest, 1);
    for call in [buy(5, 100), buy(5, 101), sell(10, 99)] {
        desk.done(call);
    }
    desk.refused(Call::Auction, 4);
    desk.done(Call::RandomPeriod);
    let scratch = desk.scratch.split_off(40);
    desk.refused(Call::Auction, 14);
    assert!(desk.scratch.iter().all(|point| point.price == 0));
    desk.scratch.extend(scratch);
    desk.refused(Call::Auction, 11);
    assert_eq!(desk.scratch[20], Point { price: 100, demand: 10, supply: 10 });
    desk.tape.push(gone(0, 0, 0));
    assert_eq!(desk.done(Call::Auction), 10);
    assert_eq!(desk.records(), [trade(2, 3, 100, 5), trade(1, 3, 100, 5)]);

    // Without one: refused, and the curve is written.
    let mut desk = Desk::with(BASE, 4, Rule::Nearest, 1);
    desk.done(sell(1, 0));
    desk.done(sell(2, 0));
    desk.done(Call::RandomPeriod);
    desk.refused(Call::Auction, 11);
    assert_eq!(desk.scratch[0], Point { price: 80, demand: 0, supply: 3 });
    desk.tape.push(gone(0, 0, 0));
    assert_eq!(desk.done(Call::Auction), 0);
    assert_eq!(desk.records(), [gone(1, 1, 2), gone(2, 2, 2)]);
}

#[test]
fn tokens() {
    let mut desk = Desk::new(Rule::Nearest);
    let mut other = Desk::new(Rule::Nearest);
    for (desk, quantity) in [(&mut desk, 5), (&mut other, 6)] {
        desk.done(buy(quantity, 100));
        desk.done(sell(quantity, 100));
        desk.done(Call::RandomPeriod);
    }
    let foreign = other.session.call(&mut other.tape, &mut other.scratch).unwrap().unwrap();
    let (refusal, foreign) = desk.session.strike(foreign, &mut desk.tape).unwrap_err();
    assert_eq!(refusal, 4);
    let own = desk.session.call(&mut desk.tape, &mut desk.scratch).unwrap().unwrap();
    for call in [buy(1, 1), Call::RandomPeriod, Call::Auction, Call::Close] {
        desk.refused(call, 4);
    }
    let (refusal, foreign) = desk.session.strike(foreign, &mut desk.tape).unwrap_err();
    assert_eq!(refusal, 13);
    let (refusal, foreign) = desk.session.put_back(foreign).unwrap_err();
    assert_eq!((refusal, foreign.price(), foreign.quantity()), (13, 100, 6));
    assert_eq!(desk.session.put_back(own).unwrap(), 0);
    assert_eq!(desk.session.phase(), Phase::Random);
    let own = desk.session.call(&mut desk.tape, &mut desk.scratch).unwrap().unwrap();
    let (refusal, own) = desk.session.strike(own, &mut []).unwrap_err();
    assert_eq!(refusal, 11);
    assert_eq!(desk.session.strike(own, &mut desk.tape).unwrap(), 5);
    assert_eq!(other.session.strike(foreign, &mut other.tape).unwrap(), 6);
}

#[test]
fn market_orders_in_trading() {
    let mut desk = Desk::new(Rule::Nearest);
    desk.open();
    // Inactive orders are not opposite.
    desk.done(sell(1, 121));
    desk.done(buy(7, 0));
    desk.done(conditional(Side::Buy, 6, 0, Condition::ImmediateOrCancel));
    assert_eq!(desk.records(), [gone(2, 7, 4), gone(3, 6, 3)]);
    // Interrupted before any fill: it stands as a market order.
    desk.done(sell(4, 111));
    desk.done(buy(7, 0));
    assert_eq!(desk.session.phase(), Phase::PreOpening);
    assert_eq!(desk.session.orders()[2], Order { number: 5, member: 1, side: Side::Buy, price: 0, left: 7 });
    // At the price of the auction it stands as a limit order.
    assert_eq!(desk.open(), 4);
    assert_eq!(desk.session.orders()[1].price, 111);
}

#[test]
fn filled_exactly_before_the_band() {
    let mut desk = Desk::new(Rule::Nearest);
    desk.open();
    desk.done(sell(5, 110));
    desk.done(sell(5, 111));
    desk.done(buy(5, 120));
    assert_eq!(desk.session.phase(), Phase::Trading);
    // Below the band: a buy interrupts as well.
    desk.done(sell(5, 89));
    desk.done(buy(5, 120));
    assert_eq!(desk.session.phase(), Phase::PreOpening);
    assert_eq!(desk.records(), [trade(3, 1, 110, 5)]);
}

#[test]
fn close_withdraws_by_number() {
    let mut desk = Desk::with(BASE, 4, Rule::Nearest, 3);
    for call in [sell(1, 110), buy(2, 130), buy(3, 0), sell(4, 99)] {
        desk.done(call);
    }
    desk.refused(Call::Close, 11);
    desk.tape.push(gone(0, 0, 0));
    assert_eq!(desk.done(Call::Close), 4);
    assert_eq!(desk.records(), [gone(1, 1, 5), gone(2, 2, 5), gone(3, 3, 5), gone(4, 4, 5)]);
}

#[test]
fn lists() {
    let mut desk = Desk::new(Rule::Nearest);
    let calls = [buy(1, 100), Call::Auction];
    let mark = Answer { refusal: 9, answer: 9 };
    let mut answers = [mark; 1];
    assert_eq!(desk.session.run(&calls, &mut answers, &mut desk.tape, &mut desk.scratch), 15);
    assert_eq!((answers, desk.session.standing()), ([mark], 0));
    let mut answers = [mark; 3];
    assert_eq!(desk.session.run(&calls, &mut answers, &mut desk.tape, &mut desk.scratch), 0);
    assert_eq!(answers, [Answer { refusal: 0, answer: 1 }, Answer { refusal: 4, answer: 0 }, mark]);
    // A shorter tape than was used: what writes nothing is still done.
    desk.done(Call::Withdrawal { member: 1, number: 1 });
    desk.tape.clear();
    desk.done(buy(1, 100));
    desk.refused(Call::Close, 11);
}

/// The longest tape has 65,536 places, whatever its length.
#[test]
fn the_longest_tape() {
    let mut desk = Desk::with(BASE, 0, Rule::Nearest, 70_000);
    desk.open();
    let call = conditional(Side::Buy, 1, 100, Condition::ImmediateOrCancel);
    for _ in 0..65_536 {
        desk.done(call);
    }
    assert_eq!(desk.one(call), Answer { refusal: 11, answer: 0 });
    assert_eq!(desk.session.used(), 65_536);
    assert_eq!(desk.tape[65_536], gone(0, 0, 0));
}
