//! The session: phases, calls, auction, trading and the tape.
//!
//! `FAULT` is 0 in earnest. Other values make the engine err on purpose in one
//! place each, so that a comparison can be seen to find it.

use super::book::{Book, Order, Place, Row, Side};
use super::price::{curve, nearest, Point, Rule};
use super::settings::{Grid, Settings, TOP_MEMBER, TOP_NUMBER, TOP_PRICE, TOP_QUANTITY, TOP_TAPE};

#[derive(Clone, Copy, Debug, PartialEq, Eq)]
pub enum Phase {
    PreOpening,
    Random,
    Called,
    Trading,
    Closed,
}

#[derive(Clone, Copy, Debug, PartialEq, Eq)]
pub enum Condition {
    None,
    FillOrKill,
    ImmediateOrCancel,
}

#[derive(Clone, Copy, Debug, PartialEq, Eq)]
pub enum Call {
    /// No price is the mark market.
    Order {
        member: u32,
        side: Side,
        price: Option<u32>,
        quantity: u64,
        condition: Condition,
    },
    Withdrawal {
        member: u32,
        number: u64,
    },
    RandomPeriod,
    Auction,
    Close,
}

#[derive(Clone, Copy, Debug, PartialEq, Eq)]
pub struct Answer {
    pub refusal: u8,
    pub answer: u64,
}

#[derive(Clone, Copy, Debug, PartialEq, Eq)]
pub enum Record {
    Trade { buy: u64, sell: u64, price: u32, quantity: u64 },
    Withdrawal { number: u64, quantity: u64, reason: u8 },
}

/// Comes only from a call and has no copy.
#[derive(Debug)]
pub struct CalledPrice {
    price: u32,
    quantity: u64,
}

impl CalledPrice {
    pub fn price(&self) -> u32 {
        self.price
    }

    pub fn quantity(&self) -> u64 {
        self.quantity
    }
}

const BY_MEMBER: u8 = 1;
const AFTER_AUCTION: u8 = 2;
const CONDITION_UNMET: u8 = 3;
const NOTHING_OPPOSITE: u8 = 4;
const AT_CLOSE: u8 = 5;

pub struct Engine<const FAULT: u8> {
    grid: Grid,
    indicative: u32,
    static_band: u32,
    rule: Rule,
    book: Book<FAULT>,
    phase: Phase,
    reference: u32,
    last: u64,
    used: usize,
    called: (u32, u64),
}

pub type Session = Engine<0>;

/// What becomes of what remains of an entered order.
#[derive(Clone, Copy)]
enum Rest {
    Nothing,
    /// It stands with this price; 0 is the mark market.
    Stands(u32),
    Withdrawn(u8),
}

/// What an entered order would meet.
struct Meeting {
    fills: usize,
    /// Standing orders that are filled.
    gone: usize,
    rest: u64,
    interrupted: bool,
    first_price: u32,
    last_price: u32,
}

impl Meeting {
    fn none(quantity: u64) -> Meeting {
        Meeting { fills: 0, gone: 0, rest: quantity, interrupted: false, first_price: 0, last_price: 0 }
    }
}

/// How far a strike goes into one side.
struct Taken {
    filled: usize,
    /// What the next order trades of its own.
    part: u32,
}

impl Taken {
    fn traded(&self) -> usize {
        self.filled + (self.part > 0) as usize
    }
}

/// First in rank with first in rank, until the volume has traded.
fn pair(buys: &[Row], sells: &[Row], volume: u64, mut each: impl FnMut(u32, u32, u32)) -> (Taken, Taken) {
    let mut buy_taken = Taken { filled: 0, part: 0 };
    let mut sell_taken = Taken { filled: 0, part: 0 };
    let mut rest = volume;
    let mut buys = buys.iter().rev();
    let mut sells = sells.iter().rev();
    let (mut buy, mut sell) = (buys.next(), sells.next());
    while let (Some(b), Some(s)) = (buy, sell) {
        if rest == 0 {
            break;
        }
        let most = (b.left - buy_taken.part).min(s.left - sell_taken.part);
        let amount = (most as u64).min(rest) as u32;
        each(b.number, s.number, amount);
        rest -= amount as u64;
        buy_taken.part += amount;
        sell_taken.part += amount;
        if buy_taken.part == b.left {
            buy_taken = Taken { filled: buy_taken.filled + 1, part: 0 };
            buy = buys.next();
        }
        if sell_taken.part == s.left {
            sell_taken = Taken { filled: sell_taken.filled + 1, part: 0 };
            sell = sells.next();
        }
    }
    (buy_taken, sell_taken)
}

fn allow(yes: bool, refusal: u8) -> Result<(), u8> {
    if yes {
        Ok(())
    } else {
        Err(refusal)
    }
}

impl<const FAULT: u8> Engine<FAULT> {
    pub fn new(settings: Settings, capacity: usize, rule: Rule) -> Result<Self, u8> {
        Self::over(settings, Book::new(capacity), rule).map_err(|(refusal, _)| refusal)
    }

    /// Makes a session over a book, and gives the book back when refused.
    pub fn over(settings: Settings, book: Book<FAULT>, rule: Rule) -> Result<Self, (u8, Book<FAULT>)> {
        let grid = match settings.grid() {
            Ok(grid) => grid,
            Err(refusal) => return Err((refusal, book)),
        };
        if book.standing() > 0 {
            return Err((3, book));
        }
        Ok(Engine {
            grid,
            indicative: settings.indicative,
            static_band: settings.static_band,
            rule,
            book,
            phase: Phase::PreOpening,
            reference: settings.indicative,
            last: settings.last,
            used: 0,
            called: (0, 0),
        })
    }

    pub fn into_book(self) -> Book<FAULT> {
        self.book
    }

    pub fn grid(&self) -> Grid {
        self.grid
    }

    pub fn phase(&self) -> Phase {
        self.phase
    }

    pub fn reference(&self) -> u32 {
        self.reference
    }

    pub fn last(&self) -> u64 {
        self.last
    }

    pub fn used(&self) -> usize {
        self.used
    }

    pub fn standing(&self) -> usize {
        self.book.standing()
    }

    pub fn orders(&self) -> Vec<Order> {
        self.book.orders()
    }

    /// Runs a list; gives 0, or 15 when it is refused whole.
    pub fn run(&mut self, calls: &[Call], answers: &mut [Answer], tape: &mut [Record], scratch: &mut [Point]) -> u8 {
        if answers.len() < calls.len() {
            return 15;
        }
        for (call, place) in calls.iter().zip(answers) {
            let done = match *call {
                Call::Order { member, side, price, quantity, condition } => {
                    self.order(member, side, price, quantity, condition, tape)
                }
                Call::Withdrawal { member, number } => self.withdrawal(member, number, tape),
                Call::RandomPeriod => self.random_period(),
                Call::Auction => self.auction(tape, scratch),
                Call::Close => self.close(tape),
            };
            *place = match done {
                Ok(answer) => Answer { refusal: 0, answer },
                Err(refusal) => Answer { refusal, answer: 0 },
            };
        }
        0
    }

    pub fn order(
        &mut self,
        member: u32,
        side: Side,
        price: Option<u32>,
        quantity: u64,
        condition: Condition,
        tape: &mut [Record],
    ) -> Result<u64, u8> {
        allow(matches!(self.phase, Phase::PreOpening | Phase::Random | Phase::Trading), 4)?;
        allow((1..=TOP_MEMBER).contains(&member), 5)?;
        allow((1..=TOP_QUANTITY).contains(&quantity), 6)?;
        if let Some(price) = price {
            allow((1..=TOP_PRICE).contains(&price) && price % self.grid.tick == 0, 7)?;
        }
        let trading = self.phase == Phase::Trading;
        allow(condition == Condition::None || trading, 8)?;
        allow(self.last < TOP_NUMBER, 9)?;

        // A market order has the price 0 from here on.
        let price = price.unwrap_or(0);
        let active = price == 0 || self.grid.holds(price);
        let mut meeting = Meeting::none(quantity);
        if trading && active {
            meeting = self.meet(side, price, quantity);
        }
        if condition == Condition::FillOrKill && meeting.rest > 0 {
            // Fault 7: a fill-or-kill order interrupts too.
            let interrupted = FAULT == 7 && meeting.interrupted;
            meeting = Meeting { interrupted, ..Meeting::none(quantity) };
        }
        let rest = if meeting.rest == 0 {
            Rest::Nothing
        } else if condition != Condition::None {
            Rest::Withdrawn(CONDITION_UNMET)
        } else if price > 0 || !trading {
            Rest::Stands(price)
        } else if meeting.fills > 0 {
            // Fault 3: the first fill in place of the last.
            Rest::Stands(if FAULT == 3 { meeting.first_price } else { meeting.last_price })
        } else if meeting.interrupted {
            Rest::Stands(0)
        } else {
            // Fault 4: another reason.
            Rest::Withdrawn(if FAULT == 4 { CONDITION_UNMET } else { NOTHING_OPPOSITE })
        };

        let stands = matches!(rest, Rest::Stands(_)) as usize;
        // Fault 8: what the order fills is still counted.
        let gone = if FAULT == 8 { 0 } else { meeting.gone };
        allow(self.book.standing() - gone + stands <= self.book.capacity(), 10)?;
        let withdrawn = matches!(rest, Rest::Withdrawn(_)) as usize;
        self.ask_tape(meeting.fills + withdrawn, tape)?;

        self.last += 1;
        let number = self.last;
        self.fill(side, number, quantity - meeting.rest, tape);
        match rest {
            Rest::Nothing => {}
            Rest::Stands(price) => {
                let place = Place { price, member: member as u16, side, active };
                self.book.insert(number as u32, meeting.rest as u32, place);
            }
            Rest::Withdrawn(reason) => {
                self.write(Record::Withdrawal { number, quantity: meeting.rest, reason }, tape);
            }
        }
        if meeting.interrupted {
            self.phase = Phase::PreOpening;
        }
        Ok(number)
    }

    /// What an active order would meet in trading; changes nothing.
    fn meet(&self, side: Side, price: u32, quantity: u64) -> Meeting {
        let low = self.reference * (100 - self.static_band);
        let high = self.reference * (100 + self.static_band);
        let other = side.other();
        let mut meeting = Meeting::none(quantity);
        for row in self.book.side(other).iter().rev() {
            let theirs = row.price(other);
            let allowed = match side {
                _ if price == 0 => true,
                Side::Buy => theirs <= price,
                Side::Sell => theirs >= price,
            };
            if meeting.rest == 0 || !allowed {
                break;
            }
            // Fault 2: the upper end does not belong to the band.
            let fault = FAULT == 2 && 100 * theirs == high;
            if 100 * theirs < low || 100 * theirs > high || fault {
                meeting.interrupted = true;
                break;
            }
            let amount = meeting.rest.min(row.left as u64);
            if meeting.fills == 0 {
                meeting.first_price = theirs;
            }
            meeting.last_price = theirs;
            meeting.fills += 1;
            meeting.gone += (amount == row.left as u64) as usize;
            meeting.rest -= amount;
        }
        meeting
    }

    /// Trades a quantity with the best of the other side.
    fn fill(&mut self, side: Side, number: u64, quantity: u64, tape: &mut [Record]) {
        let other = side.other();
        let mut rest = quantity;
        while rest > 0 {
            let Some(&best) = self.book.side(other).last() else { break };
            let amount = rest.min(best.left as u64);
            let (buy, sell) = match side {
                Side::Buy => (number, best.number as u64),
                Side::Sell => (best.number as u64, number),
            };
            self.write(Record::Trade { buy, sell, price: best.price(other), quantity: amount }, tape);
            self.book.take_best(other, amount as u32);
            rest -= amount;
        }
    }

    pub fn withdrawal(&mut self, member: u32, number: u64, tape: &mut [Record]) -> Result<u64, u8> {
        allow(matches!(self.phase, Phase::PreOpening | Phase::Trading), 4)?;
        allow(self.book.place(number).is_some_and(|place| place.member as u32 == member), 12)?;
        self.ask_tape(1, tape)?;
        let quantity = self.book.remove(number as u32) as u64;
        self.write(Record::Withdrawal { number, quantity, reason: BY_MEMBER }, tape);
        Ok(quantity)
    }

    pub fn random_period(&mut self) -> Result<u64, u8> {
        allow(self.phase == Phase::PreOpening, 4)?;
        self.phase = Phase::Random;
        Ok(0)
    }

    /// A call and its strike, or its put-back where the tape is too short.
    pub fn auction(&mut self, tape: &mut [Record], scratch: &mut [Point]) -> Result<u64, u8> {
        match self.call(tape, scratch)? {
            None => Ok(0),
            Some(called) => self.strike(called, tape).map_err(|(refusal, called)| {
                // It was called just now, so it can be put back.
                let _ = self.put_back(called);
                refusal
            }),
        }
    }

    pub fn call(&mut self, tape: &mut [Record], scratch: &mut [Point]) -> Result<Option<CalledPrice>, u8> {
        allow(self.phase == Phase::Random, 4)?;
        allow(scratch.len() >= self.grid.points(), 14)?;
        let (buys, sells) = (self.book.side(Side::Buy), self.book.side(Side::Sell));
        let (lowest, highest) = curve(&self.grid, self.rule, buys, sells, scratch);
        let quantity = lowest.trades();
        if quantity == 0 {
            self.ask_tape(self.book.markets(Side::Buy) + self.book.markets(Side::Sell), tape)?;
            self.withdraw_markets(tape);
            self.phase = Phase::Trading;
            return Ok(None);
        }
        let target = self.rule.target(&lowest, &highest, self.indicative);
        let price = nearest::<FAULT>(lowest.price, highest.price, self.grid.tick, target);
        self.called = (price, quantity);
        self.phase = Phase::Called;
        Ok(Some(CalledPrice { price, quantity }))
    }

    /// The questions that a token must answer; a refused one goes back.
    fn ask_called(&self, called: &CalledPrice) -> Result<(), u8> {
        allow(self.phase == Phase::Called, 4)?;
        allow(self.called == (called.price, called.quantity), 13)
    }

    pub fn strike(&mut self, called: CalledPrice, tape: &mut [Record]) -> Result<u64, (u8, CalledPrice)> {
        if let Err(refusal) = self.ask_called(&called) {
            return Err((refusal, called));
        }
        let CalledPrice { price, quantity } = called;
        let (buys, sells) = (self.book.side(Side::Buy), self.book.side(Side::Sell));
        // The orders that allow the price are the first in rank, and the volume
        // never goes beyond them.
        let mut trades = 0;
        let (bought, sold) = pair(buys, sells, quantity, |_, _, _| trades += 1);
        let untraded = self.book.markets(Side::Buy).saturating_sub(bought.traded())
            + self.book.markets(Side::Sell).saturating_sub(sold.traded());
        if let Err(refusal) = self.ask_tape(trades + untraded, tape) {
            return Err((refusal, called));
        }
        let mut at = self.used;
        pair(buys, sells, quantity, |buy, sell, amount| {
            tape[at] = Record::Trade { buy: buy as u64, sell: sell as u64, price, quantity: amount as u64 };
            at += 1;
        });
        self.used = at;
        for (side, taken) in [(Side::Buy, bought), (Side::Sell, sold)] {
            self.book.take_first(side, taken.filled, taken.part);
            let next = self.book.side(side).last();
            if taken.part > 0 && next.is_some_and(|row| row.is_market()) {
                self.book.turn_best(side, price);
            }
        }
        self.withdraw_markets(tape);
        self.reference = price;
        self.phase = Phase::Trading;
        Ok(quantity)
    }

    pub fn put_back(&mut self, called: CalledPrice) -> Result<u64, (u8, CalledPrice)> {
        if let Err(refusal) = self.ask_called(&called) {
            return Err((refusal, called));
        }
        self.phase = Phase::Random;
        Ok(0)
    }

    /// Withdraws the market orders that still stand after an auction.
    fn withdraw_markets(&mut self, tape: &mut [Record]) {
        let mut gone = self.book.drop_markets(Side::Buy);
        gone.append(&mut self.book.drop_markets(Side::Sell));
        gone.sort_unstable_by_key(|row| row.number);
        for row in gone {
            let (number, quantity) = (row.number as u64, row.left as u64);
            self.write(Record::Withdrawal { number, quantity, reason: AFTER_AUCTION }, tape);
        }
    }

    pub fn close(&mut self, tape: &mut [Record]) -> Result<u64, u8> {
        allow(matches!(self.phase, Phase::PreOpening | Phase::Random | Phase::Trading), 4)?;
        self.ask_tape(self.book.standing(), tape)?;
        let orders = self.book.orders();
        self.book.clear();
        for order in &orders {
            let (number, quantity) = (order.number, order.left);
            self.write(Record::Withdrawal { number, quantity, reason: AT_CLOSE }, tape);
        }
        self.phase = Phase::Closed;
        Ok(orders.len() as u64)
    }

    /// Whether so many records have a free place; none always have.
    fn ask_tape(&self, records: usize, tape: &[Record]) -> Result<(), u8> {
        let mut places = tape.len().min(TOP_TAPE);
        // Fault 5: the last place is left unused.
        if FAULT == 5 {
            places = places.saturating_sub(1);
        }
        allow(records == 0 || records <= places.saturating_sub(self.used), 11)
    }

    /// Only after the tape was asked.
    fn write(&mut self, record: Record, tape: &mut [Record]) {
        tape[self.used] = record;
        self.used += 1;
    }
}
