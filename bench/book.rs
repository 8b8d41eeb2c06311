//! A price-time order book by hand and with no proof, over the same maps: orders by the number under which they came, numbers by
//! identifier, and places by symbol, side, price and arrival. What `cases_orders bench` does is compared with this. It is no part of
//! the product. Usage: book COUNT WIDTH
use std::collections::{BTreeMap, BTreeSet};
use std::env;

#[derive(Clone, Copy, PartialEq, Eq, PartialOrd, Ord)]
enum Side {
    Buy,
    Sell,
}

#[derive(Clone, Copy)]
struct Resting {
    cl_id: u64,
    side: Side,
    symbol: [u8; 8],
    quantity: u32,
    price: i64,
}

#[derive(Clone, Copy, PartialEq, Eq, PartialOrd, Ord)]
struct Place {
    symbol: [u8; 8],
    side: Side,
    rank: i64,
    arrival: u64,
}

enum Order {
    New { cl_id: u64, side: Option<Side>, symbol: [u8; 8], quantity: u32, price: i64 },
    Cancel { cl_id: u64, orig: u64 },
    None,
}

#[derive(Clone, Copy)]
struct Report {
    cl_id: u64,
    kind: u64,
    quantity: u32,
    price: i64,
}

const ACCEPTED: u64 = 1;
const FILLED: u64 = 2;
const EXPIRED: u64 = 3;
const REJECTED: u64 = 4;

fn rejected(cl_id: u64) -> Report {
    Report { cl_id, kind: REJECTED, quantity: 0, price: 0 }
}

fn rank(side: Side, price: i64) -> i64 {
    match side {
        Side::Sell => price,
        Side::Buy => -1 - price,
    }
}

fn place(arrival: u64, order: &Resting) -> Place {
    Place { symbol: order.symbol, side: order.side, rank: rank(order.side, order.price), arrival }
}

#[derive(Default)]
struct Book {
    orders: BTreeMap<u64, Resting>,
    arrivals: BTreeMap<u64, u64>,
    queue: BTreeSet<Place>,
    next: u64,
}

impl Book {
    fn on_order(&mut self, order: &Order) -> Vec<Report> {
        match *order {
            Order::None => vec![rejected(0)],
            Order::Cancel { cl_id, orig } => match self.take(orig) {
                None => vec![rejected(cl_id)],
                Some(order) => vec![Report { cl_id: orig, kind: EXPIRED, quantity: order.quantity, price: order.price }],
            },
            Order::New { cl_id, side, symbol, quantity, price } => {
                if quantity == 0 || quantity > 1_000_000 || price <= 0 || self.arrivals.contains_key(&cl_id) {
                    return vec![rejected(cl_id)];
                }
                match side {
                    None => vec![rejected(cl_id)],
                    Some(side) => self.enter(Resting { cl_id, side, symbol, quantity, price }),
                }
            }
        }
    }

    fn take(&mut self, cl_id: u64) -> Option<Resting> {
        let arrival = self.arrivals.remove(&cl_id)?;
        let order = self.orders.remove(&arrival)?;
        self.queue.remove(&place(arrival, &order));
        Some(order)
    }

    fn enter(&mut self, mut order: Resting) -> Vec<Report> {
        let mut told = vec![Report { cl_id: order.cl_id, kind: ACCEPTED, quantity: order.quantity, price: order.price }];
        let other = if order.side == Side::Buy { Side::Sell } else { Side::Buy };
        let first = Place { symbol: order.symbol, side: other, rank: i64::MIN, arrival: 0 };
        let last = Place { symbol: order.symbol, side: other, rank: rank(other, order.price), arrival: u64::MAX };
        while order.quantity > 0 {
            let Some(&at) = self.queue.range(first..=last).next() else { break };
            let met = self.orders.get_mut(&at.arrival).unwrap();
            let quantity = order.quantity.min(met.quantity);
            let (cl_id, price) = (met.cl_id, met.price);
            told.push(Report { cl_id: order.cl_id, kind: FILLED, quantity, price });
            told.push(Report { cl_id, kind: FILLED, quantity, price });
            order.quantity -= quantity;
            met.quantity -= quantity;
            if met.quantity == 0 {
                self.take(cl_id);
            }
        }
        if order.quantity > 0 {
            let arrival = self.next;
            self.next += 1;
            self.arrivals.insert(order.cl_id, arrival);
            self.queue.insert(place(arrival, &order));
            self.orders.insert(arrival, order);
        }
        told
    }
}

/// The same orders of chance as those of the cases.
struct Chance {
    state: u64,
    price: i64,
    next: u64,
    width: u64,
}

const BACK: u64 = 400;

impl Chance {
    fn draw(&mut self, below: u64) -> u64 {
        self.state = self.state.wrapping_mul(6_364_136_223_846_793_005).wrapping_add(1_442_695_040_888_963_407);
        (self.state >> 33) % below.max(1)
    }

    fn price(&mut self, side: Option<Side>) -> i64 {
        let step = self.draw(21) as i64;
        self.price = (self.price + step - 10).clamp(1, 1_000_000_000);
        let away = self.draw(self.width) as i64;
        let near = self.draw(8) as i64;
        match side {
            Some(Side::Buy) => self.price - away + near,
            _ => self.price + away - near,
        }
    }

    fn order(&mut self) -> Order {
        let cl_id = self.next;
        self.next += 1;
        let drawn = self.draw(100);
        if drawn == 0 {
            return Order::None;
        }
        if drawn <= 30 {
            let back = self.draw(BACK);
            return Order::Cancel { cl_id, orig: cl_id.saturating_sub(back) };
        }
        let again = if self.draw(50) == 0 { self.draw(BACK) } else { 0 };
        let side = match self.draw(64) {
            0 => None,
            drawn if drawn % 2 == 0 => Some(Side::Buy),
            _ => Some(Side::Sell),
        };
        let symbol = b'A' + self.draw(3) as u8;
        let quantity = self.draw(100) as u32;
        let price = self.price(side);
        Order::New { cl_id: cl_id.saturating_sub(again), side, symbol: [symbol, 0, 0, 0, 0, 0, 0, 0], quantity, price }
    }
}

fn main() {
    let words: Vec<u64> = env::args().skip(1).map(|word| word.parse().unwrap()).collect();
    let mut book = Book::default();
    let mut chance = Chance { state: 1, price: 1_000_000, next: 1, width: words[1] };
    let (mut reports, mut sum) = (0u64, 0u64);
    for _ in 0..words[0] {
        let order = chance.order();
        for report in book.on_order(&order) {
            reports += 1;
            sum = sum
                .wrapping_mul(31)
                .wrapping_add(report.cl_id)
                .wrapping_add(report.kind)
                .wrapping_add(u64::from(report.quantity))
                .wrapping_add(report.price as u64);
        }
    }
    println!("{reports} {sum}");
}
