//! The commands of a storm in a plain program, as a limit: `storm_limit WAREHOUSES CUSTOMERS ITEMS TERMINALS COMMANDS`. The
//! threads are those of `hyper storm`: a worker for each warehouse, behind a channel of 64 jobs, and the terminals, of which
//! each hands in its commands one after another. The rows are those of the tables, in arrays, with BTreeMaps for the
//! indexes. There are no pages, no undo log, no kept list and no snapshots, a command can't be refused, and one of two
//! warehouses holds two. It prints how many commands were commits, the cents that were paid, and commands a second.

use std::collections::BTreeMap;
use std::hint::black_box;
use std::sync::mpsc::{Receiver, SyncSender, sync_channel};
use std::sync::{Barrier, Mutex};
use std::thread;
use std::time::Instant;

const DISTRICTS: usize = 10;
const THRESHOLD: u64 = 15;
const PLACES: usize = 64;

// Rows have all columns, so that they take the room that they take in any program. Some are never read.
#[allow(dead_code)]
struct Customer {
    id: u16,
    district: u8,
    warehouse: u8,
    first: [u8; 16],
    middle: [u8; 2],
    last: [u8; 16],
    credit: [u8; 2],
    discount: u16,
    balance: i64,
    ytd_payment: i64,
    payments: u64,
    deliveries: u64,
}

struct District {
    tax: i64,
    ytd: i64,
    next_order: u64,
}

#[allow(dead_code)]
struct Stock {
    item: u32,
    warehouse: u8,
    quantity: u64,
    ytd: u64,
    orders: u64,
    remote: u64,
}

#[allow(dead_code)]
struct History {
    customer: u16,
    customer_district: u8,
    customer_warehouse: u8,
    district: u8,
    warehouse: u8,
    at: u64,
    amount: i64,
    data: [u8; 24],
}

#[allow(dead_code)]
struct Order {
    id: u64,
    district: u8,
    warehouse: u8,
    customer: u16,
    at: u64,
    carrier: u8,
    lines: u8,
    is_local: bool,
}

#[allow(dead_code)]
#[derive(Clone)]
struct OrderLine {
    order: u64,
    district: u8,
    warehouse: u8,
    number: u8,
    item: u32,
    supplier: u8,
    quantity: u64,
    delivered: u64,
    amount: i64,
}

/// A warehouse with its rows and indexes.
struct Warehouse {
    id: usize,
    tax: i64,
    ytd: i64,
    districts: Vec<District>,
    customers: Vec<Customer>,
    stock: Vec<Stock>,
    history: Vec<History>,
    orders: Vec<Order>,
    lines: Vec<OrderLine>,
    order_slots: BTreeMap<(u8, u64), usize>,
    line_slots: BTreeMap<(u8, u64, u8), usize>,
    last_orders: BTreeMap<(u8, u16), u64>,
    undelivered: BTreeMap<(u8, u64), ()>,
}

#[derive(Clone, Copy)]
struct Line {
    item: usize,
    supplier: usize,
    quantity: u64,
}

#[derive(Clone, Copy)]
enum Kind {
    NewOrder { customer: usize, lines: [Line; 5] },
    Payment { customer: usize, amount: i64 },
    OrderStatus { customer: usize },
    StockLevel,
    Delivery { carrier: u8 },
}

/// A command. Warehouses, districts, customers and items count from 0.
#[derive(Clone, Copy)]
struct Command {
    home: usize,
    other: usize,
    district: usize,
    at: u64,
    kind: Kind,
}

/// What a command is answered.
#[allow(dead_code)]
enum Reply {
    Ordered { id: u64, total: i64 },
    Paid { cents: i64, balance: i64 },
    Status { balance: i64, name: [u8; 16], order: Option<(u64, Vec<OrderLine>)> },
    Low(usize),
    Delivered([u64; DISTRICTS]),
}

struct Sizes {
    warehouses: usize,
    customers: usize,
    items: usize,
}

/// The command of a terminal's turn, both from 1.
fn command_of(sizes: &Sizes, terminal: usize, turn: usize) -> Command {
    let home = (terminal - 1) % sizes.warehouses;
    let next = terminal % sizes.warehouses;
    let customer = turn % sizes.customers;
    let line = |place: usize| Line {
        item: (terminal + turn + place) % sizes.items,
        supplier: if place == 4 && turn % 10 < 5 { next } else { home },
        quantity: 1 + ((turn + place) % 10) as u64,
    };
    let kind = match turn % 5 {
        1 => Kind::NewOrder { customer, lines: [line(0), line(1), line(2), line(3), line(4)] },
        2 => Kind::Payment { customer, amount: 100 + turn as i64 },
        3 => Kind::OrderStatus { customer },
        4 => Kind::StockLevel,
        _ => Kind::Delivery { carrier: 1 + (turn % 10) as u8 },
    };
    let other = if matches!(turn % 10, 1 | 2) { next } else { home };
    Command { home, other, district: (terminal + turn) % DISTRICTS, at: turn as u64, kind }
}

impl Warehouse {
    fn new(id: usize, sizes: &Sizes) -> Warehouse {
        let customer = |place: usize| Customer {
            id: (place % sizes.customers) as u16,
            district: (place / sizes.customers) as u8,
            warehouse: id as u8,
            first: *b"first name      ",
            middle: *b"OE",
            last: *b"last name       ",
            credit: *b"GC",
            discount: (place % 5000) as u16,
            balance: -1000,
            ytd_payment: 1000,
            payments: 1,
            deliveries: 0,
        };
        let stock = |item: usize| Stock {
            item: item as u32,
            warehouse: id as u8,
            quantity: 10 + (item % 91) as u64,
            ytd: 0,
            orders: 0,
            remote: 0,
        };
        Warehouse {
            id,
            tax: 1000,
            ytd: 30_000_000,
            districts: (0..DISTRICTS).map(|_| District { tax: 500, ytd: 3_000_000, next_order: 1 }).collect(),
            customers: (0..DISTRICTS * sizes.customers).map(customer).collect(),
            stock: (0..sizes.items).map(stock).collect(),
            history: Vec::new(),
            orders: Vec::new(),
            lines: Vec::new(),
            order_slots: BTreeMap::new(),
            line_slots: BTreeMap::new(),
            last_orders: BTreeMap::new(),
            undelivered: BTreeMap::new(),
        }
    }

    /// The slots of an order's lines.
    fn lines_of(&self, district: u8, from: u64, to: u64) -> impl Iterator<Item = usize> + '_ {
        self.line_slots.range((district, from, 0)..(district, to, 0)).map(|(_, slot)| *slot)
    }

    fn order_status(&self, sizes: &Sizes, district: usize, customer: usize) -> Reply {
        let row = &self.customers[district * sizes.customers + customer];
        let order = self.last_orders.get(&(district as u8, customer as u16)).map(|id| {
            let slots = self.lines_of(district as u8, *id, id + 1);
            (*id, slots.map(|slot| self.lines[slot].clone()).collect())
        });
        Reply::Status { balance: row.balance, name: row.last, order }
    }

    fn stock_level(&self, district: usize) -> Reply {
        let next = self.districts[district].next_order;
        let from = next.saturating_sub(20).max(1);
        let slots = self.lines_of(district as u8, from, next);
        let items = slots.map(|slot| self.lines[slot].item as usize);
        let mut low: Vec<usize> = items.filter(|item| self.stock[*item].quantity < THRESHOLD).collect();
        low.sort_unstable();
        low.dedup();
        Reply::Low(low.len())
    }

    fn deliver(&mut self, sizes: &Sizes, carrier: u8, at: u64) -> Reply {
        let mut delivered = [0; DISTRICTS];
        for (place, delivered) in delivered.iter_mut().enumerate() {
            let district = place as u8;
            let Some((key, ())) = self.undelivered.range((district, 0)..(district + 1, 0)).next() else {
                continue;
            };
            *delivered = key.1;
            self.undelivered.remove(&(district, *delivered));
            let order = &mut self.orders[self.order_slots[&(district, *delivered)]];
            order.carrier = carrier;
            let customer = &mut self.customers[place * sizes.customers + usize::from(order.customer)];
            customer.deliveries += 1;
            for (_, slot) in self.line_slots.range((district, *delivered, 0)..(district, *delivered + 1, 0)) {
                self.lines[*slot].delivered = at;
                customer.balance += self.lines[*slot].amount;
            }
        }
        Reply::Delivered(delivered)
    }
}

/// The warehouses that a command names: its home, and another one where it names two.
struct Held<'a> {
    home: &'a mut Warehouse,
    other: Option<&'a mut Warehouse>,
}

impl Held<'_> {
    fn of(&mut self, id: usize) -> &mut Warehouse {
        match &mut self.other {
            Some(other) if id != self.home.id => other,
            _ => self.home,
        }
    }
}

fn order(held: &mut Held, shop: &Shop, command: &Command, customer: usize, lines: &[Line]) -> Reply {
    let (home, district) = (command.home, command.district);
    let row = &mut held.home.districts[district];
    let id = row.next_order;
    row.next_order += 1;
    let tax = held.home.tax + row.tax;
    let mut sum = 0;
    for (place, line) in lines.iter().enumerate() {
        let stock = &mut held.of(line.supplier).stock[line.item];
        let more = if stock.quantity >= line.quantity + 10 { 0 } else { 91 };
        stock.quantity = stock.quantity + more - line.quantity;
        stock.ytd += line.quantity;
        stock.orders += 1;
        stock.remote += u64::from(line.supplier != home);
        let amount = line.quantity as i64 * shop.prices[line.item];
        sum += amount;
        let number = place as u8 + 1;
        held.home.line_slots.insert((district as u8, id, number), held.home.lines.len());
        held.home.lines.push(OrderLine {
            order: id,
            district: district as u8,
            warehouse: home as u8,
            number,
            item: line.item as u32,
            supplier: line.supplier as u8,
            quantity: line.quantity,
            delivered: 0,
            amount,
        });
    }
    let own = &mut *held.home;
    let discount = i64::from(own.customers[district * shop.sizes.customers + customer].discount);
    own.order_slots.insert((district as u8, id), own.orders.len());
    own.last_orders.insert((district as u8, customer as u16), id);
    own.undelivered.insert((district as u8, id), ());
    own.orders.push(Order {
        id,
        district: district as u8,
        warehouse: home as u8,
        customer: customer as u16,
        at: command.at,
        carrier: 0,
        lines: lines.len() as u8,
        is_local: lines.iter().all(|line| line.supplier == home),
    });
    Reply::Ordered { id, total: sum * (10_000 - discount) / 10_000 * (10_000 + tax) / 10_000 }
}

fn pay(held: &mut Held, sizes: &Sizes, command: &Command, customer: usize, amount: i64) -> Reply {
    let (home, other, district) = (command.home, command.other, command.district);
    held.home.ytd += amount;
    held.home.districts[district].ytd += amount;
    held.home.history.push(History {
        customer: customer as u16,
        customer_district: district as u8,
        customer_warehouse: other as u8,
        district: district as u8,
        warehouse: home as u8,
        at: command.at,
        amount,
        data: *b"warehouse       district",
    });
    let row = &mut held.of(other).customers[district * sizes.customers + customer];
    row.balance -= amount;
    row.ytd_payment += amount;
    row.payments += 1;
    Reply::Paid { cents: amount, balance: row.balance }
}

/// What all threads share.
struct Shop {
    sizes: Sizes,
    prices: Vec<i64>,
    warehouses: Vec<Mutex<Warehouse>>,
}

impl Shop {
    fn answer(&self, mut held: Held, command: &Command) -> Reply {
        match &command.kind {
            Kind::NewOrder { customer, lines } => order(&mut held, self, command, *customer, lines),
            Kind::Payment { customer, amount } => pay(&mut held, &self.sizes, command, *customer, *amount),
            Kind::OrderStatus { customer } => held.home.order_status(&self.sizes, command.district, *customer),
            Kind::StockLevel => held.home.stock_level(command.district),
            Kind::Delivery { carrier } => held.home.deliver(&self.sizes, *carrier, command.at),
        }
    }

    /// Does a command of two warehouses under their locks, the lower one first.
    fn cross(&self, command: &Command) -> Reply {
        let (low, high) = (command.home.min(command.other), command.home.max(command.other));
        let mut low = self.warehouses[low].lock().unwrap();
        let mut high = self.warehouses[high].lock().unwrap();
        let (home, other) = if low.id == command.home { (&mut low, &mut high) } else { (&mut high, &mut low) };
        self.answer(Held { home, other: Some(other) }, command)
    }

    fn work(&self, place: usize, jobs: Receiver<Job>) {
        for (command, answers) in jobs {
            let reply = self.answer(Held { home: &mut self.warehouses[place].lock().unwrap(), other: None }, &command);
            answers.send(reply).unwrap();
        }
    }

    /// The commits of a terminal, and the cents that it paid.
    fn run(&self, terminal: usize, commands: usize, queue: SyncSender<Job>) -> (u64, i64) {
        let (send, answers) = sync_channel(1);
        let (mut commits, mut cents) = (0, 0);
        for turn in 1..=commands {
            let command = command_of(&self.sizes, terminal, turn);
            let reply = if command.other != command.home {
                self.cross(&command)
            } else {
                queue.send((command, send.clone())).unwrap();
                answers.recv().unwrap()
            };
            commits += u64::from(matches!(reply, Reply::Ordered { .. } | Reply::Paid { .. } | Reply::Delivered(_)));
            if let Reply::Paid { cents: paid, .. } = &reply {
                cents += paid;
            }
            black_box(&reply);
        }
        (commits, cents)
    }
}

type Job = (Command, SyncSender<Reply>);

fn main() {
    let words: Vec<usize> = std::env::args().skip(1).map(|word| word.parse().unwrap()).collect();
    let &[warehouses, customers, items, terminals, commands] = &words[..] else {
        panic!("storm_limit WAREHOUSES CUSTOMERS ITEMS TERMINALS COMMANDS");
    };
    let sizes = Sizes { warehouses, customers, items };
    let houses = (0..warehouses).map(|id| Mutex::new(Warehouse::new(id, &sizes))).collect();
    let shop = Shop { prices: (0..items).map(|item| 100 + item as i64 % 9900).collect(), warehouses: houses, sizes };
    let (queues, jobs): (Vec<_>, Vec<_>) = (0..warehouses).map(|_| sync_channel::<Job>(PLACES)).unzip();
    let barrier = Barrier::new(terminals + 1);
    let (mut commits, mut cents, mut seconds) = (0, 0, 0.0);
    thread::scope(|scope| {
        let (shop, barrier) = (&shop, &barrier);
        for (place, jobs) in jobs.into_iter().enumerate() {
            scope.spawn(move || shop.work(place, jobs));
        }
        let start_terminal = |terminal: usize| {
            let queue = queues[(terminal - 1) % warehouses].clone();
            scope.spawn(move || {
                barrier.wait();
                shop.run(terminal, commands, queue)
            })
        };
        let running: Vec<_> = (1..=terminals).map(start_terminal).collect();
        barrier.wait();
        let start = Instant::now();
        for thread in running {
            let end = thread.join().unwrap();
            commits += end.0;
            cents += end.1;
        }
        seconds = start.elapsed().as_secs_f64();
        drop(queues);
    });
    let grown: i64 = shop.warehouses.iter().map(|house| house.lock().unwrap().ytd - 30_000_000).sum();
    assert_eq!(grown, cents);
    println!("commits {commits} cents {cents} a_second {:.0}", (terminals * commands) as f64 / seconds);
}
