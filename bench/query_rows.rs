//! Rows in arrays: those of two generated warehouses, and what the orders and deliveries of hy_bench make of them.

pub const WAREHOUSES: u8 = 2;
pub const DISTRICTS: u8 = 10;
pub const CUSTOMERS: u16 = 3_000;
pub const ITEMS: u32 = 100_000;
/// How many lines an order may have.
pub const LINES: usize = 15;
const MIXING: u64 = 0x9e37_79b9_7f4a_7c15;
const SYLLABLES: [&str; 10] = ["BAR", "OUGHT", "ABLE", "PRI", "PRES", "ESE", "ANTI", "CALLY", "ATION", "EING"];

// Rows have all columns but C_DATA, which is empty. Some columns are read only where rows are printed.
pub struct District {
    pub id: u8,
    pub warehouse: u8,
    pub name: [u8; 10],
    pub tax: u16,
    pub ytd: i64,
    pub next_order: u32,
}

pub struct Customer {
    pub id: u16,
    pub district: u8,
    pub warehouse: u8,
    pub first: [u8; 16],
    pub middle: [u8; 2],
    pub last: [u8; 16],
    pub credit: [u8; 2],
    pub discount: u16,
    pub balance: i64,
    pub ytd_payment: i64,
    pub payment_count: u64,
    pub delivery_count: u64,
}

pub struct History {
    pub customer: u16,
    pub customer_district: u8,
    pub customer_warehouse: u8,
    pub district: u8,
    pub warehouse: u8,
    pub date: u64,
    pub amount: i64,
    pub information: [u8; 24],
}

pub struct NewOrder {
    pub order: u32,
    pub district: u8,
    pub warehouse: u8,
}

pub struct Order {
    pub id: u32,
    pub district: u8,
    pub warehouse: u8,
    pub customer: u16,
    pub entry_date: u64,
    pub carrier: u8,
    pub line_count: u8,
    pub all_local: u8,
}

pub struct OrderLine {
    pub order: u32,
    pub district: u8,
    pub warehouse: u8,
    pub number: u8,
    pub item: u32,
    pub supply_warehouse: u8,
    pub delivery_date: u64,
    pub quantity: u8,
    pub amount: i64,
}

pub struct Stock {
    pub item: u32,
    pub warehouse: u8,
    pub quantity: u16,
    pub ytd: u64,
    pub order_count: u64,
    pub remote_count: u64,
}

pub struct Item {
    pub id: u32,
    pub image: u32,
    pub name: [u8; 24],
    pub price: u32,
}

/// The rows of a warehouse.
pub struct Warehouse {
    pub id: u8,
    pub name: [u8; 10],
    pub tax: u16,
    pub ytd: i64,
    pub districts: Vec<District>,
    pub customers: Vec<Customer>,
    pub history: Vec<History>,
    pub new_orders: Vec<NewOrder>,
    pub orders: Vec<Order>,
    pub order_lines: Vec<OrderLine>,
    pub stock: Vec<Stock>,
}

/// The rows of all warehouses, and the items that they share.
pub struct Rows {
    pub warehouses: Vec<Warehouse>,
    pub items: Vec<Item>,
}

impl Rows {
    /// The rows behind so many orders, and so many deliveries behind these.
    pub fn behind(orders: u64, deliveries: u64) -> Rows {
        let mut rows = Rows {
            warehouses: (1..=WAREHOUSES).map(new_warehouse).collect(),
            items: (1..=ITEMS).map(new_item).collect(),
        };
        for number in 0..orders {
            order(&mut rows, number);
        }
        for warehouse in &mut rows.warehouses {
            deliver(warehouse, (deliveries + 2 - u64::from(warehouse.id)) / 2);
        }
        rows
    }

    /// All rows of a table, which a closure names of a warehouse.
    pub fn all<'r, T: 'r>(&'r self, table: impl Fn(&'r Warehouse) -> &'r Vec<T>) -> impl Iterator<Item = &'r T> {
        self.warehouses.iter().flat_map(table)
    }
}

/// A text in a field, with zeros behind it.
fn field<const N: usize>(text: &str) -> [u8; N] {
    let mut bytes = [0; N];
    bytes[..text.len()].copy_from_slice(text.as_bytes());
    bytes
}

/// The text in a field.
pub fn field_text(field: &[u8]) -> &str {
    let end = field.iter().position(|byte| *byte == 0).unwrap_or(field.len());
    std::str::from_utf8(&field[..end]).expect("a text")
}

fn new_warehouse(id: u8) -> Warehouse {
    let districts = || 1..=DISTRICTS;
    let customers = || districts().flat_map(|district| (1..=CUSTOMERS).map(move |id| (district, id)));
    Warehouse {
        id,
        name: field(&format!("W{id}")),
        tax: 500 * u16::from(id) % 2001,
        ytd: 10_000 * i64::from(CUSTOMERS),
        districts: districts().map(|district| new_district(id, district)).collect(),
        customers: customers().map(|(district, customer)| new_customer(id, district, customer)).collect(),
        history: customers().map(|(district, customer)| first_payment(id, district, customer)).collect(),
        new_orders: Vec::new(),
        orders: Vec::new(),
        order_lines: Vec::new(),
        stock: (1..=ITEMS).map(|item| new_stock(id, item)).collect(),
    }
}

fn new_district(warehouse: u8, id: u8) -> District {
    District {
        id,
        warehouse,
        name: field(&format!("D{id}")),
        tax: 100 * u16::from(id),
        ytd: 1000 * i64::from(CUSTOMERS),
        next_order: 1,
    }
}

fn new_customer(warehouse: u8, district: u8, id: u16) -> Customer {
    let number = usize::from(id - 1);
    let last = [number / 100 % 10, number / 10 % 10, number % 10].map(|digit| SYLLABLES[digit]).concat();
    Customer {
        id,
        district,
        warehouse,
        first: field(&format!("F{id:04}")),
        middle: *b"OE",
        last: field(&last),
        credit: if id % 10 == 0 { *b"BC" } else { *b"GC" },
        discount: (100 * u32::from(id) % 5001) as u16,
        balance: -1000,
        ytd_payment: 1000,
        payment_count: 1,
        delivery_count: 0,
    }
}

fn first_payment(warehouse: u8, district: u8, customer: u16) -> History {
    History {
        customer,
        customer_district: district,
        customer_warehouse: warehouse,
        district,
        warehouse,
        date: 1,
        amount: 1000,
        information: field(&format!("W{warehouse}    D{district}")),
    }
}

fn new_stock(warehouse: u8, item: u32) -> Stock {
    Stock {
        item,
        warehouse,
        quantity: (10 + (7 * item + u32::from(warehouse)) % 91) as u16,
        ytd: 0,
        order_count: 0,
        remote_count: 0,
    }
}

fn new_item(id: u32) -> Item {
    Item {
        id,
        image: 1 + id % 10,
        name: field(&format!("ITEM{id}")),
        price: 100 + 37 * id % 9901,
    }
}

/// The order of a number, in the two warehouses in turn.
fn order(rows: &mut Rows, number: u64) {
    let home = &mut rows.warehouses[(number % 2) as usize];
    let district = &mut home.districts[(number / 2 % 10) as usize];
    let order = Order {
        id: district.next_order,
        district: district.id,
        warehouse: home.id,
        customer: (number / 20 % u64::from(CUSTOMERS) + 1) as u16,
        entry_date: 1,
        carrier: 0,
        line_count: (5 + number % 11) as u8,
        all_local: 1,
    };
    district.next_order += 1;
    home.new_orders.push(NewOrder {
        order: order.id,
        district: order.district,
        warehouse: home.id,
    });
    for line in 0..order.line_count {
        let mixed = number.wrapping_mul(15).wrapping_add(line.into()).wrapping_mul(MIXING) >> 32;
        let item = &rows.items[(mixed % u64::from(ITEMS)) as usize];
        let stock = &mut home.stock[item.id as usize - 1];
        home.order_lines.push(order_line(&order, line, item, stock));
    }
    home.orders.push(order);
}

/// A line of an order, which comes out of the stock of its warehouse.
fn order_line(order: &Order, line: u8, item: &Item, stock: &mut Stock) -> OrderLine {
    let quantity = line % 10 + 1;
    supply(stock, quantity);
    OrderLine {
        order: order.id,
        district: order.district,
        warehouse: order.warehouse,
        number: line + 1,
        item: item.id,
        supply_warehouse: order.warehouse,
        delivery_date: 0,
        quantity,
        amount: i64::from(quantity) * i64::from(item.price),
    }
}

/// What a line takes from the stock (TPC-C clause 2.4.2.2).
fn supply(stock: &mut Stock, quantity: u8) {
    let taken = u16::from(quantity);
    stock.quantity = if stock.quantity >= taken + 10 { stock.quantity - taken } else { stock.quantity + 91 - taken };
    stock.ytd += u64::from(quantity);
    stock.order_count += 1;
}

/// So many deliveries of a warehouse (TPC-C clause 2.7.4.2). Each delivers the oldest order of each district, and the
/// orders of a district are numbered from 1, so that an order is delivered by the delivery of its number.
fn deliver(home: &mut Warehouse, deliveries: u64) {
    home.new_orders.retain(|row| u64::from(row.order) > deliveries);
    let mut lines = home.order_lines.as_mut_slice();
    for order in &mut home.orders {
        let (own, others) = std::mem::take(&mut lines).split_at_mut(order.line_count.into());
        lines = others;
        if u64::from(order.id) <= deliveries {
            let place = usize::from(order.district - 1) * usize::from(CUSTOMERS) + usize::from(order.customer - 1);
            deliver_order(order, own, &mut home.customers[place]);
        }
    }
}

fn deliver_order(order: &mut Order, lines: &mut [OrderLine], customer: &mut Customer) {
    order.carrier = ((order.id - 1) % 10 + 1) as u8;
    customer.delivery_count += 1;
    for line in lines {
        line.delivery_date = u64::from(order.id) + 1;
        customer.balance += line.amount;
    }
}
