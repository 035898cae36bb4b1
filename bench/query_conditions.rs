//! The consistency conditions, and a report.

use crate::query_rows::{CUSTOMERS, District, History, NewOrder, Order, OrderLine, Rows, Warehouse};

/// The sum of all numbers in a report.
pub fn report(rows: &Rows) -> u64 {
    let undelivered = |id| rows.all(|home| &home.new_orders).filter(|new| new.warehouse == id).count();
    rows.warehouses.iter().map(|row| u64::from(row.id) + row.ytd as u64 + undelivered(row.id) as u64).sum()
}

/// 1 where all conditions hold, and else the number of one that is broken stands before it.
pub fn conditions(rows: &Rows) -> u64 {
    1000 * broken(rows) + 1
}

/// What the lines of an order come to.
#[derive(Clone, Copy, Default)]
struct Lines {
    count: u64,
    delivered: u64,
    amount: i64,
}

/// What the rows of a district come to; its orders' lines and its customers stand at the places of their numbers.
struct Sums {
    payments: i64,
    least_new: u32,
    greatest_new: u32,
    new_count: u32,
    is_new: Vec<bool>,
    greatest_order: u32,
    line_counts: u64,
    line_rows: u64,
    lines: Vec<Lines>,
    delivered: Vec<i64>,
    paid: Vec<i64>,
}

/// The first of the conditions 1 to 10 and 12 that the rows of a warehouse break (TPC-C clause 3.3.2), or 0. Each row is
/// one of the warehouse, as it is without commands over several ones, and has numbers that are in range.
fn broken(rows: &Rows) -> u64 {
    rows.warehouses.iter().map(broken_in).filter(|number| *number != 0).min().unwrap_or(0)
}

fn broken_in(warehouse: &Warehouse) -> u64 {
    let mut sums: Vec<Sums> = warehouse.districts.iter().map(sums_of).collect();
    sum_payments(&mut sums, &warehouse.history);
    sum_new_orders(&mut sums, &warehouse.new_orders);
    sum_lines(&mut sums, &warehouse.order_lines);
    sum_orders(&mut sums, &warehouse.orders);
    first_broken(warehouse, &sums)
}

fn sum_payments(sums: &mut [Sums], history: &[History]) {
    for row in history {
        sums[row.district as usize - 1].payments += row.amount;
        sums[row.customer_district as usize - 1].paid[row.customer as usize] += row.amount;
    }
}

fn sum_new_orders(sums: &mut [Sums], new_orders: &[NewOrder]) {
    for row in new_orders {
        let sums = &mut sums[row.district as usize - 1];
        sums.least_new = sums.least_new.min(row.order);
        sums.greatest_new = sums.greatest_new.max(row.order);
        sums.new_count += 1;
        sums.is_new[row.order as usize] = true;
    }
}

fn sum_lines(sums: &mut [Sums], order_lines: &[OrderLine]) {
    for row in order_lines {
        let sums = &mut sums[row.district as usize - 1];
        let lines = &mut sums.lines[row.order as usize];
        sums.line_rows += 1;
        lines.count += 1;
        lines.delivered += u64::from(row.delivery_date != 0);
        lines.amount += row.amount;
    }
}

/// The orders, behind their lines.
fn sum_orders(sums: &mut [Sums], orders: &[Order]) {
    for row in orders {
        let sums = &mut sums[row.district as usize - 1];
        sums.greatest_order = sums.greatest_order.max(row.id);
        sums.line_counts += u64::from(row.line_count);
        if row.carrier != 0 {
            sums.delivered[row.customer as usize] += sums.lines[row.id as usize].amount;
        }
    }
}

fn sums_of(district: &District) -> Sums {
    let orders = district.next_order as usize;
    Sums {
        payments: 0,
        least_new: u32::MAX,
        greatest_new: 0,
        new_count: 0,
        is_new: vec![false; orders],
        greatest_order: 0,
        line_counts: 0,
        line_rows: 0,
        lines: vec![Lines::default(); orders],
        delivered: vec![0; usize::from(CUSTOMERS) + 1],
        paid: vec![0; usize::from(CUSTOMERS) + 1],
    }
}

fn first_broken(warehouse: &Warehouse, sums: &[Sums]) -> u64 {
    let districts = || warehouse.districts.iter().zip(sums);
    let orders = || warehouse.orders.iter().map(|row| (row, &sums[row.district as usize - 1]));
    let customers = || warehouse.customers.iter().map(|row| (row, &sums[row.district as usize - 1]));
    let tests: [(u64, bool); 11] = [
        (1, warehouse.ytd == warehouse.districts.iter().map(|row| row.ytd).sum()),
        (2, districts().all(|(row, sums)| {
            row.next_order - 1 == sums.greatest_order && (sums.new_count == 0 || sums.greatest_new == sums.greatest_order)
        })),
        (3, districts().all(|(_, sums)| {
            sums.new_count == 0 || sums.greatest_new - sums.least_new + 1 == sums.new_count
        })),
        (4, districts().all(|(_, sums)| sums.line_counts == sums.line_rows)),
        (5, orders().all(|(row, sums)| (row.carrier == 0) == sums.is_new[row.id as usize])),
        (6, orders().all(|(row, sums)| u64::from(row.line_count) == sums.lines[row.id as usize].count)),
        (7, orders().all(|(row, sums)| {
            let lines = sums.lines[row.id as usize];
            lines.delivered == if row.carrier == 0 { 0 } else { lines.count }
        })),
        (8, warehouse.ytd == sums.iter().map(|sums| sums.payments).sum()),
        (9, districts().all(|(row, sums)| row.ytd == sums.payments)),
        (10, customers().all(|(row, sums)| {
            row.balance == sums.delivered[row.id as usize] - sums.paid[row.id as usize]
        })),
        (12, customers().all(|(row, sums)| row.balance + row.ytd_payment == sums.delivered[row.id as usize])),
    ];
    tests.iter().find(|(_, holds)| !holds).map_or(0, |(number, _)| *number)
}
