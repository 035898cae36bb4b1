//! The tables as texts of comma-separated values, without the names of their columns.

use crate::query_rows::{Customer, Rows, field_text};
use std::fmt::Display;

/// The values of a record.
macro_rules! record {
    ($($value:expr),+) => { [$($value.to_string()),+].join(",") };
}

/// The rows of a table.
pub fn table(rows: &Rows, name: &str) -> String {
    let warehouses = || rows.warehouses.iter();
    match name {
        "warehouse" => lines(warehouses().map(|row| record!(row.id, field_text(&row.name), row.tax, row.ytd))),
        "district" => lines(rows.all(|home| &home.districts).map(|row| {
            record!(row.id, row.warehouse, field_text(&row.name), row.tax, row.ytd, row.next_order)
        })),
        "customer" => lines(rows.all(|home| &home.customers).map(customer)),
        "history" => lines(rows.all(|home| &home.history).map(|row| {
            let home = record!(row.customer, row.customer_district, row.customer_warehouse);
            record!(home, row.district, row.warehouse, row.date, row.amount, field_text(&row.information))
        })),
        "neworder" => lines(rows.all(|home| &home.new_orders).map(|row| record!(row.order, row.district, row.warehouse))),
        "orders" => lines(rows.all(|home| &home.orders).map(|row| {
            let key = record!(row.id, row.district, row.warehouse);
            record!(key, row.customer, row.entry_date, row.carrier, row.line_count, row.all_local)
        })),
        "orderline" => lines(rows.all(|home| &home.order_lines).map(|row| {
            let key = record!(row.order, row.district, row.warehouse, row.number);
            record!(key, row.item, row.supply_warehouse, row.delivery_date, row.quantity, row.amount)
        })),
        "stock" => lines(rows.all(|home| &home.stock).map(|row| {
            record!(row.item, row.warehouse, row.quantity, row.ytd, row.order_count, row.remote_count)
        })),
        "item" => lines(rows.items.iter().map(|row| record!(row.id, row.image, field_text(&row.name), row.price))),
        _ => panic!("no table {name}"),
    }
}

/// A customer, with an empty C_DATA.
fn customer(row: &Customer) -> String {
    let key = record!(row.id, row.district, row.warehouse);
    let names = record!(field_text(&row.first), field_text(&row.middle), field_text(&row.last), field_text(&row.credit));
    let sums = record!(row.discount, row.balance, row.ytd_payment, row.payment_count, row.delivery_count);
    record!(key, names, sums, "")
}

/// A line for each record.
fn lines(records: impl Iterator<Item = impl Display>) -> String {
    records.map(|record| format!("{record}\n")).collect()
}
