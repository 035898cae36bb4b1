//! The questions about one table.

use crate::query_groups::{Group, Groups, sum_of, text_of};
use crate::query_rows::{DISTRICTS, ITEMS, LINES, Rows, WAREHOUSES, field_text};
use std::fmt::Write;

pub fn stock(rows: &Rows) -> String {
    sum_of(rows.all(|home| &home.stock).filter(|row| row.quantity < 20).map(|row| row.ytd as i64))
}

pub fn items(rows: &Rows) -> String {
    let mut groups = Groups::up_to(ITEMS as usize);
    for row in rows.all(|home| &home.order_lines) {
        groups.add(row.item as usize, row.amount);
    }
    groups.text(|text, item, Group { count, sum }| write!(text, "{item},{count},{sum}"))
}

pub fn districts(rows: &Rows) -> String {
    let mut groups = district_groups();
    for row in rows.all(|home| &home.order_lines) {
        groups.add(district_number(row.warehouse, row.district), row.amount);
    }
    district_text(&groups)
}

/// No groups, for the numbers of all districts.
pub fn district_groups() -> Groups {
    Groups::up_to(district_number(WAREHOUSES, DISTRICTS))
}

/// The number of a district among those of all warehouses.
pub fn district_number(warehouse: u8, district: u8) -> usize {
    usize::from(warehouse) * (usize::from(DISTRICTS) + 1) + usize::from(district)
}

/// Groups by the numbers of districts as an answer.
pub fn district_text(groups: &Groups) -> String {
    let districts = usize::from(DISTRICTS) + 1;
    groups.text(|text, number, Group { count, sum }| {
        write!(text, "{},{},{count},{sum}", number / districts, number % districts)
    })
}

pub fn credit(rows: &Rows) -> String {
    let mut groups: Vec<([u8; 2], Group)> = Vec::new();
    for row in rows.all(|home| &home.customers) {
        match groups.iter_mut().find(|(credit, _)| *credit == row.credit) {
            Some((_, group)) => group.add(row.balance),
            None => groups.push((row.credit, Group { count: 1, sum: row.balance.into() })),
        }
    }
    text_of(&groups, |text, (credit, Group { count, sum })| {
        write!(text, "{},{count},{sum}", field_text(credit))
    })
}

pub fn ch1(rows: &Rows) -> String {
    let mut quantities = Groups::up_to(LINES);
    let mut amounts = Groups::up_to(LINES);
    for row in rows.all(|home| &home.order_lines).filter(|row| row.delivery_date > 1) {
        quantities.add(row.number.into(), row.quantity.into());
        amounts.add(row.number.into(), row.amount);
    }
    amounts.sort();
    amounts.text(|text, number, Group { count, sum }| {
        write!(text, "{number},{},{sum},{count}", quantities.get(number).sum)
    })
}

pub fn ch6(rows: &Rows) -> String {
    let delivered = rows.all(|home| &home.order_lines).filter(|row| row.delivery_date >= 1 && row.delivery_date < 1000);
    sum_of(delivered.filter(|row| row.quantity >= 1 && u32::from(row.quantity) <= 100_000).map(|row| row.amount))
}
