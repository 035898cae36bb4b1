//! Groups of rows, and the text of an answer.

use std::fmt::{Result, Write};

/// How many rows a group has, and the sum of a column.
#[derive(Clone, Copy, Default)]
pub struct Group {
    pub count: u64,
    pub sum: i128,
}

impl Group {
    pub fn add(&mut self, amount: i64) {
        self.count += 1;
        self.sum += i128::from(amount);
    }
}

/// Groups by numbers. A group stands at the place of its number; the numbers are noted in the order of their first rows.
pub struct Groups {
    places: Vec<Group>,
    numbers: Vec<usize>,
}

impl Groups {
    /// No groups, for numbers up to this one.
    pub fn up_to(number: usize) -> Groups {
        Groups {
            places: vec![Group::default(); number + 1],
            numbers: Vec::new(),
        }
    }

    pub fn add(&mut self, number: usize, amount: i64) {
        let group = &mut self.places[number];
        if group.count == 0 {
            self.numbers.push(number);
        }
        group.add(amount);
    }

    /// The numbers in rising order.
    pub fn sort(&mut self) {
        self.numbers.sort_unstable();
    }

    pub fn get(&self, number: usize) -> Group {
        self.places[number]
    }

    /// A record for each group, which a closure writes.
    pub fn text(&self, write: impl Fn(&mut String, usize, Group) -> Result) -> String {
        text_of(&self.numbers, |text, number| write(text, *number, self.places[*number]))
    }
}

/// A record for each row, which a closure writes, and how many there are.
pub fn text_of<T>(rows: &[T], write: impl Fn(&mut String, &T) -> Result) -> String {
    let mut text = String::new();
    for row in rows {
        write(&mut text, row).expect("a text grows");
        text.push('\n');
    }
    writeln!(text, "{} rows", rows.len()).expect("a text grows");
    text
}

/// The sum of amounts as an answer, which has no row where there is no amount.
pub fn sum_of(amounts: impl Iterator<Item = i64>) -> String {
    let mut group = Group::default();
    amounts.for_each(|amount| group.add(amount));
    let sums = if group.count == 0 { Vec::new() } else { vec![group.sum] };
    text_of(&sums, |text, sum| write!(text, "{sum}"))
}
