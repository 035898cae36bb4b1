//! The works of hy_bench's index_rounds, done on Rust's `BTreeMap`: `index_limit WORK ROUNDS KEYS`. A key is a tuple of
//! the same two numbers, the keys come in the same order, and the same number is printed.

use std::collections::BTreeMap;

type Map = BTreeMap<(u32, u8), u64>;

const PLACES: u64 = 1_000;
const BETWEEN: u64 = 40_000_000;
const RANGE: u64 = 20;
const COMING: u64 = 387_619;
const GOING: u64 = 728_431;
const CHANGE: u64 = 618_030;
const SEEKING: u64 = 0xd1b5_4a32_d192_ed03;
const SEEKING_CHANGE: u64 = 0x9e37_79b9_7f4a_7c15;

#[derive(Clone, Copy)]
enum Sequence {
    Rising,
    Random,
    InTurn,
}

fn main() {
    let words: Vec<String> = std::env::args().skip(1).collect();
    let [work, rounds, keys] = &words[..] else {
        panic!("index_limit WORK ROUNDS KEYS");
    };
    let rounds = rounds.parse().expect("a number of rounds");
    let keys = keys.parse().expect("a number of keys");
    let seen = match work.as_str() {
        "insert-rising" => fills(rounds, keys, Sequence::Rising),
        "insert-random" => fills(rounds, keys, Sequence::Random),
        "insert-places" => fills(rounds, keys, Sequence::InTurn),
        "remove" => removals(rounds, keys),
        "find" => finds(rounds, keys),
        "range" => ranges(rounds, keys),
        _ => panic!("no work {work}"),
    };
    println!("{seen}");
}

fn key_of(number: u64) -> (u32, u8) {
    ((number / 10) as u32, (number % 10 + 1) as u8)
}

fn number_in(sequence: Sequence, turn: u64, round: u64, keys: u64) -> u64 {
    match sequence {
        Sequence::Rising => round,
        Sequence::Random => mixed(round, step_in(turn, COMING), keys),
        Sequence::InTurn => round % PLACES * BETWEEN + round / PLACES,
    }
}

fn step_in(turn: u64, first: u64) -> u64 {
    turn.wrapping_mul(10).wrapping_add(first)
}

fn mixed(round: u64, first_step: u64, keys: u64) -> u64 {
    let step = round.wrapping_mul(CHANGE).wrapping_add(first_step);
    round.wrapping_mul(step) % keys.max(1)
}

fn sought(round: u64, keys: u64) -> u64 {
    let step = round.wrapping_mul(SEEKING_CHANGE).wrapping_add(SEEKING);
    (round.wrapping_mul(step) >> 32) % keys.max(1)
}

fn fills(rounds: u64, keys: u64, sequence: Sequence) -> u64 {
    (0..rounds).fold(0, |seen, turn| {
        seen.wrapping_add(find(&filled(keys, sequence, turn), 0))
    })
}

fn removals(rounds: u64, keys: u64) -> u64 {
    let mut seen = 0u64;
    for turn in 0..rounds {
        let mut map = filled(keys, Sequence::Random, turn);
        for round in 0..keys {
            map.remove(&key_of(mixed(round, step_in(turn, GOING), keys)));
        }
        seen = seen.wrapping_add(find(&map, 0));
    }
    seen
}

fn finds(rounds: u64, keys: u64) -> u64 {
    let map = filled(keys, Sequence::Random, 0);
    (0..rounds).fold(0, |seen, round| {
        seen.wrapping_add(find(&map, sought(round, keys)))
    })
}

fn ranges(rounds: u64, keys: u64) -> u64 {
    let map = filled(keys, Sequence::Random, 0);
    let mut seen = 0u64;
    for round in 0..rounds {
        let first = sought(round, keys.saturating_sub(RANGE));
        for slot in map
            .range(key_of(first)..key_of(first + RANGE))
            .map(|(_, slot)| slot)
        {
            seen = seen.wrapping_add(*slot);
        }
    }
    seen
}

fn filled(keys: u64, sequence: Sequence, turn: u64) -> Map {
    let mut map = Map::new();
    for round in 0..keys {
        map.insert(key_of(number_in(sequence, turn, round, keys)), round + 1);
    }
    map
}

fn find(map: &Map, number: u64) -> u64 {
    map.get(&key_of(number)).copied().unwrap_or(0)
}
