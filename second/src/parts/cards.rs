//! The listing over order cards good and bad.

use crate::comparison::Comparison;
use crate::random::Random;
use crate::sheets::{
    all_orders, all_sizes, dependent_columns, gray_code, random_bit_order, random_order,
    small_sizes, too_large_columns,
};

pub fn compare(c: &mut Comparison) {
    every_small_order(c);
    every_size(c);
    literal_cards(c);
    changed_cards(c);
    wrong_counts(c);
    wrong_lengths(c);
    long_cards(c);
    random_bytes(c);
}

pub fn card_of(n: u32, k: u32, columns: &[u16]) -> Vec<u8> {
    let mut card = format!("{n} {k}");
    for column in columns {
        card += &format!(" {column}");
    }
    card += "\n";
    card.into_bytes()
}

fn every_small_order(c: &mut Comparison) {
    for n in 1..=3 {
        for k in 1..=n {
            for columns in all_orders(n) {
                c.list(&card_of(n, k, &columns), 8192, 1);
            }
        }
    }
}

fn every_size(c: &mut Comparison) {
    for (n, k) in all_sizes() {
        let random = &mut c.random;
        let mut lists = vec![gray_code(n), random_bit_order(random, n)];
        for _ in 0..8 {
            lists.push(random_order(random, n));
        }
        for _ in 0..40 {
            lists.push(dependent_columns(random, n));
            lists.push(too_large_columns(random, n));
        }
        for columns in lists {
            let text = c.random.pick(&[8192, 8193, 10000]);
            c.list(&card_of(n, k, &columns), text, 1);
        }
    }
    for n in [0, 1, 2, 5, 10, 11, 12, 31, 32, 64, 255, 256, 65535] {
        for k in [0, 1, 2, 3, 5, 6, 10, 11, 32, 256, 65535] {
            for count in [0, 1, 2, 3, 10, 11] {
                let columns: Vec<u16> = (0..count).map(|j| 1 << j).collect();
                c.list(&card_of(n, k, &columns), 8192, 1);
            }
        }
    }
}

/// Cards that the paper or common sense names, with the number each has by the paper.
fn literal_cards(c: &mut Comparison) {
    let cards: [(&[u8], u32); 58] = [
        (b"3 1 4 2 1\n", 0),
        (b"1 1 1\n", 0),
        (b"2 2 2 1\n", 0),
        (b"", 15),
        (b"\n", 15),
        (b" \n", 15),
        (b"3\n", 15),
        (b"3 \n", 15),
        (b"3 1 4 2 1", 15),
        (b"3 1 4 2 1\n\n", 15),
        (b"\n3 1 4 2 1\n", 15),
        (b"3 1 4 2 1\n1", 15),
        (b"3 1 4 2 1\n ", 15),
        (b"3 1 4 2 1\n\0", 15),
        (b"3 1 4 2 1\0", 15),
        (b"3 1 4 2 1\r\n", 15),
        (b"3 1 4 2 1\n\r", 15),
        (b"3 1 4 2 1 \n", 15),
        (b" 3 1 4 2 1\n", 15),
        (b"3  1 4 2 1\n", 15),
        (b"3 1 4 2  1\n", 15),
        (b"3\t1 4 2 1\n", 15),
        (b"3,1,4,2,1\n", 15),
        (b"3 1 4 2\n1\n", 15),
        (b"03 1 4 2 1\n", 15),
        (b"3 01 4 2 1\n", 15),
        (b"3 1 4 2 01\n", 15),
        (b"3 1 4 2 00\n", 15),
        (b"3 1 4 2 000001\n", 15),
        (b"3 1 4 2 0\n", 4),
        (b"0 1 4 2 1\n", 1),
        (b"00 1 4 2 1\n", 15),
        (b"3 0 4 2 1\n", 1),
        (b"3 00 4 2 1\n", 15),
        (b"3 1 4 2 65535\n", 3),
        (b"3 1 4 2 65536\n", 15),
        (b"3 1 4 2 65537\n", 15),
        (b"3 1 4 2 70000\n", 15),
        (b"3 1 4 2 99999\n", 15),
        (b"3 1 4 2 131073\n", 15),
        (b"3 1 4 2 99999999999\n", 15),
        (b"3 1 4 2 4294967297\n", 15),
        (b"3 1 4 2 18446744073709551617\n", 15),
        (b"65539 1 4 2 1\n", 15),
        (b"3 65537 4 2 1\n", 15),
        (b"65535 65535\n", 1),
        (b"3 1 4 2 -1\n", 15),
        (b"+3 1 4 2 1\n", 15),
        (b"3 1 4 2 1.0\n", 15),
        (b"3 1 4 2 0x1\n", 15),
        (b"3 1\n", 2),
        (b"3 1 4 2\n", 2),
        (b"3 1 4 2 1 1\n", 2),
        (b"11 6\n", 1),
        (b"2 3 4 4\n", 1),
        (b"2 1 4 4\n", 3),
        (b"2 1 1 1\n", 4),
        (b"2 1 65535 65535\n", 3),
    ];
    for (card, number) in cards {
        let what = format!("card {:?}", String::from_utf8_lossy(card));
        for text in [8192, 10000] {
            let (answer, _, _) = c.list(card, text, 1);
            c.expect(&what, answer, number);
        }
        let with_2 = if [1, 15].contains(&number) { number } else { 2 };
        for (text, length) in [(8191, 1), (0, 1), (8192, 0), (8192, 2), (10000, 3)] {
            let (answer, _, _) = c.list(card, text, length);
            c.expect(&what, answer, with_2);
        }
        for said in [0, 1, 2, 4] {
            let (answer, _, _, _) = c.list_saying(card, 8192, 1, said);
            c.expect(&what, answer, with_2);
        }
    }
}

/// Good cards cut at every length, each byte changed, taken out, doubled, and others put before it.
fn changed_cards(c: &mut Comparison) {
    let others = b" \n\t\r0123456789a-+,\0\xb2\xff";
    for (n, k) in all_sizes() {
        let columns = random_order(&mut c.random, n);
        let card = card_of(n, k, &columns);
        for length in 0..card.len() {
            c.list(&card[..length], 8192, 1);
            let with_newline = [&card[..length], b"\n"].concat();
            c.list(&with_newline, 8192, 1);
        }
        for place in 0..card.len() {
            for &other in others {
                // Large frames are slow to list: not every digit of theirs.
                if n >= 8 && other.is_ascii_digit() && !c.random.one_in(8) {
                    continue;
                }
                let mut changed = card.clone();
                changed[place] = other;
                c.list(&changed, 8192, 1);
                changed = card.clone();
                changed.insert(place, other);
                c.list(&changed, 8192, 1);
            }
            let mut shorter = card.clone();
            shorter.remove(place);
            c.list(&shorter, 8192, 1);
        }
        for &other in others {
            let longer = [&card[..], &[other]].concat();
            c.list(&longer, 8192, 1);
        }
    }
}

fn wrong_counts(c: &mut Comparison) {
    for (n, k) in all_sizes() {
        for count in (0..n + 3).chain([20, 30]) {
            let mut columns = random_order(&mut c.random, n);
            columns.resize(count as usize, 1);
            c.list(&card_of(n, k, &columns), 8192, 1);
            columns.fill(9);
            c.list(&card_of(n, k, &columns), 8192, 1);
        }
    }
}

/// Lengths of text, of length and of said that are wrong, with every other number too.
fn wrong_lengths(c: &mut Comparison) {
    let texts = [0, 1, 70, 128, 4096, 8191, 8192, 8193, 10000];
    for _ in 0..60 {
        for text in texts {
            for length in [0, 1, 2, 3] {
                let card = any_card(&mut c.random);
                let said = c.random.pick(&[0, 1, 2, 3, 3, 3, 3, 4]);
                c.list_saying(&card, text, length, said);
            }
        }
    }
}

/// A card with any number: 0 to 4 or 15.
fn any_card(random: &mut Random) -> Vec<u8> {
    let (n, k) = small_sizes(random);
    let mut columns = match random.below(4) {
        0 => dependent_columns(random, n),
        1 => too_large_columns(random, n),
        _ => random_order(random, n),
    };
    if random.one_in(6) {
        columns.push(1);
    }
    let k = if random.one_in(6) { n + 1 } else { k };
    let mut card = card_of(n, k, &columns);
    if random.one_in(6) {
        let place = random.below(card.len() as u32) as usize;
        card[place] = random.pick(b" \n\tx0");
    }
    card
}

/// Cards of 120 to 140 bytes and more, readable but for their length.
fn long_cards(c: &mut Comparison) {
    for head in ["3 1", "11 1", "2 3", "10 5", "1 1"] {
        for length in (100..160).chain([256, 1000]) {
            for filler in [" 1", " 12", " 65535", " 12345"] {
                let mut card = head.to_string();
                while card.len() + 1 + filler.len() <= length {
                    card += filler;
                }
                // The last number fills what remains, two bytes or more, or none.
                let missing = length - 1 - card.len();
                if missing >= 2 {
                    card += &" 11111"[..missing.min(6)];
                }
                card += "\n";
                let (answer, _, _) = c.list(card.as_bytes(), 8192, 1);
                let unreadable = card.len() > 128;
                c.expect("129 bytes or more", answer == 15, unreadable);
            }
        }
    }
}

fn random_bytes(c: &mut Comparison) {
    for _ in 0..20_000 {
        let length = c.random.below(20) as usize;
        let mut card: Vec<u8> = vec![];
        while card.len() < length {
            card.push(c.random.pick(b"0112345  6"));
        }
        if !c.random.one_in(8) {
            card.push(b'\n');
        }
        c.list(&card, 8192, 1);
    }
}
