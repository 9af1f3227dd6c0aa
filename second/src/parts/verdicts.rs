//! Inspector, price and run over sheets of every kind: malformed, well-formed, passing otherwise, singular.

use super::runs::first_tick;
use crate::comparison::Comparison;
use crate::model::{apply, dependent, planned};
use crate::sheets::{
    all_lists, all_orders, all_sizes, break_place, change_one, of_maps, of_read_map, other_passing,
    random_columns, random_order, singular_both, small_sizes, spoil_wiring, well_formed,
};

pub fn compare(c: &mut Comparison) {
    every_place(c);
    stages_without_ticks(c);
    every_sheet_of_two(c);
    every_map_of_three(c);
    random_sheets(c);
}

fn inspect_price_tick(c: &mut Comparison, n: u32, k: u32, columns: &[u16], sheet: &[u16]) {
    c.inspect(n, k, columns, sheet);
    c.price(n, k, sheet, 3);
    first_tick(c, n, k, sheet);
}

/// In each place of a sheet: the numbers at its limits, and others.
fn every_place(c: &mut Comparison) {
    for (n, k) in all_sizes() {
        let order = random_order(&mut c.random, n);
        let sheets = [
            planned(n, k, &order),
            other_passing(&mut c.random, n, k, &order),
            well_formed(&mut c.random, n, k),
        ];
        let (ports, ticks) = (1u16 << k, 1u16 << (n - k));
        let limits = [ports - 1, ports, ports + 1, ticks - 1, ticks, ticks + 1];
        let others = [0, 1, 2, 7, 8, 9, 10, 256, 1 << 15, u16::MAX];
        for sheet in sheets {
            for place in 0..64 {
                for number in limits.into_iter().chain(others) {
                    let mut changed = sheet.clone();
                    changed[place] = number;
                    c.inspect(n, k, &order, &changed);
                    if c.random.one_in(4) {
                        c.price(n, k, &changed, 3);
                        first_tick(c, n, k, &changed);
                    }
                }
                let mut broken = sheet.clone();
                break_place(&mut c.random, n, k, place, &mut broken);
                inspect_price_tick(c, n, k, &order, &broken);
            }
        }
    }
}

/// At t = 0 there is no control, so any stage breaks the layout, however well the rest is put.
fn stages_without_ticks(c: &mut Comparison) {
    for n in 1..=5 {
        let order = random_order(&mut c.random, n);
        let sheet = planned(n, n, &order);
        for count in 0..=8 {
            for control in [0, 1, 2, 31, 32, u16::MAX] {
                for side in [0, 32] {
                    let mut changed = sheet.clone();
                    changed[side + 15] = count;
                    for stage in 0..usize::from(count) {
                        changed[side + 16 + 2 * stage] = c.random.from_to(1, (1 << n) - 1) as u16;
                        changed[side + 17 + 2 * stage] = control;
                    }
                    inspect_price_tick(c, n, n, &order, &changed);
                }
            }
        }
    }
}

/// At n 2, k 1 a side is two address columns, a wiring column and a count of the one stage there is.
fn every_sheet_of_two(c: &mut Comparison) {
    let orders = all_orders(2);
    let side = |code: u16| {
        let mut side = vec![0; 32];
        (side[0], side[1], side[10]) = (code & 1, code >> 1 & 1, code >> 2 & 1);
        side[15] = code >> 3;
        side[16..16 + 2 * usize::from(code >> 3)].fill(1);
        side
    };
    for write in 0..72 {
        for read in 0..72 {
            let sheet = [side(write), side(read)].concat();
            c.price(2, 1, &sheet, 3);
            first_tick(c, 2, 1, &sheet);
            for order in &orders {
                c.inspect(2, 1, order, &sheet);
            }
        }
    }
}

/// At n 3 every map M with every map N, against an order for which M = N P where there is one.
fn every_map_of_three(c: &mut Comparison) {
    let maps: Vec<Vec<u16>> = all_lists(3).collect();
    let orders = all_orders(3);
    for k in 1..=3 {
        for write in &maps {
            for read in &maps {
                let sheet = of_maps(k, write, read);
                let order: Vec<u16> = write
                    .iter()
                    .filter_map(|&cell| (0..8).find(|&j| apply(read, j.into()) == cell.into()))
                    .collect();
                if order.len() == 3 && !dependent(&order) {
                    c.inspect(3, k, &order, &sheet);
                } else {
                    let any = c.random.below(orders.len() as u32) as usize;
                    c.inspect(3, k, &orders[any], &sheet);
                }
            }
        }
    }
}

fn random_sheets(c: &mut Comparison) {
    for _ in 0..40_000 {
        let (n, k) = small_sizes(&mut c.random);
        let order = random_order(&mut c.random, n);

        let passing = other_passing(&mut c.random, n, k, &order);
        let verdict = c.inspect(n, k, &order, &passing);
        c.expect("another sheet with M = N P passes", verdict, 0);
        c.price(n, k, &passing, 3);

        let mut sheet = planned(n, k, &order);
        change_one(&mut c.random, n, k, &mut sheet);
        c.inspect(n, k, &order, &sheet);

        let mut sheet = passing;
        change_one(&mut c.random, n, k, &mut sheet);
        inspect_price_tick(c, n, k, &order, &sheet);

        // M = N P holds for any map N.
        let read = match c.random.below(3) {
            0 => random_columns(&mut c.random, n),
            _ => random_order(&mut c.random, n),
        };
        let mut sheet = of_read_map(k, &order, &read);
        c.inspect(n, k, &order, &sheet);
        let side = c.random.below(2) as usize;
        spoil_wiring(&mut c.random, k, side, &mut sheet);
        c.inspect(n, k, &order, &sheet);

        if n > k {
            let sheet = singular_both(&mut c.random, n, k, &order);
            let verdict = c.inspect(n, k, &order, &sheet);
            c.expect("M = N P with both singular", verdict, 8);
        }

        let sheet = well_formed(&mut c.random, n, k);
        inspect_price_tick(c, n, k, &order, &sheet);
    }
}
