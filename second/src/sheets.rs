//! Makers of sizes, orders and sheets of every kind.

use crate::model::{
    apply, dependent, invertible, planned, read_side, write_side, Side, SHEET_PLACES, SIDE_PLACES,
};
use crate::random::Random;

/// Every n and k that the paper takes.
pub fn all_sizes() -> Vec<(u32, u32)> {
    let of_n = |n: u32| (1..=n.min(5)).map(move |k| (n, k));
    (1..=10).flat_map(of_n).collect()
}

pub fn random_sizes(random: &mut Random) -> (u32, u32) {
    let n = random.from_to(1, 10);
    (n, random.from_to(1, n.min(5)))
}

/// Like `random_sizes`, but seldom a large n: for what is to be tried often.
pub fn small_sizes(random: &mut Random) -> (u32, u32) {
    let largest = if random.one_in(8) { 10 } else { 6 };
    let n = random.from_to(1, largest);
    (n, random.from_to(1, n.min(5)))
}

/// Every list of `n` columns below 2^n.
pub fn all_lists(n: u32) -> impl Iterator<Item = Vec<u16>> {
    let mask = (1u64 << n) - 1;
    (0..1u64 << (n * n)).map(move |code| {
        let column = |j| (code >> (j * n) & mask) as u16;
        (0..n).map(column).collect()
    })
}

pub fn all_orders(n: u32) -> Vec<Vec<u16>> {
    all_lists(n).filter(|list| !dependent(list)).collect()
}

pub fn random_columns(random: &mut Random, width: u32) -> Vec<u16> {
    (0..width)
        .map(|_| random.below(1 << width) as u16)
        .collect()
}

/// An order, or an invertible map of any width (0 too).
pub fn random_order(random: &mut Random, width: u32) -> Vec<u16> {
    loop {
        let columns = random_columns(random, width);
        if invertible(&columns) {
            return columns;
        }
    }
}

/// An order that only changes the places of bits.
pub fn random_bit_order(random: &mut Random, n: u32) -> Vec<u16> {
    let mut columns: Vec<u16> = (0..n).map(|j| 1 << j).collect();
    random.shuffle(&mut columns);
    columns
}

/// Gray code's columns: each its own bit and the one below.
pub fn gray_code(n: u32) -> Vec<u16> {
    (0..n).map(|j| (1 << j) | (1 << j >> 1)).collect()
}

/// Columns below 2^n of which one is a sum of some others, perhaps of none.
pub fn dependent_columns(random: &mut Random, n: u32) -> Vec<u16> {
    let mut columns = random_order(random, n);
    let spoilt = random.below(n);
    let others = random.below(1 << n) & !(1 << spoilt);
    columns[spoilt as usize] = apply(&columns, others) as u16;
    columns
}

/// One column or more is 2^n or more; the others may be anything.
pub fn too_large_columns(random: &mut Random, n: u32) -> Vec<u16> {
    let mut columns = match random.below(3) {
        0 => random_order(random, n),
        1 => dependent_columns(random, n),
        _ => random_columns(random, n),
    };
    let spoilt = random.below(n) as usize;
    let least = 1u32 << n;
    columns[spoilt] = match random.below(4) {
        0 => least as u16,
        1 => u16::MAX,
        2 => columns[spoilt] | least as u16,
        _ => random.from_to(least, 65535) as u16,
    };
    columns
}

/// A side made of its parts.
fn put_side(places: &mut [u16], addresses: &[u16], wiring: &[u16], stages: &[(u16, u16)]) {
    places.fill(0);
    places[..addresses.len()].copy_from_slice(addresses);
    places[10..10 + wiring.len()].copy_from_slice(wiring);
    put_stages(places, stages);
}

/// Replaces a side's stages.
pub fn put_stages(places: &mut [u16], stages: &[(u16, u16)]) {
    places[15..].fill(0);
    places[15] = stages.len() as u16;
    for (stage, &(direction, control)) in stages.iter().enumerate() {
        places[16 + 2 * stage] = direction;
        places[17 + 2 * stage] = control;
    }
}

fn random_stages(random: &mut Random, k: u32, t: u32) -> Vec<(u16, u16)> {
    if t == 0 {
        return vec![];
    }
    let count = random.below(9);
    let mut stage = || {
        let direction = random.from_to(1, (1 << k) - 1) as u16;
        (direction, random.from_to(1, (1 << t) - 1) as u16)
    };
    (0..count).map(|_| stage()).collect()
}

/// A sheet that keeps the layout; the wirings are mostly invertible.
pub fn well_formed(random: &mut Random, n: u32, k: u32) -> Vec<u16> {
    let mut sheet = vec![0; SHEET_PLACES];
    for side in sheet.chunks_mut(SIDE_PLACES) {
        let t = n - k;
        let addresses: Vec<u16> = (0..n).map(|_| random.below(1 << t) as u16).collect();
        let wiring = match random.below(4) {
            0 => random_columns(random, k),
            _ => random_order(random, k),
        };
        let stages = random_stages(random, k, t);
        put_side(side, &addresses, &wiring, &stages);
    }
    sheet
}

/// Sends every cell of both sides through one map: banks through `banks`, addresses through `addresses`, and
/// `cross` of the bank into the address. What held for M = N P still holds; invertible maps keep a passed sheet passed.
pub fn sent_through(
    (n, k): (u32, u32),
    sheet: &[u16],
    addresses: &[u16],
    banks: &[u16],
    cross: &[u16],
) -> Vec<u16> {
    let mut sent = vec![0; SHEET_PLACES];
    let sides = [write_side(n, k, sheet), read_side(n, k, sheet)];
    for (side, places) in sides.into_iter().zip(sent.chunks_mut(SIDE_PLACES)) {
        let address = |j: u32| {
            let i = 1u32 << j;
            apply(addresses, side.address(i)) ^ apply(cross, side.bank(i))
        };
        let new_addresses: Vec<u16> = (0..n).map(|j| address(j) as u16).collect();
        let through_banks = |bank: u32| apply(banks, bank) as u16;
        let wiring: Vec<u16> = side
            .wiring()
            .iter()
            .map(|&w| through_banks(w.into()))
            .collect();
        let stages: Vec<(u16, u16)> = side
            .stages()
            .map(|(direction, control)| (through_banks(direction), control as u16))
            .filter(|&(direction, _)| direction != 0)
            .collect();
        put_side(places, &new_addresses, &wiring, &stages);
    }
    sent
}

/// The side whose map sends 2^j to the cell number `cells[j]`: one stage for each direction that some tick bit takes.
fn put_map(places: &mut [u16], k: u32, cells: &[u16]) {
    let bank = |cell: u16| cell & ((1 << k) - 1);
    let addresses: Vec<u16> = cells.iter().map(|&cell| cell >> k).collect();
    let (of_ports, of_ticks) = cells.split_at(k as usize);
    let wiring: Vec<u16> = of_ports.iter().map(|&cell| bank(cell)).collect();
    let mut stages: Vec<(u16, u16)> = vec![];
    for (tick_bit, direction) in of_ticks.iter().map(|&cell| bank(cell)).enumerate() {
        match stages.iter_mut().find(|stage| stage.0 == direction) {
            Some(stage) => stage.1 |= 1 << tick_bit,
            None if direction != 0 => stages.push((direction, 1 << tick_bit)),
            None => {}
        }
    }
    put_side(places, &addresses, &wiring, &stages);
}

/// The sheet with any linear maps `write` for M and `read` for N.
pub fn of_maps(k: u32, write: &[u16], read: &[u16]) -> Vec<u16> {
    let mut sheet = vec![0; SHEET_PLACES];
    let (write_places, read_places) = sheet.split_at_mut(SIDE_PLACES);
    put_map(write_places, k, write);
    put_map(read_places, k, read);
    sheet
}

/// The sheet with any linear map `read` for N, and M = N P.
pub fn of_read_map(k: u32, columns: &[u16], read: &[u16]) -> Vec<u16> {
    let write: Vec<u16> = columns
        .iter()
        .map(|&c| apply(read, c.into()) as u16)
        .collect();
    of_maps(k, &write, read)
}

/// A random map from banks to addresses.
fn random_cross(random: &mut Random, k: u32, t: u32) -> Vec<u16> {
    (0..k).map(|_| random.below(1 << t) as u16).collect()
}

/// A sheet other than the planned one that passes.
pub fn other_passing(random: &mut Random, n: u32, k: u32, columns: &[u16]) -> Vec<u16> {
    match random.below(3) {
        0 => passing_of_any_map(random, n, k, columns),
        _ => planned_otherwise(random, n, k, columns),
    }
}

/// Any invertible N for which both wirings are invertible.
fn passing_of_any_map(random: &mut Random, n: u32, k: u32, columns: &[u16]) -> Vec<u16> {
    loop {
        let read = random_order(random, n);
        let sheet = of_read_map(k, columns, &read);
        let wirings = [
            write_side(n, k, &sheet).wiring(),
            read_side(n, k, &sheet).wiring(),
        ];
        if wirings.into_iter().all(invertible) {
            return sheet;
        }
    }
}

/// The planned sheet with its cells sent through one map and its stages written otherwise.
fn planned_otherwise(random: &mut Random, n: u32, k: u32, columns: &[u16]) -> Vec<u16> {
    let t = n - k;
    let planned = planned(n, k, columns);
    let addresses = random_order(random, t);
    let banks = random_order(random, k);
    let cross = match random.below(2) {
        0 => vec![0; k as usize],
        _ => random_cross(random, k, t),
    };
    let mut sheet = sent_through((n, k), &planned, &addresses, &banks, &cross);
    for places in sheet.chunks_mut(SIDE_PLACES) {
        rewrite_stages(random, k, t, places);
    }
    sheet
}

/// The same stages' sum written otherwise: in another order, with a pair that cancels, or one stage as two.
fn rewrite_stages(random: &mut Random, k: u32, t: u32, places: &mut [u16]) {
    let count = usize::from(places[15]);
    let mut stages: Vec<(u16, u16)> = places[16..16 + 2 * count]
        .chunks(2)
        .map(|pair| (pair[0], pair[1]))
        .collect();
    if t > 0 && stages.len() <= 6 && random.one_in(2) {
        let direction = random.from_to(1, (1 << k) - 1) as u16;
        let control = random.from_to(1, (1 << t) - 1) as u16;
        stages.extend([(direction, control); 2]);
    }
    if let (Some(&(direction, control)), true) = (stages.first(), stages.len() <= 7) {
        let part = random.below(1 << t) as u16;
        if part != 0 && part != control {
            stages[0] = (direction, part);
            stages.push((direction, part ^ control));
        }
    }
    random.shuffle(&mut stages);
    put_stages(places, &stages);
}

/// M = N P holds with invertible wirings, and both M and N are singular (t is at least 1).
pub fn singular_both(random: &mut Random, n: u32, k: u32, columns: &[u16]) -> Vec<u16> {
    let addresses = dependent_columns(random, n - k);
    let banks = random_order(random, k);
    // The cross map can't mend it: two addresses of one bank still become one.
    let cross = random_cross(random, k, n - k);
    let planned = planned(n, k, columns);
    sent_through((n, k), &planned, &addresses, &banks, &cross)
}

/// Makes one side's wiring singular; the layout is kept.
pub fn spoil_wiring(random: &mut Random, k: u32, side: usize, sheet: &mut [u16]) {
    let start = side * SIDE_PLACES + 10;
    let wiring = dependent_columns(random, k);
    sheet[start..start + k as usize].copy_from_slice(&wiring);
}

/// Puts a number that breaks the layout into one place of the sheet.
pub fn break_place(random: &mut Random, n: u32, k: u32, place: usize, sheet: &mut [u16]) {
    let side = place / SIDE_PLACES * SIDE_PLACES;
    let limits = [
        0,
        1,
        1 << k,
        (1 << k) + 1,
        1 << (n - k),
        9,
        10,
        255,
        256,
        65535,
    ];
    loop {
        sheet[place] = match random.below(4) {
            0 => random.any() as u16,
            _ => random.pick(&limits),
        };
        let places = &sheet[side..side + SIDE_PLACES];
        if !(Side { n, k, places }).keeps_layout() {
            return;
        }
    }
}

/// Changes one number of the sheet to any other that keeps the layout where that is possible.
pub fn change_one(random: &mut Random, n: u32, k: u32, sheet: &mut [u16]) {
    let before = sheet.to_vec();
    for _ in 0..64 {
        let place = random.below(SHEET_PLACES as u32) as usize;
        sheet[place] = random.below(1 << k.max(n - k)) as u16;
        let kept = write_side(n, k, sheet).keeps_layout() && read_side(n, k, sheet).keeps_layout();
        if kept && *sheet != before {
            return;
        }
        sheet.copy_from_slice(&before);
    }
}
