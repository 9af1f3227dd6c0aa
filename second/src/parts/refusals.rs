//! Wrong sizes, wrong lengths, and several things wrong at once: the lowest number that applies is given.

use super::runs::{spoil_state, standing};
use crate::comparison::{unsaid, Comparison, TickCall};
use crate::random::Random;
use crate::sheets::{
    all_sizes, break_place, dependent_columns, of_read_map, other_passing, random_columns,
    random_order, singular_both, small_sizes, spoil_wiring, too_large_columns, well_formed,
};

pub fn compare(c: &mut Comparison) {
    every_size(c);
    every_length(c);
    several_wrong(c);
}

#[rustfmt::skip]
const SIZES: [u32; 28] = [
    0, 1, 2, 3, 4, 5, 6, 7, 8, 9, 10, 11, 12, 15, 16, 17, 31, 32, 33, 42, 63, 64, 65, 266,
    1 << 31, (1 << 31) + 3, u32::MAX - 1, u32::MAX,
];

/// Every pair of sizes, with lengths that fit n and k as a careless reader would take them.
fn every_size(c: &mut Comparison) {
    for n in SIZES {
        for k in SIZES.into_iter().chain([n.wrapping_add(1)]) {
            let (near_n, near_k) = ((n % 32).min(10), (k % 32).min(5));
            let columns = random_columns(&mut c.random, near_n);
            let mut sheet = vec![0; 64];
            if near_n >= near_k && near_k > 0 {
                sheet = well_formed(&mut c.random, near_n, near_k);
            }
            c.plan(n, k, &columns, 64);
            c.inspect(n, k, &columns, &sheet);
            c.price(n, k, &sheet, 3);
            let (frame, ports) = (1 << near_n, 1 << near_k);
            let mut call = TickCall {
                n,
                k,
                sheet,
                state: vec![0, 0, 0],
                tick: c.random.words(ports),
                out: c.random.words(ports),
                words: c.random.words(2 * frame),
                marks: vec![0; 2 * frame],
                said: unsaid(&mut c.random, 3),
            };
            c.tick(&mut call);
            let frame_in = c.random.words(frame);
            c.mover(n, &columns, &frame_in, frame);
            c.inverse(n, &columns, near_n as usize);
        }
    }
}

fn lengths_near(right: usize) -> Vec<usize> {
    let mut lengths = vec![
        0,
        1,
        2,
        3,
        4,
        10,
        32,
        63,
        64,
        65,
        right / 2,
        right + 1,
        2 * right,
    ];
    lengths.extend(right.checked_sub(1));
    lengths.sort_unstable();
    lengths.dedup();
    lengths
}

fn wrong_length(random: &mut Random, right: usize) -> usize {
    loop {
        let lengths = lengths_near(right);
        let length = random.pick(&lengths);
        if length != right {
            return length;
        }
    }
}

/// Cut or lengthened with zeros.
fn cut<T: Clone + Default>(list: &[T], length: usize) -> Vec<T> {
    let mut list = list.to_vec();
    list.resize(length, T::default());
    list
}

/// Every single buffer, at every length near its own.
fn every_length(c: &mut Comparison) {
    for (n, k) in all_sizes() {
        let order = random_order(&mut c.random, n);
        let (_, sheet) = c.plan(n, k, &order, 64);
        let frame = c.random.words(1 << n);
        for length in lengths_near(n as usize) {
            let columns = cut(&order, length);
            c.plan(n, k, &columns, 64);
            c.inspect(n, k, &columns, &sheet);
            c.mover(n, &columns, &frame, 1 << n);
            c.inverse(n, &columns, n as usize);
            c.inverse(n, &order, length);
        }
        for length in lengths_near(64) {
            let sheet = cut(&sheet, length);
            c.plan(n, k, &order, length);
            c.inspect(n, k, &order, &sheet);
            c.price(n, k, &sheet, 3);
        }
        for length in lengths_near(3) {
            c.price(n, k, &sheet, length);
            c.plan_saying(n, k, &order, 64, length);
            c.inspect_saying(n, k, &order, &sheet, length);
            c.mover_saying(n, &order, &frame, 1 << n, length);
            c.inverse_saying(n, &order, n as usize, length);
        }
        for length in lengths_near(1 << n) {
            c.mover(n, &order, &cut(&frame, length), 1 << n);
            c.mover(n, &order, &frame, length);
        }
        every_length_of_tick(c, n, k, &sheet);
    }
}

fn every_length_of_tick(c: &mut Comparison, n: u32, k: u32, sheet: &[u16]) {
    for buffer in 0..TICK_BUFFERS {
        for words_came in [true, false] {
            for reading in [true, false] {
                let call = standing(&mut c.random, n, k, sheet, words_came, reading);
                for length in lengths_near(tick_length(&call, buffer)) {
                    let mut call = call.clone();
                    set_tick_length(&mut call, buffer, length);
                    c.tick(&mut call);
                }
            }
        }
    }
}

const TICK_BUFFERS: u32 = 7;

fn tick_length(call: &TickCall, buffer: u32) -> usize {
    match buffer {
        0 => call.sheet.len(),
        1 => call.state.len(),
        2 => call.tick.len(),
        3 => call.out.len(),
        4 => call.words.len(),
        5 => call.marks.len(),
        _ => call.said.len(),
    }
}

fn set_tick_length(call: &mut TickCall, buffer: u32, length: usize) {
    match buffer {
        0 => call.sheet.resize(length, 0),
        1 => call.state.resize(length, 0),
        2 => call.tick.resize(length, 0),
        3 => call.out.resize(length, 0),
        4 => call.words.resize(length, 0),
        5 => call.marks.resize(length, 0),
        _ => call.said.resize(length, 0),
    }
}

/// For each set of a tool's numbers: calls to which all of the set should apply.
fn several_wrong(c: &mut Comparison) {
    for _ in 0..600 {
        for wrong in every_set(&[1, 2, 3, 4]) {
            wrong_plan(c, &wrong);
            wrong_move(c, &wrong);
            wrong_inverse(c, &wrong);
        }
        for wrong in every_set(&[1, 2, 5]) {
            wrong_price(c, &wrong);
        }
    }
    for _ in 0..120 {
        for wrong in every_set(&[1, 2, 3, 4, 5, 6, 7, 8, 9]) {
            wrong_inspect(c, &wrong);
        }
        for wrong in every_set(&[1, 2, 5, 10, 11, 12, 13, 14]) {
            wrong_tick(c, &wrong);
        }
    }
    // Two numbers alone, oftener than with the others.
    for _ in 0..400 {
        for wrong in every_set(&[1, 2, 3, 4, 5, 6, 7, 8, 9]) {
            if wrong.len() == 2 {
                wrong_inspect(c, &wrong);
            }
        }
        for wrong in every_set(&[1, 2, 5, 10, 11, 12, 13, 14]) {
            if wrong.len() <= 2 {
                wrong_tick(c, &wrong);
            }
        }
    }
}

fn every_set(numbers: &[u32]) -> Vec<Vec<u32>> {
    let chosen = |mask: u32| {
        let inside = numbers
            .iter()
            .enumerate()
            .filter(|(j, _)| mask >> j & 1 == 1);
        inside.map(|(_, &number)| number).collect()
    };
    (0..1 << numbers.len()).map(chosen).collect()
}

/// n and k as they are, or outside the sizes. The lengths stay those of the sizes before.
fn sizes_with(random: &mut Random, (n, k): (u32, u32), wrong: &[u32]) -> (u32, u32) {
    let far = [11, 12, 31, 32, 64, 1 << 31, u32::MAX - 1, u32::MAX];
    match (wrong.contains(&1), random.below(4)) {
        (false, _) => (n, k),
        (true, 0) => (n, 0),
        (true, 1) => (n, n.min(5) + 1),
        (true, 2) => (n, random.pick(&far)),
        _ => (random.pick(&[0, 11, 1 << 31, u32::MAX]), k),
    }
}

fn n_with(random: &mut Random, n: u32, wrong: &[u32]) -> u32 {
    match wrong.contains(&1) {
        true => random.pick(&[0, 11, 12, 31, 32, 33, 64, 1 << 31, u32::MAX]),
        false => n,
    }
}

fn columns_with(random: &mut Random, n: u32, wrong: &[u32]) -> Vec<u16> {
    match (wrong.contains(&3), wrong.contains(&4)) {
        (false, false) => random_order(random, n),
        (false, true) => dependent_columns(random, n),
        (true, false) => too_large_columns(random, n),
        (true, true) => {
            let mut columns = dependent_columns(random, n);
            let large = random.from_to(1 << n, 65535) as u16;
            columns[0] = large;
            columns[n as usize - 1] = large;
            columns
        }
    }
}

/// Of `rights`, the lengths of a call's buffers, one or more wrong if 2 is.
fn lengths_with<const B: usize>(
    random: &mut Random,
    rights: [usize; B],
    wrong: &[u32],
) -> [usize; B] {
    let mut lengths = rights;
    if wrong.contains(&2) {
        let first = random.below(B as u32) as usize;
        lengths[first] = wrong_length(random, rights[first]);
        for (length, right) in lengths.iter_mut().zip(rights) {
            if random.one_in(4) {
                *length = wrong_length(random, right);
            }
        }
    }
    lengths
}

fn wrong_plan(c: &mut Comparison, wrong: &[u32]) {
    let random = &mut c.random;
    let (n, k) = small_sizes(random);
    let columns = columns_with(random, n, wrong);
    let [of_columns, of_sheet, of_said] = lengths_with(random, [n as usize, 64, 3], wrong);
    let (n, k) = sizes_with(random, (n, k), wrong);
    c.plan_saying(n, k, &cut(&columns, of_columns), of_sheet, of_said);
}

fn wrong_move(c: &mut Comparison, wrong: &[u32]) {
    let random = &mut c.random;
    let (n, _) = small_sizes(random);
    let columns = columns_with(random, n, wrong);
    let rights = [n as usize, 1 << n, 1 << n, 3];
    let [of_columns, of_frame, of_out, of_said] = lengths_with(random, rights, wrong);
    let frame = random.words(of_frame);
    let n = n_with(random, n, wrong);
    c.mover_saying(n, &cut(&columns, of_columns), &frame, of_out, of_said);
}

fn wrong_inverse(c: &mut Comparison, wrong: &[u32]) {
    let random = &mut c.random;
    let (n, _) = small_sizes(random);
    let columns = columns_with(random, n, wrong);
    let rights = [n as usize, n as usize, 3];
    let [of_columns, of_out, of_said] = lengths_with(random, rights, wrong);
    let n = n_with(random, n, wrong);
    c.inverse_saying(n, &cut(&columns, of_columns), of_out, of_said);
}

fn wrong_price(c: &mut Comparison, wrong: &[u32]) {
    let random = &mut c.random;
    let (n, k) = small_sizes(random);
    let mut sheet = well_formed(random, n, k);
    if wrong.contains(&5) {
        let place = random.below(64) as usize;
        break_place(random, n, k, place, &mut sheet);
    }
    let [of_sheet, of_sums] = lengths_with(random, [64, 3], wrong);
    let (n, k) = sizes_with(random, (n, k), wrong);
    c.price(n, k, &cut(&sheet, of_sheet), of_sums);
}

fn wrong_inspect(c: &mut Comparison, wrong: &[u32]) {
    let random = &mut c.random;
    let (n, k) = small_sizes(random);
    let order = random_order(random, n);
    let mut sheet = if wrong.contains(&8) && n > k {
        singular_both(random, n, k, &order)
    } else {
        let read = random_order(random, n);
        of_read_map(k, &order, &read)
    };
    for side in 0..2 {
        if wrong.contains(&(6 + side)) {
            spoil_wiring(random, k, side as usize, &mut sheet);
        }
    }
    if wrong.contains(&5) {
        let place = random.below(64) as usize;
        break_place(random, n, k, place, &mut sheet);
    }
    let columns = match wrong.iter().any(|number| [3, 4, 9].contains(number)) {
        true => columns_with(random, n, wrong),
        false => order,
    };
    let [of_columns, of_sheet, of_said] = lengths_with(random, [n as usize, 64, 3], wrong);
    let (n, k) = sizes_with(random, (n, k), wrong);
    let (columns, sheet) = (cut(&columns, of_columns), cut(&sheet, of_sheet));
    c.inspect_saying(n, k, &columns, &sheet, of_said);
}

fn wrong_tick(c: &mut Comparison, wrong: &[u32]) {
    let random = &mut c.random;
    let (n, k) = small_sizes(random);
    let order = random_order(random, n);
    let mut sheet = other_passing(random, n, k, &order);
    for (number, side) in [(11, 0), (13, 1)] {
        if wrong.contains(&number) {
            spoil_wiring(random, k, side, &mut sheet);
        }
    }
    let mut call = standing(random, n, k, &sheet, true, true);
    let (frame, half) = (1usize << n, call.state[1] as usize);
    for (number, half, mark) in [(12, half, random.from_to(1, 255) as u8), (14, 1 - half, 0)] {
        if wrong.contains(&number) {
            let some_or_all = random.from_to(1, 4);
            for place in half * frame..(half + 1) * frame {
                if random.below(4) < some_or_all {
                    call.marks[place] = mark;
                }
            }
        }
    }
    if wrong.contains(&10) {
        spoil_state(random, &mut call);
    }
    if wrong.contains(&5) {
        let place = random.below(64) as usize;
        break_place(random, n, k, place, &mut call.sheet);
    }
    if wrong.contains(&2) {
        for _ in 0..random.from_to(1, 3) {
            let buffer = random.below(TICK_BUFFERS);
            let length = wrong_length(random, tick_length(&call, buffer));
            set_tick_length(&mut call, buffer, length);
        }
    }
    (call.n, call.k) = sizes_with(random, (n, k), wrong);
    c.tick(&mut call);
}
