//! The board beside straightforward Rust (`plain.rs`), both optimised, in one run: n 10 with k 5, 3 and 1.
//!
//! Each round times the two in turn, and which comes first changes from round to round. A time is the best
//! of the rounds, in nanoseconds a call; a ratio is straightforward / board, so above 1 the board is faster.

use second::random::Random;
use second::sheets::random_order;
use second::{board, model, plain};
use std::hint::black_box;
use std::time::Instant;

const N: u32 = 10;
const FRAME: usize = 1 << N;
const ORDERS: usize = 64;
const STREAMED_ORDERS: usize = 8;
const TICKS_OF_EACH: usize = 2048;
const ROUNDS: usize = 61;

type Plan = fn(u32, u32, &[u16], &mut [u16], &mut [u32]) -> u32;
type Inspect = fn(u32, u32, &[u16], &[u16], &mut [u32]) -> u32;
type Move = fn(u32, &[u16], &[u32], &mut [u32], &mut [u32]) -> u32;
type Tick =
    fn(u32, u32, &[u16], &mut [u32], &[u32], &mut [u32], &mut [u32], &mut [u8], &mut [u32]) -> u32;

fn main() {
    let mut random = Random::new(10);
    let orders: Vec<Vec<u16>> = (0..ORDERS).map(|_| random_order(&mut random, N)).collect();
    let frame = random.words(FRAME);

    println!(
        "n {N}, nanoseconds a call, best of {ROUNDS} rounds; ratio above 1: the board is faster"
    );
    println!(
        "{:<10}{:>4}{:>12}{:>18}{:>10}",
        "tool", "k", "board", "straightforward", "ratio"
    );
    for k in [5, 3, 1] {
        let (board, plain) = side_by_side(
            || plan_all(board::plan, k, &orders),
            || plan_all(plain::plan, k, &orders),
        );
        row("plan", &k.to_string(), board, plain);
        let sheets: Vec<Vec<u16>> = orders.iter().map(|o| model::planned(N, k, o)).collect();
        let (board, plain) = side_by_side(
            || inspect_all(board::inspect, k, &orders, &sheets),
            || inspect_all(plain::inspect, k, &orders, &sheets),
        );
        row("inspect", &k.to_string(), board, plain);
        let streamed = &sheets[..STREAMED_ORDERS];
        let (board, plain) = side_by_side(
            || stream_all(board::tick, k, streamed, &frame),
            || stream_all(plain::tick, k, streamed, &frame),
        );
        row("tick", &k.to_string(), board, plain);
    }
    let (board, plain) = side_by_side(
        || move_all(board::mover, &orders, &frame),
        || move_all(plain::mover, &orders, &frame),
    );
    row("move", "-", board, plain);
    let (again, copy) = side_by_side(
        || move_all(board::mover, &orders, &frame),
        || move_all(memcpy, &orders, &frame),
    );
    let times = again / copy;
    println!("beside the mover, memcpy of the frame: {copy:.1} (the board's mover takes {times:.1} times that)");
}

fn row(tool: &str, k: &str, board: f64, plain: f64) {
    let ratio = plain / board;
    println!("{tool:<10}{k:>4}{board:>12.1}{plain:>18.1}{ratio:>10.2}");
}

/// Each of the two runs many calls and gives how many; the best of their times a call.
fn side_by_side(board: impl Fn() -> usize, plain: impl Fn() -> usize) -> (f64, f64) {
    let (mut board_best, mut plain_best) = (time(&board), time(&plain));
    for round in 0..ROUNDS {
        if round % 2 == 0 {
            board_best = board_best.min(time(&board));
            plain_best = plain_best.min(time(&plain));
        } else {
            plain_best = plain_best.min(time(&plain));
            board_best = board_best.min(time(&board));
        }
    }
    (board_best, plain_best)
}

fn time(calls: impl Fn() -> usize) -> f64 {
    let start = Instant::now();
    let count = calls();
    start.elapsed().as_nanos() as f64 / count as f64
}

fn plan_all(plan: Plan, k: u32, orders: &[Vec<u16>]) -> usize {
    let (mut sheet, mut said) = ([0; 64], [0; 3]);
    let passes = 200;
    for _ in 0..passes {
        for order in orders {
            let answer = plan(
                black_box(N),
                black_box(k),
                black_box(order),
                &mut sheet,
                &mut said,
            );
            assert_eq!(answer, 0);
            black_box(&mut sheet);
        }
    }
    passes * orders.len()
}

fn inspect_all(inspect: Inspect, k: u32, orders: &[Vec<u16>], sheets: &[Vec<u16>]) -> usize {
    let mut said = [0; 3];
    let passes = 200;
    for _ in 0..passes {
        for (order, sheet) in orders.iter().zip(sheets) {
            let verdict = inspect(
                black_box(N),
                black_box(k),
                black_box(order),
                sheet,
                &mut said,
            );
            assert_eq!(verdict, 0);
        }
    }
    passes * orders.len()
}

/// Full streaming from fresh, without blank ticks.
fn stream_all(tick: Tick, k: u32, sheets: &[Vec<u16>], frame: &[u32]) -> usize {
    let mut out = vec![0; 1 << k];
    for sheet in sheets {
        let mut state = [0, 0, 1 << (N - k)];
        let (mut words, mut marks) = (vec![0; 2 * FRAME], vec![0; 2 * FRAME]);
        let mut said = [0; 3];
        for came in frame.chunks(1 << k).cycle().take(TICKS_OF_EACH) {
            let answer = tick(
                black_box(N),
                black_box(k),
                black_box(sheet),
                &mut state,
                came,
                &mut out,
                &mut words,
                &mut marks,
                &mut said,
            );
            assert_eq!(answer, 0);
            black_box(&mut out);
        }
    }
    sheets.len() * TICKS_OF_EACH
}

fn move_all(mover: Move, orders: &[Vec<u16>], frame: &[u32]) -> usize {
    let (mut out, mut said) = (vec![0; FRAME], [0; 3]);
    let passes = 30;
    for _ in 0..passes {
        for order in orders {
            let answer = mover(
                black_box(N),
                black_box(order),
                black_box(frame),
                &mut out,
                &mut said,
            );
            assert_eq!(answer, 0);
            black_box(&mut out);
        }
    }
    passes * orders.len()
}

fn memcpy(_: u32, _: &[u16], frame: &[u32], out: &mut [u32], _: &mut [u32]) -> u32 {
    out.copy_from_slice(frame);
    0
}
