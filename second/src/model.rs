//! The paper's tools, each judged by its definition: slow, and easy to hold against the paper's sentences.

pub const SHEET_PLACES: usize = 64;
pub const SIDE_PLACES: usize = 32;
pub const TEXT_PLACES: usize = 8192;
pub const SAID_PLACES: usize = 3;

// Orders.

/// The exclusive or of the columns at the set bits of `i`.
pub fn apply(columns: &[u16], i: u32) -> u32 {
    let mut image = 0;
    for (j, &column) in columns.iter().enumerate() {
        if i >> j & 1 == 1 {
            image ^= u32::from(column);
        }
    }
    image
}

/// Some sum of one column or more is zero.
pub fn dependent(columns: &[u16]) -> bool {
    (1..1 << columns.len()).any(|mask| apply(columns, mask) == 0)
}

/// The first column that is a sum of earlier ones, and the mask of which (request R-8).
pub fn first_sum(columns: &[u16]) -> Option<(u32, u32)> {
    for (j, &column) in columns.iter().enumerate() {
        let earlier = &columns[..j];
        let mut masks = 0..1 << j;
        if let Some(mask) = masks.find(|&mask| apply(earlier, mask) == u32::from(column)) {
            return Some((j as u32, mask));
        }
    }
    None
}

/// `columns` as a map of its own width, every image hit.
pub fn invertible(columns: &[u16]) -> bool {
    let mut hit = vec![false; 1 << columns.len()];
    for i in 0..1 << columns.len() {
        hit[apply(columns, i) as usize] = true;
    }
    hit.iter().all(|&h| h)
}

/// Which of `kept`, as a mask, sum to `wanted`.
fn sum_of(kept: &[u32], wanted: u32) -> Option<u32> {
    (0..1u32 << kept.len()).find(|mask| {
        let chosen = (0..kept.len()).filter(|j| mask >> j & 1 == 1);
        chosen.fold(0, |sum, j| sum ^ kept[j]) == wanted
    })
}

/// Scans from 0 up and keeps what is no sum of the kept: the positions kept, and the others.
fn scan(vectors: &[u32]) -> (Vec<usize>, Vec<usize>) {
    let (mut kept, mut others, mut kept_vectors) = (vec![], vec![], vec![]);
    for (position, &vector) in vectors.iter().enumerate() {
        if sum_of(&kept_vectors, vector).is_none() {
            kept.push(position);
            kept_vectors.push(vector);
        } else {
            others.push(position);
        }
    }
    (kept, others)
}

// Refusals that several tools share.

pub fn size_n(n: u32) -> bool {
    (1..=10).contains(&n)
}

pub fn sizes(n: u32, k: u32) -> bool {
    size_n(n) && 1 <= k && k <= n.min(5)
}

/// 3 or 4, if one applies; 4 names its column and sum in `said`.
fn order_refusal(n: u32, columns: &[u16], said: &mut [u32]) -> Option<u32> {
    if columns.iter().any(|&column| u32::from(column) >= 1 << n) {
        return Some(3);
    }
    if !dependent(columns) {
        return None;
    }
    (said[1], said[2]) = first_sum(columns).expect("the last column of a zero sum is one");
    Some(4)
}

// Sheets.

/// One side of a sheet.
#[derive(Clone, Copy)]
pub struct Side<'a> {
    pub n: u32,
    pub k: u32,
    pub places: &'a [u16],
}

pub fn write_side(n: u32, k: u32, sheet: &[u16]) -> Side<'_> {
    let places = &sheet[..SIDE_PLACES];
    Side { n, k, places }
}

pub fn read_side(n: u32, k: u32, sheet: &[u16]) -> Side<'_> {
    let places = &sheet[SIDE_PLACES..];
    Side { n, k, places }
}

impl<'a> Side<'a> {
    pub fn addresses(self) -> &'a [u16] {
        &self.places[..self.n as usize]
    }

    pub fn wiring(self) -> &'a [u16] {
        &self.places[10..10 + self.k as usize]
    }

    /// Direction and control of each stage, in order.
    pub fn stages(self) -> impl Iterator<Item = (u32, u32)> + 'a {
        let count = usize::from(self.places[15]);
        let stage = self.places[16..].chunks(2).take(count);
        stage.map(|pair| (u32::from(pair[0]), u32::from(pair[1])))
    }

    /// Whether one place keeps the layout.
    pub fn place_keeps(self, place: usize) -> bool {
        let (n, k, t) = (self.n as usize, self.k, self.n - self.k);
        let number = u32::from(self.places[place]);
        match place {
            0..=9 if place < n => number < 1 << t,
            10..=14 if place < 10 + k as usize => number < 1 << k,
            15 => number <= 8,
            16..=31 if (place - 16) / 2 < usize::from(self.places[15]) => {
                let direction = place & 1 == 0;
                let limit = if direction { 1 << k } else { 1 << t };
                (1..limit).contains(&number)
            }
            _ => number == 0,
        }
    }

    pub fn keeps_layout(self) -> bool {
        (0..SIDE_PLACES).all(|place| self.place_keeps(place))
    }

    pub fn address(self, i: u32) -> u32 {
        apply(self.addresses(), i)
    }

    /// The bank of word number `i`.
    pub fn bank(self, i: u32) -> u32 {
        let (c, p) = (i >> self.k, i & ((1 << self.k) - 1));
        let mut bank = apply(self.wiring(), p);
        for (direction, control) in self.stages() {
            if (control & c).count_ones() % 2 == 1 {
                bank ^= direction;
            }
        }
        bank
    }

    /// The cell number of word number `i`: the map M on the write side, N on the read side.
    pub fn cell(self, i: u32) -> u32 {
        (self.address(i) << self.k) + self.bank(i)
    }
}

fn keeps_layout(n: u32, k: u32, sheet: &[u16]) -> bool {
    write_side(n, k, sheet).keeps_layout() && read_side(n, k, sheet).keeps_layout()
}

// The planner.

pub fn plan(n: u32, k: u32, columns: &[u16], sheet: &mut [u16], said: &mut [u32]) -> u32 {
    if !sizes(n, k) {
        return 1;
    }
    if columns.len() != n as usize || sheet.len() != SHEET_PLACES || said.len() != SAID_PLACES {
        return 2;
    }
    if let Some(number) = order_refusal(n, columns, said) {
        return number;
    }
    sheet.copy_from_slice(&planned(n, k, columns));
    0
}

/// The planner's choices for an order.
pub fn planned(n: u32, k: u32, columns: &[u16]) -> Vec<u16> {
    let mut sheet = vec![0; SHEET_PLACES];
    let (write, read) = sheet.split_at_mut(SIDE_PLACES);
    plan_read(n, k, columns, read);
    let places = &*read;
    plan_write(columns, Side { n, k, places }, write);
    sheet
}

fn plan_read(n: u32, k: u32, columns: &[u16], read: &mut [u16]) {
    let ports = 1 << k;
    let port_part = |p: u32| apply(columns, p) & (ports - 1);
    let tick_part = |p: u32| apply(columns, p) >> k;

    // Bit p of a row is its value on port p.
    let rows_of_p1: Vec<u32> = (0..k)
        .map(|row| (0..ports).fold(0, |bits, p| bits | (port_part(p) >> row & 1) << p))
        .collect();
    let sent_to_0: Vec<u32> = (0..ports).filter(|&p| port_part(p) == 0).collect();
    let rows_of_p3: Vec<u32> = (0..n - k)
        .map(|row| {
            let on = sent_to_0.iter();
            on.fold(0, |bits, &p| bits | (tick_part(p) >> row & 1) << p)
        })
        .collect();

    let (_, others) = scan(&rows_of_p1);
    let (kept, _) = scan(&rows_of_p3);
    assert_eq!(others.len(), kept.len(), "the paper says k - r of each");

    for tick_bit in 0..n - k {
        read[(k + tick_bit) as usize] = 1 << tick_bit;
    }
    for port_bit in 0..k as usize {
        read[10 + port_bit] = 1 << port_bit;
    }
    read[15] = others.len() as u16;
    for (stage, (i, j)) in others.iter().zip(&kept).enumerate() {
        read[16 + 2 * stage] = 1 << i;
        read[17 + 2 * stage] = 1 << j;
    }
}

/// The write side for M = N P.
fn plan_write(columns: &[u16], read: Side, write: &mut [u16]) {
    let (n, k) = (read.n, read.k);
    let image = |bit: u32| apply(columns, 1 << bit);
    for bit in 0..n {
        write[bit as usize] = read.address(image(bit)) as u16;
    }
    for bit in 0..k {
        write[10 + bit as usize] = read.bank(image(bit)) as u16;
    }
    let tick_to_bank: Vec<u32> = (k..n).map(|bit| read.bank(image(bit))).collect();
    let (kept, _) = scan(&tick_to_bank);
    let directions: Vec<u32> = kept.iter().map(|&bit| tick_to_bank[bit]).collect();
    write[15] = directions.len() as u16;
    for (stage, &direction) in directions.iter().enumerate() {
        let mut control = 0;
        for (tick_bit, &column) in tick_to_bank.iter().enumerate() {
            let chosen = sum_of(&directions, column).expect("every column is a sum of the kept");
            control |= (chosen >> stage & 1) << tick_bit;
        }
        write[16 + 2 * stage] = direction as u16;
        write[17 + 2 * stage] = control as u16;
    }
}

// The inspector.

pub fn inspect(n: u32, k: u32, columns: &[u16], sheet: &[u16], said: &mut [u32]) -> u32 {
    if !sizes(n, k) {
        return 1;
    }
    if columns.len() != n as usize || sheet.len() != SHEET_PLACES || said.len() != SAID_PLACES {
        return 2;
    }
    if let Some(number) = order_refusal(n, columns, said) {
        return number;
    }
    if !keeps_layout(n, k, sheet) {
        return 5;
    }
    let (write, read) = (write_side(n, k, sheet), read_side(n, k, sheet));
    if !invertible(write.wiring()) {
        return 6;
    }
    if !invertible(read.wiring()) {
        return 7;
    }
    if two_words_share_a_cell(write) {
        return 8;
    }
    if (0..1 << n).any(|i| write.cell(i) != read.cell(apply(columns, i))) {
        return 9;
    }
    0
}

fn two_words_share_a_cell(side: Side) -> bool {
    let mut taken = vec![false; 1 << side.n];
    (0..1 << side.n).any(|i| std::mem::replace(&mut taken[side.cell(i) as usize], true))
}

// The run.

#[allow(clippy::too_many_arguments)]
pub fn tick(
    n: u32,
    k: u32,
    sheet: &[u16],
    state: &mut [u32],
    tick: &[u32],
    out: &mut [u32],
    words: &mut [u32],
    marks: &mut [u8],
    said: &mut [u32],
) -> u32 {
    if !sizes(n, k) {
        return 1;
    }
    let (frame, ports) = (1usize << n, 1usize << k);
    if sheet.len() != SHEET_PLACES
        || state.len() != 3
        || ![0, ports].contains(&tick.len())
        || out.len() != ports
        || words.len() != 2 * frame
        || marks.len() != 2 * frame
        || said.len() != SAID_PLACES
    {
        return 2;
    }
    if !keeps_layout(n, k, sheet) {
        return 5;
    }
    let (a, h, r) = (state[0], state[1], state[2]);
    let ticks = 1 << (n - k);
    if !(a < ticks && a <= r && r <= ticks && h < 2) {
        return 10;
    }

    let (write, read) = (write_side(n, k, sheet), read_side(n, k, sheet));
    let words_came = !tick.is_empty();
    let reading = r < ticks;
    let written = if words_came {
        of_tick(write, a)
    } else {
        vec![]
    };
    let read_out = if reading { of_tick(read, r) } else { vec![] };
    let place = |half: u32, i: u32, side: Side| half as usize * frame + side.cell(i) as usize;

    if let Some((first, second)) = first_pair(write, &written) {
        (said[1], said[2]) = (first, second);
        return 11;
    }
    if written.iter().any(|&i| marks[place(h, i, write)] != 0) {
        return 12;
    }
    if let Some((first, second)) = first_pair(read, &read_out) {
        (said[1], said[2]) = (first, second);
        return 13;
    }
    if read_out.iter().any(|&i| marks[place(1 - h, i, read)] == 0) {
        return 14;
    }

    for (p, &i) in read_out.iter().enumerate() {
        out[p] = words[place(1 - h, i, read)];
        marks[place(1 - h, i, read)] = 0;
    }
    for (p, &i) in written.iter().enumerate() {
        words[place(h, i, write)] = tick[p];
        marks[place(h, i, write)] = 1;
    }
    state[2] = r + u32::from(reading);
    state[0] = a + u32::from(words_came);
    if state[0] == ticks {
        state.copy_from_slice(&[0, 1 - h, 0]);
    }
    said[0] = u32::from(reading);
    0
}

/// The word numbers of one tick, port by port.
fn of_tick(side: Side, c: u32) -> Vec<u32> {
    (0..1 << side.k).map(|p| (c << side.k) + p).collect()
}

/// The first two ports that want one bank: smallest first port, then smallest second.
fn first_pair(side: Side, numbers: &[u32]) -> Option<(u32, u32)> {
    let banks: Vec<u32> = numbers.iter().map(|&i| side.bank(i)).collect();
    for first in 0..banks.len() {
        for second in first + 1..banks.len() {
            if banks[first] == banks[second] {
                return Some((first as u32, second as u32));
            }
        }
    }
    None
}

// The mover and the inverse.

/// The mover (`move` is a word of Rust).
pub fn mover(n: u32, columns: &[u16], frame: &[u32], out: &mut [u32], said: &mut [u32]) -> u32 {
    if !size_n(n) {
        return 1;
    }
    if columns.len() != n as usize
        || frame.len() != 1 << n
        || out.len() != 1 << n
        || said.len() != SAID_PLACES
    {
        return 2;
    }
    if let Some(number) = order_refusal(n, columns, said) {
        return number;
    }
    for i in 0..1u32 << n {
        out[apply(columns, i) as usize] = frame[i as usize];
    }
    0
}

pub fn inverse(n: u32, columns: &[u16], out: &mut [u16], said: &mut [u32]) -> u32 {
    if !size_n(n) {
        return 1;
    }
    if columns.len() != n as usize || out.len() != n as usize || said.len() != SAID_PLACES {
        return 2;
    }
    if let Some(number) = order_refusal(n, columns, said) {
        return number;
    }
    for j in 0..n {
        let source = (0..1 << n).find(|&i| apply(columns, i) == 1 << j);
        out[j as usize] = source.expect("an order hits every place") as u16;
    }
    0
}

// The price.

/// Sums: switches, multiplexers, xor gates. A stage has 2^(k-1) switches; a switch is two multiplexers (request R-4).
pub fn price(n: u32, k: u32, sheet: &[u16], sums: &mut [u32]) -> u32 {
    if !sizes(n, k) {
        return 1;
    }
    if sheet.len() != SHEET_PLACES || sums.len() != 3 {
        return 2;
    }
    if !keeps_layout(n, k, sheet) {
        return 5;
    }
    sums.fill(0);
    for side in [write_side(n, k, sheet), read_side(n, k, sheet)] {
        for (_, control) in side.stages() {
            let switches = 1 << (k - 1);
            sums[0] += switches;
            sums[1] += 2 * switches;
            sums[2] += control.count_ones() - 1;
        }
    }
    0
}

// The listing.

pub fn list(card: &[u8], text: &mut [u8], length: &mut [u32], said: &mut [u32]) -> u32 {
    let Some(numbers) = read_card(card) else {
        return 15;
    };
    let (n, k, columns) = (u32::from(numbers[0]), u32::from(numbers[1]), &numbers[2..]);
    if !sizes(n, k) {
        return 1;
    }
    if columns.len() != n as usize
        || text.len() < TEXT_PLACES
        || length.len() != 1
        || said.len() != SAID_PLACES
    {
        return 2;
    }
    if let Some(number) = order_refusal(n, columns, said) {
        return number;
    }
    let listing = listing(n, k, columns);
    text[..listing.len()].copy_from_slice(listing.as_bytes());
    length[0] = listing.len() as u32;
    0
}

/// The card's numbers, at least two of them, or nothing.
fn read_card(card: &[u8]) -> Option<Vec<u16>> {
    if card.len() > 128 {
        return None;
    }
    let line = card.strip_suffix(b"\n")?;
    let numbers: Option<Vec<u16>> = line.split(|&b| b == b' ').map(read_number).collect();
    numbers.filter(|numbers| numbers.len() >= 2)
}

fn read_number(digits: &[u8]) -> Option<u16> {
    let leading_zero = digits.len() > 1 && digits[0] == b'0';
    if digits.is_empty() || leading_zero || !digits.iter().all(u8::is_ascii_digit) {
        return None;
    }
    std::str::from_utf8(digits).ok()?.parse().ok()
}

/// Plans, runs words 0 to 2^n - 1, and prints.
fn listing(n: u32, k: u32, columns: &[u16]) -> String {
    let sheet = planned(n, k, columns);
    let mut text = format!("order {n} {k}\n");
    text += &stage_line("write", write_side(n, k, &sheet));
    text += &stage_line("read", read_side(n, k, &sheet));
    for (c, tick) in run_one_frame(n, k, &sheet).iter().enumerate() {
        text += &format!("{c}:");
        for word in tick {
            text += &format!(" {word}");
        }
        text += "\n";
    }
    text
}

fn stage_line(name: &str, side: Side) -> String {
    let mut line = format!("{name} {}", side.places[15]);
    for (direction, control) in side.stages() {
        line += &format!(" {direction} {control}");
    }
    line + "\n"
}

/// Words 0 to 2^n - 1 without blank ticks, then blank ticks until the frame is out: each tick out.
fn run_one_frame(n: u32, k: u32, sheet: &[u16]) -> Vec<Vec<u32>> {
    let (ports, ticks) = (1usize << k, 1u32 << (n - k));
    let frame: Vec<u32> = (0..1 << n).collect();
    let mut words = vec![0; 2 << n];
    let mut marks = vec![0; 2 << n];
    let mut state = [0, 0, ticks];
    let mut ticks_out = vec![];
    let blanks = std::iter::repeat_n(&[][..], ticks as usize);
    for came in frame.chunks(ports).chain(blanks) {
        let (mut out, mut said) = (vec![0; ports], [0; 3]);
        let answer = tick(
            n, k, sheet, &mut state, came, &mut out, &mut words, &mut marks, &mut said,
        );
        assert_eq!(answer, 0, "a planned sheet runs");
        if said[0] == 1 {
            ticks_out.push(out);
        }
    }
    ticks_out
}

#[cfg(test)]
mod tests {
    use super::*;

    fn stages_of(n: u32, k: u32, columns: &[u16]) -> [Vec<(u32, u32)>; 2] {
        let sheet = planned(n, k, columns);
        assert_eq!(inspect(n, k, columns, &sheet, &mut [0; 3]), 0);
        [write_side(n, k, &sheet), read_side(n, k, &sheet)].map(|side| side.stages().collect())
    }

    #[test]
    fn frames_tried_by_hand() {
        assert_eq!(stages_of(1, 1, &[1]), [vec![], vec![]]);
        assert_eq!(stages_of(2, 1, &[2, 1]), [vec![(1, 1)], vec![(1, 1)]]);
        assert_eq!(stages_of(2, 1, &[1, 3]), [vec![(1, 1)], vec![]]);
        assert_eq!(stages_of(2, 2, &[2, 1]), [vec![], vec![]]);
        assert_eq!(stages_of(3, 1, &[4, 2, 1]), [vec![(1, 2)], vec![(1, 2)]]);
        assert_eq!(stages_of(4, 2, &[2, 4, 8, 1]), [vec![(1, 2)], vec![(1, 1)]]);
    }

    #[test]
    fn bit_reversal_verdicts() {
        let sheet = planned(3, 1, &[4, 2, 1]);
        assert_eq!(sheet[..3], [2, 1, 0]);
        assert_eq!(sheet[32..35], [0, 1, 2]);
        for (place, number, verdict) in [(17, 1, 8), (10, 0, 6), (42, 0, 7)] {
            let mut changed = sheet.clone();
            changed[place] = number;
            let answer = inspect(3, 1, &[4, 2, 1], &changed, &mut [0; 3]);
            assert_eq!(answer, verdict);
        }
    }

    #[test]
    fn first_columns_that_are_sums() {
        assert_eq!(first_sum(&[4, 2, 1]), None);
        assert_eq!(first_sum(&[1, 2, 1]), Some((2, 1)));
        assert_eq!(first_sum(&[1, 2, 3]), Some((2, 3)));
        assert_eq!(first_sum(&[1, 1, 0]), Some((1, 1)));
        assert_eq!(first_sum(&[0, 1, 1]), Some((0, 0)));
    }

    #[test]
    fn the_listing_of_bit_reversal() {
        let expected = "order 3 1\nwrite 1 1 2\nread 1 1 2\n0: 0 4\n1: 2 6\n2: 1 5\n3: 3 7\n";
        assert_eq!(listing(3, 1, &[4, 2, 1]), expected);
    }
}
