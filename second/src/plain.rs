//! Planner, inspector, tick and mover in straightforward Rust, for the benchmark: the same interface, checks and
//! refusals as the board, linear maps judged on their columns, and no special tricks.

const SHEET_PLACES: usize = 64;
const SIDE_PLACES: usize = 32;
const SAID_PLACES: usize = 3;
const MOST_N: usize = 10;
const MOST_PORTS: usize = 32;

fn sizes_fit(n: u32, k: u32) -> bool {
    (1..=10).contains(&n) && (1..=n.min(5)).contains(&k)
}

fn apply(columns: &[u16], i: u32) -> u32 {
    columns
        .iter()
        .enumerate()
        .filter(|(j, _)| i >> j & 1 == 1)
        .fold(0, |sum, (_, &column)| sum ^ u32::from(column))
}

/// Vectors reduced one by one, each with the mask of the kept vectors that it is a sum of.
struct Basis {
    reduced: [(u32, u32); MOST_N],
    kept: usize,
}

impl Basis {
    fn new() -> Self {
        Basis {
            reduced: [(0, 0); MOST_N],
            kept: 0,
        }
    }

    /// What remains of `vector`, and which kept vectors were taken away.
    fn reduce(&self, mut vector: u32) -> (u32, u32) {
        let mut mask = 0;
        for &(reduced, of) in &self.reduced[..self.kept] {
            let pivot = 1 << reduced.ilog2();
            if vector & pivot != 0 {
                vector ^= reduced;
                mask ^= of;
            }
        }
        (vector, mask)
    }

    /// Keeps `vector` unless it is a sum of the kept ones.
    fn keep(&mut self, vector: u32) -> bool {
        let (rest, mask) = self.reduce(vector);
        if rest == 0 {
            return false;
        }
        self.reduced[self.kept] = (rest, mask | 1 << self.kept);
        self.kept += 1;
        true
    }
}

fn independent(columns: impl IntoIterator<Item = u32>) -> bool {
    let mut basis = Basis::new();
    columns.into_iter().all(|column| basis.keep(column))
}

/// 4 names in `said` the first column that is a sum of earlier ones, and the mask of which.
fn check_order(n: u32, columns: &[u16], said: &mut [u32]) -> Result<(), u32> {
    if columns.iter().any(|&column| column >> n != 0) {
        return Err(3);
    }
    let mut basis = Basis::new();
    for &column in columns {
        if !basis.keep(column.into()) {
            // All earlier columns were kept, so the kept ones' mask is theirs.
            let (_, mask) = basis.reduce(column.into());
            (said[1], said[2]) = (basis.kept as u32, mask);
            return Err(4);
        }
    }
    Ok(())
}

/// One side of a sheet, read out of its 32 places.
struct Side<'a> {
    k: u32,
    addresses: &'a [u16],
    wiring: &'a [u16],
    stages: &'a [u16],
}

impl<'a> Side<'a> {
    /// Nothing if the places break the layout.
    fn read(n: u32, k: u32, places: &'a [u16]) -> Option<Self> {
        let (addresses, spare_addresses) = places[..10].split_at(n as usize);
        let (wiring, spare_wiring) = places[10..15].split_at(k as usize);
        let count = usize::from(places[15]);
        if count > 8 {
            return None;
        }
        let (stages, spare_stages) = places[16..].split_at(2 * count);
        let (ports, ticks) = (1 << k, 1 << (n - k));
        let kept = addresses.iter().all(|&column| column < ticks)
            && wiring.iter().all(|&column| column < ports)
            && stages
                .chunks_exact(2)
                .all(|s| (1..ports).contains(&s[0]) && (1..ticks).contains(&s[1]))
            && [spare_addresses, spare_wiring, spare_stages]
                .iter()
                .all(|spare| spare.iter().all(|&number| number == 0));
        kept.then_some(Side {
            k,
            addresses,
            wiring,
            stages,
        })
    }

    /// What the stages add to the bank at tick `c`.
    fn turn(&self, c: u32) -> u32 {
        self.stages
            .chunks_exact(2)
            .filter(|s| (u32::from(s[1]) & c).count_ones() % 2 == 1)
            .fold(0, |sum, s| sum ^ u32::from(s[0]))
    }

    fn cell(&self, i: u32) -> u32 {
        let (c, p) = (i >> self.k, i & ((1 << self.k) - 1));
        apply(self.addresses, i) << self.k | (apply(self.wiring, p) ^ self.turn(c))
    }

    /// The cells of one tick, port by port.
    fn cells(&self, c: u32) -> [usize; MOST_PORTS] {
        let mut cells = [0; MOST_PORTS];
        let turn = self.turn(c);
        for p in 0..1 << self.k {
            let address = apply(self.addresses, c << self.k | p);
            let bank = apply(self.wiring, p) ^ turn;
            cells[p as usize] = (address << self.k | bank) as usize;
        }
        cells
    }

    fn wiring_invertible(&self) -> bool {
        independent(self.wiring.iter().map(|&column| u32::from(column)))
    }
}

fn read_sheet(n: u32, k: u32, sheet: &[u16]) -> Option<(Side<'_>, Side<'_>)> {
    let (write, read) = sheet.split_at(SIDE_PLACES);
    Some((Side::read(n, k, write)?, Side::read(n, k, read)?))
}

pub fn plan(n: u32, k: u32, columns: &[u16], sheet: &mut [u16], said: &mut [u32]) -> u32 {
    if !sizes_fit(n, k) {
        return 1;
    }
    if columns.len() != n as usize || sheet.len() != SHEET_PLACES || said.len() != SAID_PLACES {
        return 2;
    }
    if let Err(number) = check_order(n, columns, said) {
        return number;
    }
    sheet.fill(0);
    let (write, read) = sheet.split_at_mut(SIDE_PLACES);
    let stages = read_stages(n, k, columns);
    for bit in k..n {
        read[bit as usize] = 1 << (bit - k);
    }
    for bit in 0..k {
        read[10 + bit as usize] = 1 << bit;
    }
    read[15] = stages.len() as u16;
    for (place, &(i, j)) in stages.iter().enumerate() {
        read[16 + 2 * place] = 1 << i;
        read[17 + 2 * place] = 1 << j;
    }
    plan_write(n, k, columns, &stages, write);
    0
}

/// Bits i and j of each read stage.
fn read_stages(n: u32, k: u32, columns: &[u16]) -> Vec<(u32, u32)> {
    let (of_ports, _) = columns.split_at(k as usize);
    let row = |r: u32| {
        of_ports
            .iter()
            .enumerate()
            .fold(0, |row, (p, &column)| row | u32::from(column >> r & 1) << p)
    };
    let mut rows = Basis::new();
    let others: Vec<u32> = (0..k).filter(|&i| !rows.keep(row(i))).collect();

    // Ports that P1 sends to 0: where a column is a sum of earlier ones, that sum and the column together.
    let mut images = Basis::new();
    let mut kept_bits = vec![];
    let mut sent_to_0 = vec![];
    for (p, &column) in of_ports.iter().enumerate() {
        let image = u32::from(column) & ((1 << k) - 1);
        if images.keep(image) {
            kept_bits.push(p);
        } else {
            let (_, mask) = images.reduce(image);
            let sum = (0..kept_bits.len()).filter(|j| mask >> j & 1 == 1);
            sent_to_0.push(sum.fold(1u32 << p, |port, j| port | 1 << kept_bits[j]));
        }
    }
    let mut rows = Basis::new();
    let kept = (0..n - k).filter(|&j| {
        let on_kernel = sent_to_0.iter().enumerate();
        rows.keep(on_kernel.fold(0, |bits, (place, port)| {
            bits | ((port & row(k + j)).count_ones() % 2) << place
        }))
    });
    others.into_iter().zip(kept).collect()
}

fn plan_write(n: u32, k: u32, columns: &[u16], read_stages: &[(u32, u32)], write: &mut [u16]) {
    let bank = |column: u16| {
        let (c, p) = (column >> k, column & ((1 << k) - 1));
        read_stages
            .iter()
            .fold(p, |bank, &(i, j)| bank ^ (c >> j & 1) << i)
    };
    for (j, &column) in columns.iter().enumerate() {
        write[j] = column >> k;
    }
    for (j, &column) in columns[..k as usize].iter().enumerate() {
        write[10 + j] = bank(column);
    }
    let mut directions = Basis::new();
    for bit in k..n {
        let column = bank(columns[bit as usize]);
        let place = 16 + 2 * directions.kept;
        if directions.keep(column.into()) {
            write[place] = column;
            write[place + 1] = 1 << (bit - k);
        } else {
            let (_, mask) = directions.reduce(column.into());
            for stage in (0..directions.kept).filter(|stage| mask >> stage & 1 == 1) {
                write[17 + 2 * stage] |= 1 << (bit - k);
            }
        }
    }
    write[15] = directions.kept as u16;
}

pub fn inspect(n: u32, k: u32, columns: &[u16], sheet: &[u16], said: &mut [u32]) -> u32 {
    if !sizes_fit(n, k) {
        return 1;
    }
    if columns.len() != n as usize || sheet.len() != SHEET_PLACES || said.len() != SAID_PLACES {
        return 2;
    }
    if let Err(number) = check_order(n, columns, said) {
        return number;
    }
    let Some((write, read)) = read_sheet(n, k, sheet) else {
        return 5;
    };
    if !write.wiring_invertible() {
        return 6;
    }
    if !read.wiring_invertible() {
        return 7;
    }
    if !independent((0..n).map(|j| write.cell(1 << j))) {
        return 8;
    }
    for (j, &column) in columns.iter().enumerate() {
        if write.cell(1 << j) != read.cell(column.into()) {
            return 9;
        }
    }
    0
}

#[allow(clippy::too_many_arguments)]
pub fn tick(
    n: u32,
    k: u32,
    sheet: &[u16],
    state: &mut [u32],
    tick: &[u32],
    out: &mut [u32],
    words: &mut [u32],
    marks: &mut [u8],
    said: &mut [u32],
) -> u32 {
    if !sizes_fit(n, k) {
        return 1;
    }
    let (frame, ports, ticks) = (1usize << n, 1usize << k, 1u32 << (n - k));
    let lengths_fit = sheet.len() == SHEET_PLACES
        && state.len() == 3
        && (tick.is_empty() || tick.len() == ports)
        && out.len() == ports
        && words.len() == 2 * frame
        && marks.len() == 2 * frame
        && said.len() == SAID_PLACES;
    if !lengths_fit {
        return 2;
    }
    let Some((write, read)) = read_sheet(n, k, sheet) else {
        return 5;
    };
    let (a, h, r) = (state[0], state[1], state[2]);
    if a >= ticks || a > r || r > ticks || h > 1 {
        return 10;
    }

    let (low_words, high_words) = words.split_at_mut(frame);
    let (low_marks, high_marks) = marks.split_at_mut(frame);
    let (write_words, write_marks, read_words, read_marks) = if h == 0 {
        (low_words, low_marks, high_words, high_marks)
    } else {
        (high_words, high_marks, low_words, low_marks)
    };
    let (words_came, reading) = (!tick.is_empty(), r < ticks);
    let write_cells = if words_came {
        write.cells(a)
    } else {
        [0; MOST_PORTS]
    };
    let write_cells = &write_cells[..tick.len()];
    let read_cells = if reading {
        read.cells(r)
    } else {
        [0; MOST_PORTS]
    };
    let read_cells = &read_cells[..if reading { ports } else { 0 }];

    if let Some((first, second)) = first_pair(write_cells, ports) {
        said[1] = first;
        said[2] = second;
        return 11;
    }
    if write_cells.iter().any(|&cell| write_marks[cell] != 0) {
        return 12;
    }
    if let Some((first, second)) = first_pair(read_cells, ports) {
        said[1] = first;
        said[2] = second;
        return 13;
    }
    if read_cells.iter().any(|&cell| read_marks[cell] == 0) {
        return 14;
    }

    for (place, &cell) in out.iter_mut().zip(read_cells) {
        *place = read_words[cell];
        read_marks[cell] = 0;
    }
    for (&word, &cell) in tick.iter().zip(write_cells) {
        write_words[cell] = word;
        write_marks[cell] = 1;
    }
    said[0] = u32::from(reading);
    state[2] = r + u32::from(reading);
    state[0] = a + u32::from(words_came);
    if state[0] == ticks {
        state.copy_from_slice(&[0, 1 - h, 0]);
    }
    0
}

fn first_pair(cells: &[usize], ports: usize) -> Option<(u32, u32)> {
    let bank = |cell: &usize| cell & (ports - 1);
    for (first, cell) in cells.iter().enumerate() {
        for (second, other) in cells.iter().enumerate().skip(first + 1) {
            if bank(cell) == bank(other) {
                return Some((first as u32, second as u32));
            }
        }
    }
    None
}

pub fn mover(n: u32, columns: &[u16], frame: &[u32], out: &mut [u32], said: &mut [u32]) -> u32 {
    if !(1..=10).contains(&n) {
        return 1;
    }
    let lengths_fit = columns.len() == n as usize
        && frame.len() == 1 << n
        && out.len() == 1 << n
        && said.len() == SAID_PLACES;
    if !lengths_fit {
        return 2;
    }
    if let Err(number) = check_order(n, columns, said) {
        return number;
    }
    for (i, &word) in frame.iter().enumerate() {
        out[apply(columns, i as u32) as usize] = word;
    }
    0
}
