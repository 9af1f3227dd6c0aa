//! `list`: what the model says that the listing program prints for the card on standard input.

use second::model;
use std::io::{self, Read, Write};

fn main() -> io::Result<()> {
    let mut card = Vec::new();
    io::stdin().read_to_end(&mut card)?;
    let mut text = vec![0; 8192];
    let mut length = [0];
    let mut said = [0; 3];
    let printed = match model::list(&card, &mut text, &mut length, &mut said) {
        0 => text[..length[0] as usize].to_vec(),
        4 => format!("refused 4 column {} from {}\n", said[1], said[2]).into_bytes(),
        number => format!("refused {number}\n").into_bytes(),
    };
    io::stdout().write_all(&printed)
}
