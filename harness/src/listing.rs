//! Random listed records: right ones, and right ones with a fault put in.

use crate::random::Random;

/// A listed record of about so many symbols: leaves and parents in turn, then parents until one
/// tree is left. It has a fault where the alphabet allows no such record.
pub fn record(random: &mut Random, counts: &[u8], size: usize) -> Vec<u8> {
    let mut symbols = Vec::new();
    let mut trees = 0;
    while symbols.len() < 4 * size {
        let closing = size <= symbols.len();
        if closing && trees <= 1 {
            break;
        }
        let fits = |&symbol: &usize| {
            let count = counts[symbol] as usize;
            count <= trees && (!closing || 2 <= count)
        };
        let choices: Vec<usize> = (0..counts.len()).filter(fits).collect();
        if choices.is_empty() {
            break;
        }
        let symbol = random.pick(&choices);
        trees = trees + 1 - counts[symbol] as usize;
        symbols.push(symbol as u8);
    }
    symbols
}

/// One symbol changed, taken away, put in or moved.
pub fn damage(random: &mut Random, symbols: &mut Vec<u8>) {
    let place = random.below(symbols.len() + 1);
    let symbol = random.pick(&[0, 1, 2, 3, 63, 64, 255]);
    match random.below(4) {
        0 => symbols.insert(place, symbol),
        1 if place < symbols.len() => symbols[place] = symbol,
        2 if place < symbols.len() => drop(symbols.remove(place)),
        _ => symbols.rotate_left(place),
    }
}
