//! Files that are damaged: cut off, with other bits, with more bytes, with padding that is set, too large.
use crate::file::{encode, Plan, MOST_BYTES};
use crate::random::{any_plan, filled, Kind};
use generate::Dice;

fn flipped(file: &[u8], bit: usize) -> Vec<u8> {
    let mut other = file.to_vec();
    other[bit / 8] ^= 0x80 >> (bit % 8);
    other
}

fn extended(dice: &mut Dice, file: &[u8]) -> Vec<u8> {
    let mut other = file.to_vec();
    let byte = dice.pick(&[0, 0, 1, 0x80, 0xFF]);
    other.extend(vec![byte; 1 + dice.index(4)]);
    other
}

fn random_bytes(dice: &mut Dice) -> Vec<u8> {
    let length = dice.pick(&[0, 1, 40, 44, 45, 46, 60, 90, 400]);
    let mut bytes: Vec<u8> = (0..length).map(|_| dice.below(256) as u8).collect();
    // Counts of 10 random bits are large; zeros make small ones.
    let from = dice.index(length + 1);
    if dice.one_in(2) {
        bytes[from..].fill(0);
    }
    bytes
}

/// Files about as large as they may be, and one byte larger.
fn large(dice: &mut Dice, plan: &Plan) -> Vec<Vec<u8>> {
    let Some(full) = filled(dice, plan.clone(), MOST_BYTES) else {
        return vec![];
    };
    let (full, _) = encode(&full);
    let with = |byte: u8| [&full[..], &[byte]].concat();
    let short = full[..MOST_BYTES - 1].to_vec();
    let zeros = vec![0; MOST_BYTES + dice.index(3)];
    vec![with(0), with(1), short, zeros, full]
}

/// Damaged files made from one plan: every truncation of a small one, each padding bit, some bits flipped.
pub fn damaged(dice: &mut Dice, kind: Kind) -> Vec<Vec<u8>> {
    let plan = any_plan(dice, kind);
    let (file, padding) = encode(&plan);
    let mut all = match file.len() {
        0..=300 if dice.one_in(4) => (0..file.len()).map(|at| file[..at].to_vec()).collect(),
        _ => vec![file[..dice.index(file.len())].to_vec()],
    };
    let bits = 8 * file.len();
    all.extend((bits - padding..bits).map(|bit| flipped(&file, bit)));
    // The counts stand in the first bits behind the head, so flips there are as frequent as elsewhere.
    for within in [bits, bits, bits, 400.min(bits)] {
        all.push(flipped(&file, dice.index(within)));
    }
    all.push(extended(dice, &file));
    all.push(random_bytes(dice));
    if dice.one_in(50) {
        all.extend(large(dice, &plan));
    }
    all
}
