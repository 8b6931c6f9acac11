//! Damage to a file's bytes: changed, cut, grown, and bytes of any sort.

use super::Dice;

/// The same file, damaged. `most` is the most bytes that a file of its sort may have.
pub fn damaged(dice: &mut Dice, mut bytes: Vec<u8>, most: usize) -> Vec<u8> {
    match dice.below(8) {
        0..=2 => change_one_byte(dice, &mut bytes),
        3 => bytes.truncate(dice.below(bytes.len() + 1)),
        4 => bytes.extend((0..=dice.below(3)).map(|_| dice.byte()).collect::<Vec<_>>()),
        5 => insert_or_remove(dice, &mut bytes),
        6 => bytes.resize(most.max(bytes.len()) + 1, dice.byte_below(2)),
        _ => bytes = (0..dice.below(40)).map(|_| dice.byte_below(4)).collect(),
    }
    bytes
}

/// The beginning of a file, often none of it, and then any bytes, often small ones.
pub fn thrown(dice: &mut Dice, mut bytes: Vec<u8>) -> Vec<u8> {
    let kept = dice.below(bytes.len() + 1);
    bytes.truncate(if dice.one_in(2) { kept } else { 0 });
    let limit = *dice.pick(&[2, 4, 20, 255]);
    bytes.extend(
        (0..dice.below(120))
            .map(|_| dice.byte_below(limit))
            .collect::<Vec<_>>(),
    );
    bytes
}

/// Often near the front, where the numbers and the counts stand.
fn change_one_byte(dice: &mut Dice, bytes: &mut [u8]) {
    if bytes.is_empty() {
        return;
    }
    let last = bytes.len() - 1;
    let place = match dice.below(3) {
        0 => dice.below(8).min(last),
        1 => dice.below(40).min(last),
        _ => dice.below(bytes.len()),
    };
    bytes[place] = if dice.one_in(2) {
        dice.byte()
    } else {
        bytes[place].wrapping_add(1)
    };
}

fn insert_or_remove(dice: &mut Dice, bytes: &mut Vec<u8>) {
    if bytes.is_empty() || dice.one_in(2) {
        bytes.insert(dice.below(bytes.len() + 1), dice.byte_below(4));
    } else {
        bytes.remove(dice.below(bytes.len()));
    }
}
