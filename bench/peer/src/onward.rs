//! Which steps a search has to take from a cell, by the one that led there.
use crate::ground::STEPS;

/// The number of the step that led to a start: none did.
pub const FROM_START: u8 = 8;

/// For each step that led to a cell, and all legal ones from there, those that may go on a shortest
/// walk for which there is none that takes its diagonal steps earlier: the cell before leads as
/// soon to where the others lead.
pub static ONWARD: [[u8; 256]; 9] = {
    let mut onward = [[0; 256]; 9];
    let mut legal = 0;
    while legal < 256 {
        let mut by = 0;
        while by < 8 {
            onward[by][legal] = legal as u8 & onward_by(STEPS[by], legal as u8);
            by += 1;
        }
        onward[FROM_START as usize][legal] = legal as u8;
        legal += 1;
    }
    onward
};

/// The bit of a step.
const fn bit(dx: i16, dy: i16) -> u8 {
    let mut number = 0;
    while STEPS[number].0 != dx || STEPS[number].1 != dy {
        number += 1;
    }
    1 << number
}

/// The steps that lead on behind one.
const fn onward_by((dx, dy): (i16, i16), legal: u8) -> u8 {
    if dx != 0 && dy != 0 {
        return bit(dx, dy) | bit(dx, 0) | bit(0, dy);
    }
    bit(dx, dy) | to_side((dx, dy), (dy, dx), legal) | to_side((dx, dy), (-dy, -dx), legal)
}

/// Those to a side of a straight one: they lead on only where the cell before doesn't lead there by
/// a diagonal step.
const fn to_side((dx, dy): (i16, i16), (side_x, side_y): (i16, i16), legal: u8) -> u8 {
    let is_round = legal & bit(side_x, side_y) != 0 && legal & bit(side_x - dx, side_y - dy) == 0;
    if is_round {
        bit(side_x, side_y) | bit(side_x + dx, side_y + dy)
    } else {
        0
    }
}
