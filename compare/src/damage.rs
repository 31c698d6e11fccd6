//! Damaged input: counts that lie, cells with odd values, lists that end too soon.
use crate::random::Random;

const ODD: [usize; 20] = [
    0,
    1,
    2,
    3,
    4,
    5,
    6,
    7,
    8,
    255,
    256,
    257,
    511,
    512,
    513,
    9999,
    10000,
    1 << 63,
    usize::MAX - 1,
    usize::MAX,
];

/// One to three counts or cells get another value, or a list gets a cell less or more.
pub fn damage(counts: &mut [&mut usize], lists: &mut [&mut Vec<usize>], random: &mut Random) {
    for _ in 0..random.between(1, 3) {
        let count = random.below(counts.len());
        let list = random.below(lists.len());
        let list = &mut *lists[list];
        match random.below(10) {
            0 => *counts[count] = random.pick(&ODD),
            1 => *counts[count] = counts[count].wrapping_add(1),
            2 => *counts[count] = counts[count].saturating_sub(1),
            3 => {
                list.pop();
            }
            4 => list.push(random.pick(&ODD)),
            _ => change(list, random),
        }
    }
}

/// One cell gets another value.
pub fn change(list: &mut [usize], random: &mut Random) {
    if !list.is_empty() {
        list[random.below(list.len())] = random.pick(&ODD);
    }
}
