//! Random choice from a seed, and random sound cards.

use crate::model::{word, Card, Key, ALLOCATED, DAY, HIGHEST_MULTIPLICITY, READ_KEY, TIME_END, WAITING, WRITE_KEY};
use std::collections::BTreeSet;

/// splitmix64
pub struct Random(pub u64);

impl Random {
    pub fn next(&mut self) -> u64 {
        self.0 = self.0.wrapping_add(0x9E37_79B9_7F4A_7C15);
        let mut z = self.0;
        z = (z ^ (z >> 30)).wrapping_mul(0xBF58_476D_1CE4_E5B9);
        z = (z ^ (z >> 27)).wrapping_mul(0x94D0_49BB_1331_11EB);
        z ^ (z >> 31)
    }
    pub fn below(&mut self, n: u64) -> u64 {
        self.next() % n
    }
    pub fn within(&mut self, low: u64, high: u64) -> u64 {
        low + self.below(high - low + 1)
    }
    pub fn percent(&mut self, p: u64) -> bool {
        self.below(100) < p
    }
    pub fn of<T: Copy>(&mut self, choices: &[T]) -> T {
        choices[self.below(choices.len() as u64) as usize]
    }
    pub fn fill(&mut self, bytes: &mut [u8]) {
        for part in bytes.chunks_mut(8) {
            part.copy_from_slice(&self.next().to_le_bytes()[..part.len()]);
        }
    }
    pub fn bytes(&mut self, count: usize) -> Vec<u8> {
        let mut bytes = vec![0; count];
        self.fill(&mut bytes);
        bytes
    }
}

/// A few keys for the whole run, so that blocks share them: the zero key, keys that differ in one word or one bit.
pub const KEYS: [Key; 8] = [
    Key { high: 0, low: 0 },
    Key { high: 0, low: 1 },
    Key { high: 1, low: 0 },
    Key { high: u64::MAX, low: u64::MAX },
    Key { high: 0x0123_4567_89AB_CDEF, low: 0xFEDC_BA98_7654_3210 },
    Key { high: 0x0123_4567_89AB_CDEF, low: 0xFEDC_BA98_7654_3211 },
    Key { high: 0x8123_4567_89AB_CDEF, low: 0xFEDC_BA98_7654_3210 },
    Key { high: 0xFEDC_BA98_7654_3210, low: 0x0123_4567_89AB_CDEF },
];

// ---- Cards ----

#[derive(Clone, Copy)]
pub struct Size {
    pub blocks: u64,
    pub roots: u64,
    pub bytes: u64,
    pub places: u64,
}

pub fn random_size(rnd: &mut Random) -> Size {
    let blocks = match rnd.below(200) {
        0..=39 => 16,
        40..=189 => rnd.within(17, 40),
        190..=197 => rnd.within(41, 200),
        _ => rnd.within(201, 700),
    };
    let places = match rnd.below(100) {
        0..=3 => 1,
        4..=11 => rnd.within(2, 16),
        12..=89 => rnd.within(16, 3 * blocks),
        90..=98 => rnd.within(blocks, 40 * blocks).min(16_384),
        _ => 16_384,
    };
    let bytes = if rnd.percent(98) { 512 } else { 512 << rnd.within(1, if blocks < 41 { 7 } else { 2 }) };
    Size { blocks, roots: rnd.within(1, 8), bytes, places }
}

/// How often a pointer is there: once or, in so many of a hundred cases, more often, up to the highest multiplicity.
fn random_multiplicity(rnd: &mut Random, repeated: u64) -> u16 {
    if !rnd.percent(repeated) {
        return 1;
    }
    match rnd.below(8) {
        0..=2 => 2,
        3 => rnd.within(3, 9) as u16,
        4 => rnd.within(3, HIGHEST_MULTIPLICITY as u64 - 2) as u16,
        5 => HIGHEST_MULTIPLICITY - 1,
        _ => HIGHEST_MULTIPLICITY,
    }
}

/// A total that is sound at the time: none, the highest, one just above what all blocks could have come to, one that is
/// half a cent or a whole one at the price of 1,000 or 2,000, or one more or less than that; or any.
fn random_total(rnd: &mut Random, time: u64, blocks: u64) -> u64 {
    let highest = 4_096 * time;
    let below = rnd.of(&[highest, blocks * time]);
    let total = match rnd.below(10) {
        0 => 0,
        1..=3 => highest,
        4 => highest.saturating_sub(1),
        5 => blocks * time + 1,
        6..=8 => (21_600 * rnd.below(below / 21_600 + 1) + rnd.below(3)).saturating_sub(1),
        _ => rnd.below(below + 1),
    };
    total.min(highest)
}

/// A sound card of that size, anything else by chance.
pub fn random_card(rnd: &mut Random, size: Size) -> Card {
    let (n, r, b, p) = (size.blocks as usize, size.roots as usize, size.bytes as usize, size.places as usize);
    let time = match rnd.below(10) {
        0 => 0,
        1 => TIME_END - 1,
        2 => TIME_END - 1 - rnd.below(200_000),
        3 => rnd.below(TIME_END),
        _ => rnd.below(1_000_000),
    };
    let mut card = Card {
        info: vec![n as u64, r as u64, b as u64, 0, time, random_total(rnd, time, size.blocks)],
        flags: vec![0; n],
        keys: vec![0; 4 * n],
        counts: vec![0; n],
        pointers: vec![0; p],
        multiplicities: vec![0; p],
        windows: vec![0; 2 * n],
        contents: vec![0; n * b],
    };
    if card.contents.len() <= 1 << 22 {
        rnd.fill(&mut card.contents);
    }
    card.flags[..r].fill(ALLOCATED);

    // Which blocks are allocated, and one pointer to each of them that is no root.
    let most = (n - r).min(p);
    let wanted = match rnd.below(10) {
        0 => 0,
        1 => most,
        2 => most - most.min(rnd.within(1, 3) as usize),
        _ => rnd.below(most as u64 + 1) as usize,
    };
    let mut allocated: Vec<usize> = (0..r).collect();
    let mut free: Vec<usize> = (r..n).collect();
    let mut pointers = BTreeSet::new();
    let chosen: Vec<usize> = (0..wanted).map(|_| free.swap_remove(rnd.below(free.len() as u64) as usize)).collect();
    let ring = if wanted < 3 { 0 } else { rnd.of(&[0, 0, 2, 3]) };
    for (i, &b) in chosen.iter().enumerate() {
        // The first few may be a ring, to which no other block leads.
        let source = if i < ring { chosen[(i + 1) % ring] } else { rnd.of(&allocated) };
        pointers.insert(word(source, b));
        card.flags[b] = ALLOCATED;
        allocated.push(b);
    }
    // Of the others none waits, some or all do, with what they held.
    let waiting = rnd.of(&[0, 0, 10, 50, 90, 100]);
    free.iter().filter(|_| rnd.percent(waiting)).for_each(|&b| card.flags[b] = WAITING);
    // More pointers, cycles among them; often until the places are used up.
    let extra = match rnd.below(4) {
        0 => 0,
        1 => p,
        _ => rnd.below(2 * n as u64) as usize,
    };
    for _ in 0..extra {
        let (source, destination) = (rnd.of(&allocated), rnd.of(&allocated));
        let into_ring = chosen[..ring].contains(&destination) && !chosen[..ring].contains(&source);
        if pointers.len() < p && destination >= r && source != destination && !into_ring {
            pointers.insert(word(source, destination));
        }
    }
    let repeated = rnd.of(&[0, 20, 60]);
    card.draw_pointers(pointers.into_iter().map(|pointer| (pointer, random_multiplicity(rnd, repeated))).collect());

    let (keyed, windowed) = (rnd.below(90), rnd.below(90));
    for &b in &allocated {
        for (flag, at) in [(READ_KEY, 4 * b), (WRITE_KEY, 4 * b + 2)] {
            if rnd.percent(keyed) {
                let key = rnd.of(&KEYS);
                card.flags[b] |= flag;
                card.keys[at] = key.high;
                card.keys[at + 1] = key.low;
            }
        }
        for window in &mut card.windows[2 * b..2 * b + 2] {
            if rnd.percent(windowed) {
                *window = match rnd.below(8) {
                    0 => time,
                    1 => time + 1,
                    2 => time.saturating_sub(1),
                    3 => time + DAY,
                    4 => rnd.below(time + 1),
                    _ => time + rnd.below(DAY + 1),
                };
            }
        }
    }
    card
}
