//! Damage to a sound card, one clause of shape or soundness at a time.

use crate::model::{ends, word, Card, ALLOCATED, DAY, HIGHEST_MULTIPLICITY, READ_KEY, TIME_END, WAITING, WRITE_KEY};
use crate::random_card::Random;

/// Ways to damage a sound card, by clause of shape and of soundness.
pub const DAMAGES: [&str; 73] = [
    "record short",
    "record long",
    "record empty",
    "N 15",
    "N 4097",
    "N one more",
    "N one less",
    "N 2^62",
    "N 2^64 - 1",
    "R 0",
    "R 9",
    "R 2^64 - 1",
    "B 256",
    "B 131072",
    "B no power of two",
    "B 0",
    "B twice",
    "B 2^63",
    "T 2^40",
    "T 2^64 - 1",
    "M above P",
    "M 2^64 - 1",
    "flags short",
    "flags long",
    "keys short",
    "keys long",
    "counts short",
    "counts long",
    "no pointers",
    "16385 pointers",
    "multiplicities short",
    "multiplicities long",
    "windows short",
    "windows long",
    "contents short",
    "contents long",
    "flags 16 and above",
    "allocated and waiting",
    "waiting with a key flag",
    "waiting with another flag",
    "root free",
    "root waiting",
    "free with a key flag",
    "free with a key word",
    "free with a count",
    "free with a window",
    "waiting with a key word",
    "waiting with a count",
    "waiting with a window",
    "absent key not 0",
    "pointers not ascending",
    "pointer twice",
    "pointer past M",
    "multiplicity 0 within M",
    "multiplicity past M",
    "M one more",
    "M one less",
    "source past N or free",
    "source waiting",
    "destination past N or free",
    "destination waiting",
    "destination a root",
    "equal ends",
    "count too high",
    "count too low",
    "count of the places alone",
    "multiplicity too high",
    "multiplicity too low",
    "multiplicities exchanged",
    "allocated without pointer",
    "window past T + 86400",
    "total one above T * 4096",
    "total far above T * 4096",
];

/// The first of them are faults of shape, the others of soundness.
pub const SHAPE_DAMAGES: usize = 36;

/// One of the unallocated blocks, which waits then.
fn let_wait(rnd: &mut Random, card: &mut Card, unallocated: &[usize]) -> usize {
    let b = rnd.of(unallocated);
    card.flags[b] = WAITING;
    b
}

/// Gives a root these flags, without keys and windows.
fn unallocate_root(rnd: &mut Random, card: &mut Card, flags: u8) {
    let b = rnd.below(card.roots() as u64) as usize;
    card.flags[b] = flags;
    card.keys[4 * b..4 * b + 4].fill(0);
    card.windows[2 * b..2 * b + 2].fill(0);
}

/// A word of a key in one of these blocks, which have none.
fn put_key_word(rnd: &mut Random, card: &mut Card, blocks: &[usize]) {
    card.keys[4 * rnd.of(blocks) + rnd.below(4) as usize] = rnd.of(&[1, 1 << 63, u64::MAX]);
}

/// A count for one of these blocks, to which nothing points.
fn put_count(rnd: &mut Random, card: &mut Card, blocks: &[usize]) {
    card.counts[rnd.of(blocks)] = rnd.of(&[1, 256, 65_536, u32::MAX]);
}

/// A window of one of these blocks, which have none.
fn put_window(rnd: &mut Random, card: &mut Card, blocks: &[usize]) {
    let end = rnd.of(&[1, card.info[4].max(1), card.info[4] + 1]);
    card.windows[2 * rnd.of(blocks) + rnd.below(2) as usize] = end;
}

/// Damages the card; false where this card has no place for it.
pub fn damage(rnd: &mut Random, card: &mut Card, which: usize) -> bool {
    let (n, r, m, p) = (card.blocks(), card.roots(), card.used(), card.pointers.len());
    let all: Vec<usize> = (0..n).collect();
    let allocated: Vec<usize> = all.iter().copied().filter(|&b| card.allocated(b)).collect();
    let unallocated: Vec<usize> = all.iter().copied().filter(|&b| !card.allocated(b)).collect();
    let free: Vec<usize> = all.iter().copied().filter(|&b| card.free(b)).collect();
    let used: Vec<(u32, u16)> = card.in_use().collect();
    // These change or add one pointer, keeping order and counts right, so that only the clause in question fails.
    let replace = |card: &mut Card, at: usize, new: (u32, u16)| {
        let mut used = used.clone();
        used[at] = new;
        card.draw_pointers(used);
    };
    let add = |card: &mut Card, new: (u32, u16)| card.draw_pointers(used.iter().copied().chain([new]).collect());
    // Gives every table the length that the record then asks for, so that only the range fails. Costly, so not always.
    let fit = |rnd: &mut Random, card: &mut Card| {
        let (n, b) = (card.info[0] as usize, card.info[2] as usize);
        if n * b <= 1 << 22 && rnd.percent(30) {
            card.flags.resize(n, 0);
            card.keys.resize(4 * n, 0);
            card.counts.resize(n, 0);
            card.windows.resize(2 * n, 0);
            card.contents.resize(n * b, 0);
        }
    };
    match DAMAGES[which] {
        "record short" => card.info.truncate(5),
        "record long" => card.info.push(0),
        "record empty" => card.info.clear(),
        "N 15" => {
            card.info[0] = 15;
            fit(rnd, card);
        }
        "N 4097" => {
            card.info[0] = 4_097;
            fit(rnd, card);
        }
        "N one more" => card.info[0] += 1,
        "N one less" => card.info[0] -= 1,
        "N 2^62" => card.info[0] = 1 << 62,
        "N 2^64 - 1" => card.info[0] = u64::MAX,
        "R 0" => card.info[1] = 0,
        "R 9" => card.info[1] = 9,
        "R 2^64 - 1" => card.info[1] = u64::MAX,
        "B 256" => {
            card.info[2] = 256;
            fit(rnd, card);
        }
        "B 131072" => {
            card.info[2] = 131_072;
            fit(rnd, card);
        }
        "B no power of two" => {
            card.info[2] += rnd.of(&[1, 256, 2]);
            fit(rnd, card);
        }
        "B 0" => {
            card.info[2] = 0;
            fit(rnd, card);
        }
        "B twice" => card.info[2] *= 2,
        "B 2^63" => card.info[2] = 1 << 63,
        "T 2^40" => card.info[4] = TIME_END,
        "T 2^64 - 1" => card.info[4] = u64::MAX,
        "M above P" => card.info[3] = p as u64 + 1,
        "M 2^64 - 1" => card.info[3] = u64::MAX,
        "flags short" => card.flags.truncate(n - 1),
        "flags long" => card.flags.push(0),
        "keys short" => card.keys.truncate(4 * n - 1),
        "keys long" => card.keys.push(0),
        "counts short" => card.counts.truncate(n - 1),
        "counts long" => card.counts.push(0),
        "no pointers" => {
            card.pointers.clear();
            card.multiplicities.clear();
            card.info[3] = 0;
        }
        "16385 pointers" => {
            card.pointers.resize(16_385, 0);
            card.multiplicities.resize(16_385, 0);
        }
        "multiplicities short" => card.multiplicities.truncate(p - 1),
        "multiplicities long" => card.multiplicities.push(rnd.of(&[0, 1])),
        "windows short" => card.windows.truncate(2 * n - 1),
        "windows long" => card.windows.push(0),
        "contents short" => card.contents.truncate(card.contents.len() - 1),
        "contents long" => card.contents.push(0),
        "flags 16 and above" => {
            let b = rnd.of(&all);
            card.flags[b] |= rnd.of(&[16, 32, 64, 128, 240]);
        }
        "allocated and waiting" => card.flags[rnd.of(&allocated)] |= WAITING,
        "waiting with a key flag" if !unallocated.is_empty() => {
            card.flags[rnd.of(&unallocated)] = WAITING | rnd.of(&[READ_KEY, WRITE_KEY, READ_KEY | WRITE_KEY]);
        }
        "waiting with another flag" if !unallocated.is_empty() => {
            card.flags[rnd.of(&unallocated)] = WAITING | rnd.of(&[16, 32, 64, 128, 240]);
        }
        "root free" => unallocate_root(rnd, card, 0),
        "root waiting" => unallocate_root(rnd, card, WAITING),
        "free with a key flag" if !free.is_empty() => {
            card.flags[rnd.of(&free)] = rnd.of(&[READ_KEY, WRITE_KEY, READ_KEY | WRITE_KEY]);
        }
        "free with a key word" if !free.is_empty() => put_key_word(rnd, card, &free),
        "free with a count" if !free.is_empty() => put_count(rnd, card, &free),
        "free with a window" if !free.is_empty() => put_window(rnd, card, &free),
        "waiting with a key word" if !unallocated.is_empty() => {
            let b = let_wait(rnd, card, &unallocated);
            put_key_word(rnd, card, &[b]);
        }
        "waiting with a count" if !unallocated.is_empty() => {
            let b = let_wait(rnd, card, &unallocated);
            put_count(rnd, card, &[b]);
        }
        "waiting with a window" if !unallocated.is_empty() => {
            let b = let_wait(rnd, card, &unallocated);
            put_window(rnd, card, &[b]);
        }
        "absent key not 0" => {
            let b = rnd.of(&allocated);
            let flag = rnd.below(2) as usize;
            if card.flags[b] & [READ_KEY, WRITE_KEY][flag] != 0 {
                return false;
            }
            card.keys[4 * b + 2 * flag + rnd.below(2) as usize] = rnd.of(&[1, 1 << 32, u64::MAX]);
        }
        "pointers not ascending" if m >= 2 => {
            let i = rnd.below(m as u64 - 1) as usize;
            card.pointers.swap(i, i + 1);
            card.multiplicities.swap(i, i + 1);
        }
        "pointer twice" if m >= 1 && m < p => {
            let pointer = rnd.of(&used).0;
            add(card, (pointer, rnd.of(&[1, 2])));
        }
        "pointer past M" if m < p => {
            let i = rnd.of(&[m as u64, p as u64 - 1]) as usize;
            card.pointers[i] = rnd.of(&[1, 65_536, u32::MAX, word(n - 1, n - 2)]);
        }
        "multiplicity 0 within M" if m > 0 => {
            let i = rnd.below(m as u64) as usize;
            let (pointer, times) = used[i];
            if card.counts[ends(pointer).1] == times as u32 {
                return false;
            }
            replace(card, i, (pointer, 0));
        }
        "multiplicity past M" if m < p => {
            let i = rnd.of(&[m as u64, p as u64 - 1]) as usize;
            card.multiplicities[i] = rnd.of(&[1, 256, HIGHEST_MULTIPLICITY]);
        }
        "M one more" if m < p => card.info[3] += 1,
        "M one less" if m > 0 => card.info[3] -= 1,
        "source past N or free" if m > 0 => {
            let i = rnd.below(m as u64) as usize;
            let destination = ends(used[i].0).1;
            let source = if free.is_empty() || rnd.percent(50) { rnd.of(&[n, 65_535]) } else { rnd.of(&free) };
            replace(card, i, (word(source, destination), used[i].1));
        }
        "source waiting" if m > 0 && !unallocated.is_empty() => {
            let i = rnd.below(m as u64) as usize;
            let source = let_wait(rnd, card, &unallocated);
            replace(card, i, (word(source, ends(used[i].0).1), used[i].1));
        }
        "destination past N or free" if m > 0 => {
            let i = rnd.below(m as u64) as usize;
            let source = ends(used[i].0).0;
            let destination = if free.is_empty() || rnd.percent(50) { rnd.of(&[n, 65_535]) } else { rnd.of(&free) };
            replace(card, i, (word(source, destination), used[i].1));
        }
        "destination waiting" if m > 0 && !unallocated.is_empty() => {
            let i = rnd.below(m as u64) as usize;
            let destination = let_wait(rnd, card, &unallocated);
            replace(card, i, (word(ends(used[i].0).0, destination), used[i].1));
        }
        "destination a root" if m < p => {
            let destination = rnd.below(r as u64) as usize;
            let source = rnd.of(&allocated);
            if source == destination {
                return false;
            }
            add(card, (word(source, destination), 1));
        }
        "equal ends" if m < p => {
            let b = rnd.of(&allocated);
            if b < r {
                return false;
            }
            add(card, (word(b, b), 1));
        }
        // By 65,536: the same in its low 16 bits.
        "count too high" => {
            let b = rnd.of(&allocated);
            card.counts[b] = rnd.of(&[card.counts[b] + 1, card.counts[b] + 256, card.counts[b] + 65_536, u32::MAX]);
        }
        "count too low" => {
            let b = rnd.of(&allocated);
            if card.counts[b] == 0 {
                return false;
            }
            card.counts[b] -= if card.counts[b] > 65_536 { rnd.of(&[1, 65_536]) } else { 1 };
        }
        "count of the places alone" if m > 0 => {
            let b = ends(rnd.of(&used).0).1;
            let places = used.iter().filter(|(pointer, _)| ends(*pointer).1 == b).count() as u32;
            if card.counts[b] == places {
                return false;
            }
            card.counts[b] = places;
        }
        "multiplicity too high" if m > 0 => {
            let i = rnd.below(m as u64) as usize;
            if card.multiplicities[i] == HIGHEST_MULTIPLICITY {
                return false;
            }
            card.multiplicities[i] += 1;
        }
        "multiplicity too low" if m > 0 => {
            let i = rnd.below(m as u64) as usize;
            if card.multiplicities[i] == 1 {
                return false;
            }
            card.multiplicities[i] -= 1;
        }
        "multiplicities exchanged" if m >= 2 => {
            let i = rnd.below(m as u64 - 1) as usize;
            if ends(used[i].0).1 == ends(used[i + 1].0).1 || used[i].1 == used[i + 1].1 {
                return false;
            }
            card.multiplicities.swap(i, i + 1);
        }
        "allocated without pointer" if !unallocated.is_empty() => card.flags[rnd.of(&unallocated)] = ALLOCATED,
        "window past T + 86400" => {
            let end = rnd.of(&[card.info[4] + DAY + 1, TIME_END + DAY + 1, u64::MAX]);
            card.windows[2 * rnd.of(&allocated) + rnd.below(2) as usize] = end;
        }
        "total one above T * 4096" => card.info[5] = 4_096 * card.info[4] + 1,
        // The first is the same in its low 32 bits.
        "total far above T * 4096" => {
            card.info[5] = rnd.of(&[4_096 * card.info[4] + (1 << 32), 1 << 52, 1 << 63, u64::MAX]);
        }
        _ => return false,
    }
    true
}
