//! Benchmark: each call by the library beside a plain linear version of it, in one run.
//!
//! The plain version is what a C programmer would write: the same audit before every call, in one walk over pointers
//! and blocks, then the call's own work with binary search and block moves. The floor is what no version can
//! undercut by much: one addition for every word of the tables but contents, and the copy or fill of the call.
//! The model is the differential test's, built for release: it favours plain rules over speed.
//! Call records are served by `negvask_batch`, with one audit, beside `negvask_serve`, with one for each.
//! The two lists of the reach report stand beside plain walks over the pointers. DELETE_TREE of a large tree stands beside
//! a plain list of work, and beside one DELETE after the other. SWEEP stands beside a plain fill of the same blocks.
//! Times are the best of many rounds, taken in turns; none is asserted.

#[allow(dead_code)]
mod library;
#[allow(dead_code)]
mod model;

use library::{credential_bytes, new_key_bytes, Direct, Lent, LentBatch, LentBuffers, Tables, HOST};
use model::{
    key_words, word, Buffers, Call, Card, Credential, Key, Operation, Port, Progress, ALLOCATED, DAY,
    HIGHEST_MULTIPLICITY, HIGHEST_PRICE, PER_CENT, READ_KEY, TIME_END, WAITING, WRITE_KEY,
};
use std::cell::RefCell;
use std::collections::BTreeSet;
use std::hint::black_box;
use std::time::{Duration, Instant};

const READER: Key = Key { high: 11, low: 12 };
const WRITER: Key = Key { high: 21, low: 22 };

// ---- The plain version ----

mod plain {
    use super::*;

    pub fn audit(card: &Card) -> u32 {
        let &[n, r, b, m, t, total] = card.info.as_slice() else { return 1 };
        let places = card.pointers.len();
        if !(16..=4_096).contains(&n) || !(1..=8).contains(&r) || !(512..=65_536).contains(&b) || b & (b - 1) != 0 {
            return 1;
        }
        let (n, r, m) = (n as usize, r as usize, m as usize);
        if t >= TIME_END
            || card.flags.len() != n
            || card.keys.len() != 4 * n
            || card.counts.len() != n
            || places < 1
            || places > 16_384
            || card.multiplicities.len() != places
            || card.windows.len() != 2 * n
            || card.contents.len() != n * b as usize
            || m > places
        {
            return 1;
        }
        if total > t * 4_096 {
            return 2;
        }
        let flags = &card.flags[..n];
        let mut found = [0u32; 4_096];
        let mut last = 0;
        for (&p, &times) in card.pointers[..m].iter().zip(&card.multiplicities[..m]) {
            let (s, d) = ((p >> 16) as usize, (p & 65_535) as usize);
            if p <= last || s >= n || d >= n || d < r || s == d || flags[s] & 1 == 0 || flags[d] & 1 == 0 || times == 0
            {
                return 2;
            }
            found[d] += times as u32;
            last = p;
        }
        if card.pointers[m..].iter().any(|&p| p != 0) || card.multiplicities[m..].iter().any(|&times| times != 0) {
            return 2;
        }
        let latest = t + DAY;
        let keys = card.keys.chunks_exact(4);
        let windows = card.windows.chunks_exact(2);
        for ((((b, &f), &count), k), w) in (0..n).zip(flags).zip(&card.counts).zip(keys).zip(windows) {
            if count != found[b] || w[0] > latest || w[1] > latest {
                return 2;
            }
            if f & 1 == 0 {
                if b < r || f & !WAITING != 0 || count != 0 || k[0] | k[1] | k[2] | k[3] | w[0] | w[1] != 0 {
                    return 2;
                }
            } else if f >= 8
                || (b >= r && count == 0)
                || (f & READ_KEY == 0 && k[0] | k[1] != 0)
                || (f & WRITE_KEY == 0 && k[2] | k[3] != 0)
            {
                return 2;
            }
        }
        0
    }

    fn allocated(card: &Card, b: u16) -> bool {
        (b as usize) < card.flags.len() && card.flags[b as usize] & 1 != 0
    }

    fn is_key(card: &Card, b: u16, at: usize, key: Key) -> bool {
        let at = 4 * b as usize + at;
        card.keys[at] == key.high && card.keys[at + 1] == key.low
    }

    /// The mode is 0 for reading and 1 for writing.
    fn opens(card: &Card, mode: u8, b: u16, key: Key) -> bool {
        let f = card.flags[b as usize];
        let by_write_key = f & WRITE_KEY != 0 && is_key(card, b, 2, key);
        match mode {
            0 => f & READ_KEY != 0 && (is_key(card, b, 0, key) || by_write_key),
            _ => by_write_key,
        }
    }

    /// The later of the window's present end and T + interval.
    fn extend_window(card: &mut Card, mode: u8, b: u16, interval: u32) {
        let window = &mut card.windows[2 * b as usize + mode as usize];
        *window = (*window).max(card.info[4] + interval as u64);
    }

    pub fn read(card: &mut Card, b: u16, key: Key, interval: u32, out: &mut [u8]) -> u32 {
        match audit(card) {
            0 => {}
            refusal => return refusal,
        }
        let bytes = card.info[2] as usize;
        if out.len() != bytes || interval as u64 > DAY {
            return 4;
        }
        if !allocated(card, b) {
            return 3;
        }
        if !opens(card, 0, b, key) {
            return 5;
        }
        out.copy_from_slice(&card.contents[b as usize * bytes..][..bytes]);
        extend_window(card, 0, b, interval);
        0
    }

    pub fn write(card: &mut Card, b: u16, key: Key, interval: u32, data: &[u8]) -> u32 {
        match audit(card) {
            0 => {}
            refusal => return refusal,
        }
        let bytes = card.info[2] as usize;
        if data.len() != bytes || interval as u64 > DAY {
            return 4;
        }
        if !allocated(card, b) {
            return 3;
        }
        if !opens(card, 1, b, key) {
            return 5;
        }
        card.contents[b as usize * bytes..][..bytes].copy_from_slice(data);
        extend_window(card, 1, b, interval);
        0
    }

    pub fn renew(card: &mut Card, mode: u8, b: u16, key: Key, interval: u32) -> u32 {
        match audit(card) {
            0 => {}
            refusal => return refusal,
        }
        if mode > 1 || interval == 0 || interval as u64 > DAY {
            return 4;
        }
        if !allocated(card, b) {
            return 3;
        }
        if !opens(card, mode, b, key) {
            return 5;
        }
        extend_window(card, mode, b, interval);
        0
    }

    /// A new pointer at its place.
    fn insert(card: &mut Card, at: usize, pointer: u32) {
        let m = card.info[3] as usize;
        card.pointers.copy_within(at..m, at + 1);
        card.pointers[at] = pointer;
        card.multiplicities.copy_within(at..m, at + 1);
        card.multiplicities[at] = 1;
        card.info[3] += 1;
        card.counts[(pointer & 65_535) as usize] += 1;
    }

    /// What ALLOC and ALLOC_CONTIG refuse before they look for blocks.
    fn alloc_refusal(card: &Card, r: u16, key: Key, hint: u16, count: u8, places: &[u16]) -> u32 {
        match audit(card) {
            0 => {}
            refusal => return refusal,
        }
        if count == 0 || count > 64 || hint as usize >= card.flags.len() || places.len() < count as usize {
            return 4;
        }
        if !allocated(card, r) {
            return 3;
        }
        if (r as u64) < card.info[1] {
            return 6;
        }
        if !opens(card, 1, r, key) {
            return 5;
        }
        0
    }

    pub fn alloc(card: &mut Card, r: u16, key: Key, hint: u16, count: u8, places: &mut [u16]) -> u32 {
        match alloc_refusal(card, r, key, hint, count, places) {
            0 => {}
            refusal => return refusal,
        }
        let (n, bytes) = (card.flags.len(), card.info[2] as usize);
        if card.flags.iter().filter(|&&f| f == 0).count() < count as usize {
            return 10;
        }
        if card.info[3] as usize + count as usize > card.pointers.len() {
            return 11;
        }
        // Outward from the hint, below before above; what was taken stays behind.
        let (mut below, mut above) = (hint as isize, hint as usize + 1);
        for place in &mut places[..count as usize] {
            while below >= 0 && card.flags[below as usize] != 0 {
                below -= 1;
            }
            while above < n && card.flags[above] != 0 {
                above += 1;
            }
            let lower = below >= 0 && (above >= n || hint as isize - below <= above as isize - hint as isize);
            let b = if lower { below as usize } else { above };
            card.flags[b] = ALLOCATED;
            card.contents[b * bytes..][..bytes].fill(0);
            let (m, pointer) = (card.info[3] as usize, word(r as usize, b));
            let at = card.pointers[..m].partition_point(|&p| p < pointer);
            insert(card, at, pointer);
            *place = b as u16;
        }
        0
    }

    pub fn alloc_contig(card: &mut Card, r: u16, key: Key, hint: u16, count: u8, places: &mut [u16]) -> u32 {
        match alloc_refusal(card, r, key, hint, count, places) {
            0 => {}
            refusal => return refusal,
        }
        let (m, count, bytes) = (card.info[3] as usize, count as usize, card.info[2] as usize);
        // One walk: how many are free, and at the last block of each run how near its first one is.
        let (mut free, mut adjoining) = (0, 0);
        let (mut first, mut nearest) = (0, usize::MAX);
        for (b, &f) in card.flags.iter().enumerate() {
            if f != 0 {
                adjoining = 0;
                continue;
            }
            free += 1;
            adjoining += 1;
            if adjoining >= count {
                let start = b + 1 - count;
                let distance = start.abs_diff(hint as usize);
                if distance < nearest {
                    (first, nearest) = (start, distance);
                }
            }
        }
        if free < count {
            return 10;
        }
        if nearest == usize::MAX {
            return 14;
        }
        if m + count > card.pointers.len() {
            return 11;
        }
        // The pointers to the run adjoin too, so the tables move once.
        let at = card.pointers[..m].partition_point(|&p| p < word(r as usize, first));
        card.pointers.copy_within(at..m, at + count);
        card.multiplicities.copy_within(at..m, at + count);
        card.multiplicities[at..at + count].fill(1);
        for (i, place) in places[..count].iter_mut().enumerate() {
            card.pointers[at + i] = word(r as usize, first + i);
            *place = (first + i) as u16;
        }
        card.info[3] += count as u64;
        card.counts[first..first + count].fill(1);
        card.flags[first..first + count].fill(ALLOCATED);
        card.contents[first * bytes..][..count * bytes].fill(0);
        0
    }

    pub fn create(card: &mut Card, s: u16, d: u16, key: Key) -> u32 {
        match audit(card) {
            0 => {}
            refusal => return refusal,
        }
        if !allocated(card, s) || !allocated(card, d) {
            return 3;
        }
        if (d as u64) < card.info[1] || (s as u64) < card.info[1] {
            return 6;
        }
        for b in [s, d] {
            if !opens(card, 1, b, key) {
                return 5;
            }
        }
        if s == d {
            return 7;
        }
        let m = card.info[3] as usize;
        let pointer = word(s as usize, d as usize);
        match card.pointers[..m].binary_search(&pointer) {
            Ok(at) if card.multiplicities[at] == HIGHEST_MULTIPLICITY => return 7,
            Ok(at) => {
                card.multiplicities[at] += 1;
                card.counts[d as usize] += 1;
            }
            Err(_) if m == card.pointers.len() => return 11,
            Err(at) => insert(card, at, pointer),
        }
        0
    }

    /// What DELETE and DELETE_TREE refuse before they look for the pointer.
    fn removal_refusal(card: &Card, s: u16, d: u16, key: Key) -> u32 {
        match audit(card) {
            0 => {}
            refusal => return refusal,
        }
        if !allocated(card, s) || !allocated(card, d) {
            return 3;
        }
        if (s as u64) < card.info[1] {
            return 6;
        }
        if !opens(card, 1, s, key) {
            return 5;
        }
        0
    }

    pub fn delete(card: &mut Card, s: u16, d: u16, key: Key, value: &mut u64) -> u32 {
        match removal_refusal(card, s, d, key) {
            0 => {}
            refusal => return refusal,
        }
        let m = card.info[3] as usize;
        let Ok(at) = card.pointers[..m].binary_search(&word(s as usize, d as usize)) else { return 8 };
        let own = card.pointers[..m].partition_point(|&p| p < word(d as usize, 0));
        if card.counts[d as usize] == 1 && own < m && card.pointers[own] >> 16 == d as u32 {
            return 9;
        }
        card.multiplicities[at] -= 1;
        if card.multiplicities[at] == 0 {
            card.pointers.copy_within(at + 1..m, at);
            card.pointers[m - 1] = 0;
            card.multiplicities.copy_within(at + 1..m, at);
            card.multiplicities[m - 1] = 0;
            card.info[3] -= 1;
        }
        let d = d as usize;
        card.counts[d] -= 1;
        *value = (card.counts[d] == 0) as u64;
        if card.counts[d] == 0 {
            card.flags[d] = WAITING;
            card.keys[4 * d..4 * d + 4].fill(0);
            card.windows[2 * d..2 * d + 2].fill(0);
        }
        0
    }

    pub fn delete_tree(card: &mut Card, s: u16, d: u16, key: Key, value: &mut u64) -> u32 {
        match removal_refusal(card, s, d, key) {
            0 => {}
            refusal => return refusal,
        }
        let (n, m) = (card.flags.len(), card.info[3] as usize);
        let Ok(at) = card.pointers[..m].binary_search(&word(s as usize, d as usize)) else { return 8 };
        // A list of work over a copy of the counts: a block is freed when its count comes to 0.
        let places = places_of(n, card.pointers[..m].iter().map(|&p| p >> 16));
        let (mut counts, mut freed): ([u32; 4_096], Marks) = ([0; 4_096], [false; 4_096]);
        counts[..n].copy_from_slice(&card.counts);
        counts[d as usize] -= card.multiplicities[at] as u32;
        let mut queue: Numbers = [0; 4_096];
        let (mut next, mut end) = (0, 0);
        if counts[d as usize] == 0 {
            (queue[0], freed[d as usize], end) = (d, true, 1);
        }
        while next < end {
            let b = queue[next] as usize;
            next += 1;
            if card.flags[b] & WRITE_KEY != 0 {
                return 15;
            }
            for i in (places[b] as usize..places[b + 1] as usize).filter(|&i| i != at) {
                let to = (card.pointers[i] & 65_535) as usize;
                counts[to] -= card.multiplicities[i] as u32;
                if counts[to] == 0 {
                    (queue[end], freed[to]) = (to as u16, true);
                    end += 1;
                }
            }
        }
        // One pass over the pointers: those that stay move to the front.
        let mut left = 0;
        for i in 0..m {
            let pointer = card.pointers[i];
            if i != at && !freed[(pointer >> 16) as usize] {
                card.pointers[left] = pointer;
                card.multiplicities[left] = card.multiplicities[i];
                left += 1;
            }
        }
        card.pointers[left..m].fill(0);
        card.multiplicities[left..m].fill(0);
        card.info[3] = left as u64;
        card.counts.copy_from_slice(&counts[..n]);
        for b in queue[..end].iter().map(|&b| b as usize) {
            card.flags[b] = WAITING;
            card.keys[4 * b..4 * b + 4].fill(0);
            card.windows[2 * b..2 * b + 2].fill(0);
        }
        *value = end as u64;
        0
    }

    pub fn set_key(card: &mut Card, operation: Operation, b: u16, key: Key, new: Option<Key>) -> u32 {
        match audit(card) {
            0 => {}
            refusal => return refusal,
        }
        if !allocated(card, b) {
            return 3;
        }
        if (b as u64) < card.info[1] {
            return 6;
        }
        if !opens(card, 1, b, key) {
            return 5;
        }
        let b = b as usize;
        let (flag, at) = match operation {
            Operation::Reading => (READ_KEY, 4 * b),
            Operation::Writing => (WRITE_KEY, 4 * b + 2),
        };
        let words = match new {
            Some(key) => {
                card.flags[b] |= flag;
                [key.high, key.low]
            }
            None => {
                card.flags[b] &= !flag;
                [0, 0]
            }
        };
        card.keys[at..at + 2].copy_from_slice(&words);
        card.windows[2 * b..2 * b + 2].fill(0);
        0
    }

    pub fn tick(card: &mut Card, seconds: u64, value: &mut u64) -> u32 {
        match audit(card) {
            0 => {}
            refusal => return refusal,
        }
        if seconds >= TIME_END - card.info[4] {
            return 12;
        }
        let rented = card.flags[card.info[1] as usize..].iter().filter(|&&f| f & 1 != 0).count();
        card.info[4] += seconds;
        card.info[5] += seconds * rented as u64;
        *value = card.info[4];
        0
    }

    pub fn rent(card: &Card, price: u32, value: &mut u64) -> u32 {
        match audit(card) {
            0 => {}
            refusal => return refusal,
        }
        if price > HIGHEST_PRICE {
            return 16;
        }
        *value = (card.info[5] * price as u64 + PER_CENT / 2) / PER_CENT;
        0
    }

    pub fn sweep(card: &mut Card, most: u32, value: &mut u64) -> u32 {
        match audit(card) {
            0 => {}
            refusal => return refusal,
        }
        let bytes = card.info[2] as usize;
        let mut swept = 0;
        for (f, block) in card.flags.iter_mut().zip(card.contents.chunks_exact_mut(bytes)) {
            if swept == most {
                break;
            }
            if *f == WAITING {
                *f = 0;
                block.fill(0);
                swept += 1;
            }
        }
        *value = swept as u64;
        0
    }

    /// A mark, a place in the pointer table or a number for every block of the largest card.
    type Marks = [bool; 4_096];
    type Places = [u16; 4_097];
    type Numbers = [u16; 4_096];

    fn is_given(given: &[u64], key: &[u64]) -> bool {
        given.chunks_exact(2).any(|pair| pair[0] == key[0] && pair[1] == key[1])
    }

    /// Marks the blocks that are sealed, and those that are within reach whatever points to them.
    fn judge(card: &Card, given: &[u64], sealed: &mut Marks, within: &mut Marks) {
        let (roots, time) = (card.info[1] as usize, card.info[4]);
        let tables = card.flags.iter().zip(card.keys.chunks_exact(4)).zip(card.windows.chunks_exact(2));
        for (b, ((&f, k), w)) in tables.enumerate() {
            let read = f & READ_KEY != 0 && is_given(given, &k[..2]);
            let shown = read || (f & WRITE_KEY != 0 && is_given(given, &k[2..]));
            sealed[b] = f & READ_KEY != 0 && f & WRITE_KEY != 0 && !shown;
            within[b] = f & 1 != 0 && ((b < roots && !sealed[b]) || shown || time < w[0] || time < w[1]);
        }
    }

    /// Where the pointers of each block begin, if they are sorted by these ends.
    fn places_of(n: usize, ends: impl Iterator<Item = u32>) -> Places {
        let mut places = [0; 4_097];
        ends.for_each(|b| places[b as usize + 1] += 1);
        (0..n).for_each(|b| places[b + 1] += places[b]);
        places
    }

    /// Marks what is within reach, breadth first.
    fn walk(card: &Card, sealed: &Marks, within: &mut Marks) {
        let (n, pointers) = (card.flags.len(), &card.pointers[..card.info[3] as usize]);
        let places = places_of(n, pointers.iter().map(|&p| p >> 16));
        let mut queue: Numbers = [0; 4_096];
        let (mut at, mut end) = (0, 0);
        for b in (0..n).filter(|&b| within[b]) {
            queue[end] = b as u16;
            end += 1;
        }
        while at < end {
            let b = queue[at] as usize;
            at += 1;
            for &p in &pointers[places[b] as usize..places[b + 1] as usize] {
                let d = (p & 65_535) as usize;
                if !within[d] && !sealed[d] {
                    within[d] = true;
                    queue[end] = d as u16;
                    end += 1;
                }
            }
        }
    }

    /// Marks the blocks from which pointers lead to the chosen one by way of unsealed blocks.
    fn walk_back(card: &Card, sealed: &Marks, chosen: usize, leads: &mut Marks) {
        let (n, pointers) = (card.flags.len(), &card.pointers[..card.info[3] as usize]);
        let places = places_of(n, pointers.iter().map(|&p| p & 65_535));
        let (mut next, mut sources) = (places, [0u16; 16_384]);
        for &p in pointers {
            let place = &mut next[(p & 65_535) as usize];
            sources[*place as usize] = (p >> 16) as u16;
            *place += 1;
        }
        let mut queue: Numbers = [0; 4_096];
        (queue[0], leads[chosen]) = (chosen as u16, true);
        let (mut at, mut end) = (0, 1);
        while at < end {
            let b = queue[at] as usize;
            at += 1;
            if sealed[b] {
                continue;
            }
            for &s in &sources[places[b] as usize..places[b + 1] as usize] {
                if !leads[s as usize] {
                    leads[s as usize] = true;
                    queue[end] = s;
                    end += 1;
                }
            }
        }
    }

    fn put_list(list: impl Iterator<Item = usize> + Clone, places: &mut [u16], value: &mut u64) -> u32 {
        let count = list.clone().count();
        if places.len() < count {
            return 4;
        }
        list.zip(places).for_each(|(b, place)| *place = b as u16);
        *value = count as u64;
        0
    }

    pub fn reach(card: &Card, given: &[u64], places: &mut [u16], value: &mut u64) -> u32 {
        match audit(card) {
            0 => {}
            refusal => return refusal,
        }
        if given.len() % 2 != 0 || given.len() > 128 {
            return 4;
        }
        let (mut sealed, mut within): (Marks, Marks) = ([false; 4_096], [false; 4_096]);
        judge(card, given, &mut sealed, &mut within);
        walk(card, &sealed, &mut within);
        put_list((0..card.flags.len()).filter(|&b| within[b]), places, value)
    }

    pub fn unlocking(card: &Card, block: u16, given: &[u64], places: &mut [u16], value: &mut u64) -> u32 {
        match audit(card) {
            0 => {}
            refusal => return refusal,
        }
        if given.len() % 2 != 0 || given.len() > 128 {
            return 4;
        }
        let (n, chosen) = (card.flags.len(), block as usize);
        let (mut sealed, mut within, mut leads): (Marks, Marks, Marks) =
            ([false; 4_096], [false; 4_096], [false; 4_096]);
        judge(card, given, &mut sealed, &mut within);
        walk(card, &sealed, &mut within);
        if chosen < n && within[chosen] {
            return 4;
        }
        if chosen >= n || card.flags[chosen] & 1 == 0 {
            return 3;
        }
        walk_back(card, &sealed, chosen, &mut leads);
        let mut keys: Vec<u64> = Vec::new();
        for b in (0..n).filter(|&b| leads[b]) {
            let (f, k) = (card.flags[b], &card.keys[4 * b..4 * b + 4]);
            keys.extend(&k[..if f & READ_KEY != 0 { 2 } else { 0 }]);
            keys.extend(&k[if f & WRITE_KEY != 0 { 2 } else { 4 }..]);
        }
        let unlocks: Vec<bool> =
            (0..n).map(|b| sealed[b] && is_given(&keys, &card.keys[4 * b + 2..4 * b + 4])).collect();
        put_list((0..n).filter(|&b| unlocks[b]), places, value)
    }

    /// One addition for every word of the tables but contents.
    pub fn pass(card: &Card) -> u64 {
        let wide = card.keys.iter().chain(&card.windows).fold(0u64, |a, &w| a.wrapping_add(w));
        let pointers = card.pointers.iter().fold(0u32, |a, &p| a.wrapping_add(p));
        let narrow = card.counts.iter().fold(pointers, |a, &c| a.wrapping_add(c));
        let times = card.multiplicities.iter().fold(0u16, |a, &t| a.wrapping_add(t));
        let flags = card.flags.iter().fold(0u8, |a, &f| a.wrapping_add(f));
        wide.wrapping_add(narrow as u64).wrapping_add(times as u64).wrapping_add(flags as u64)
    }
}

// ---- Cards ----

#[derive(Clone, Copy)]
struct Size {
    name: &'static str,
    blocks: usize,
    places: usize,
    /// Calls in a batch of CREATE, then of DELETE, which undoes it.
    batch: usize,
}

const SIZES: [Size; 3] = [
    Size { name: "small", blocks: 16, places: 32, batch: 4 },
    Size { name: "middle", blocks: 512, places: 2_048, batch: 16 },
    Size { name: "full", blocks: 4_096, places: 16_384, batch: 16 },
];

/// Blocks to be allocated, so that the free ones lie scattered and ALLOC has to look for them.
fn scattered(size: Size) -> Vec<usize> {
    let n = size.blocks;
    let used = if n == 16 { 11 } else { n - n / 8 };
    let free_every = n / (n - used);
    (1..n).filter(|b| *b < 6 || b % free_every != free_every - 1).take(used - 1).collect()
}

/// Blocks to be allocated, so that the free ones lie in stretches of one less than `count`, but for one run of so many
/// at the end of the card.
fn one_run(size: Size, count: usize) -> Vec<usize> {
    let n = size.blocks;
    let part = (n / 8).max(2 * count).next_power_of_two();
    (1..n).filter(|b| b % part < part - count + (*b < n - part) as usize).collect()
}

/// A sound card with these blocks under the same two keys, block 1 pointing to none, and `spare` places left.
fn card(size: Size, taken: &[usize], spare: usize) -> Card {
    let n = size.blocks;
    let mut card = Card {
        info: vec![n as u64, 1, 512, 0, 1_000, 0],
        flags: vec![0; n],
        keys: vec![0; 4 * n],
        counts: vec![0; n],
        pointers: vec![0; size.places],
        multiplicities: vec![0; size.places],
        windows: vec![0; 2 * n],
        contents: vec![1; n * 512],
    };
    card.flags[0] = ALLOCATED;
    for &b in taken {
        card.flags[b] = ALLOCATED | READ_KEY | WRITE_KEY;
        card.keys[4 * b..4 * b + 4].copy_from_slice(&[READER.high, READER.low, WRITER.high, WRITER.low]);
        card.windows[2 * b..2 * b + 2].fill(1_000 + b as u64);
    }
    let mut pointers: BTreeSet<u32> = taken.iter().map(|&b| word(0, b)).collect();
    let mut state = 1u64;
    while pointers.len() < size.places - spare {
        state = state.wrapping_mul(6_364_136_223_846_793_005).wrapping_add(1_442_695_040_888_963_407);
        let s = taken[(state >> 33) as usize % taken.len()];
        let d = taken[(state >> 45) as usize % taken.len()];
        if s != 1 && s != d {
            pointers.insert(word(s, d));
        }
    }
    card.draw_pointers(often(pointers));
    assert_eq!(plain::audit(&card), 0);
    card
}

/// The pointers with multiplicities 1 to 3 in turn.
fn often(pointers: BTreeSet<u32>) -> Vec<(u32, u16)> {
    pointers.into_iter().zip((1..=3).cycle()).collect()
}

// ---- Measuring ----

struct Side {
    tables: Tables,
    buffers: LentBuffers,
    plain: Card,
    /// Where the plain version reads to.
    out: Vec<u8>,
}

fn side(card: Card) -> Side {
    side_with(card, 64)
}

fn side_with(card: Card, places: usize) -> Side {
    let lent = Buffers { out: vec![0; 512], places: vec![0; places], value: 0 };
    Side { tables: Tables::new(&card), buffers: LentBuffers::new(&lent), plain: card, out: vec![0; 512] }
}

/// How long each row is measured.
const SHARE: Duration = Duration::from_millis(150);

/// The best time of a batch of each work, taken in turns for a while; nanoseconds a call.
fn in_turns<const W: usize>(side: &mut Side, calls: usize, works: [&dyn Fn(&mut Side) -> Duration; W]) -> [f64; W] {
    let mut best = [Duration::MAX; W];
    let start = Instant::now();
    let mut rounds = 0;
    while rounds < 5 || (start.elapsed() < SHARE && rounds < 20_000) {
        for (best, work) in best.iter_mut().zip(works) {
            *best = work(side).min(*best);
        }
        rounds += 1;
    }
    best.map(|d| d.as_nanos() as f64 / calls as f64)
}

fn timed(mut work: impl FnMut()) -> Duration {
    let start = Instant::now();
    work();
    start.elapsed()
}

fn done(answer: u32) {
    assert_eq!(black_box(answer), 0, "a call of the benchmark was refused");
}

/// A batch of a call that leaves the card fit for the next one.
fn library_batch(side: &mut Side, calls: usize, call: &Direct) -> Duration {
    timed(|| (0..calls).for_each(|_| done(side.tables.call(call, &mut side.buffers))))
}

/// Such a call by the library, the plain version, and the library's audit followed by a copy of a block.
fn repeated(side: &mut Side, calls: usize, call: &Direct, plain: impl Fn(&mut Card, &mut [u8])) -> [f64; 3] {
    in_turns(
        side,
        calls,
        [
            &|s| library_batch(s, calls, call),
            &|s| timed(|| (0..calls).for_each(|_| plain(&mut s.plain, &mut s.out))),
            &|s| {
                timed(|| {
                    for _ in 0..calls {
                        done(s.tables.call(&Direct::Audit, &mut s.buffers));
                        copy_block(s);
                    }
                })
            },
        ],
    )
}

fn copy_block(side: &mut Side) {
    black_box(&mut side.out[..]).copy_from_slice(black_box(&side.plain.contents[512..1_024]));
}

/// The best time of a call by the model, on a fresh card each time, after the calls that prepare it.
fn model_time(card: &Card, before: &[&Direct], call: &Direct) -> f64 {
    let perform = |card: &mut Card, lent: &mut Buffers, call: &Direct| {
        let (port, call): (Port, Call) = call.plain().expect("a well-formed call");
        done(model::number(card.perform(port, &call, lent)))
    };
    let best = (0..3).map(|_| {
        let mut card = card.clone();
        let mut lent = Buffers { out: vec![0; 512], places: vec![0; 64], value: 0 };
        before.iter().for_each(|call| perform(&mut card, &mut lent, call));
        timed(|| perform(&mut card, &mut lent, call))
    });
    best.min().unwrap().as_nanos() as f64
}

// ---- Batches of call records ----

/// Records in a batch of the table.
const BATCH: usize = 1_000;

/// Records in the batches of which the growth is shown.
const BATCHES: [usize; 3] = [100, 1_000, 10_000];

/// At least so many times the records a second of call by call, for READ at full size.
const BATCH_TARGET: f64 = 100.0;

/// Call records that are done and leave the card as it was.
struct Load {
    records: Vec<(u8, Vec<u8>)>,
    lent: RefCell<LentBatch>,
}

/// The calls as records with ample room for their answers, once the batch is seen to answer as call by call.
fn load(side: &mut Side, calls: impl Iterator<Item = Direct>) -> Load {
    let records: Vec<_> = calls.map(|call| call.record().expect("a call with a record")).collect();
    let (mut input, mut expected) = (Vec::new(), Vec::new());
    for (kind, body) in &records {
        input.push(*kind);
        input.extend(body);
        expected.push(side.tables.serve(HOST, *kind, body, &mut side.buffers) as u8);
        match kind {
            1 => expected.extend(side.buffers.out.values()),
            5 => expected.extend(side.buffers.value.values()[0].to_be_bytes()),
            _ => {}
        }
    }
    let room = expected.len() + 1_024;
    expected.resize(room, 0);
    let mut lent = LentBatch::new(&input, &vec![0; room], Progress::default());
    done(side.tables.batch(HOST, &mut lent));
    let (served, read, written) = (records.len() as u64, input.len() as u64, room as u64 - 1_024);
    let progress = Progress { records: served, read, written };
    assert_eq!(lent.difference(&input, &expected, progress), None, "the batch answers otherwise");
    assert_eq!(side.tables.difference(&side.plain), None, "the records have changed the card");
    Load { records, lent: RefCell::new(lent) }
}

/// READs by key, of one block after the other.
fn reads(card: &Card, count: usize) -> impl Iterator<Item = Direct> {
    let keyed: Vec<u16> = (2..card.blocks()).filter(|&b| card.flags[b] & READ_KEY != 0).map(|b| b as u16).collect();
    let credential = credential_bytes(Credential::Key(READER));
    (0..count).map(move |i| Direct::Read {
        port: 0,
        block: keyed[i % keyed.len()],
        credential: credential.clone(),
        interval: 0,
    })
}

/// Of every eight records four READ, two WRITE what stands there, one CREATE and one DELETE that undoes it.
fn mixed(card: &Card, count: usize) -> impl Iterator<Item = Direct> {
    let key = credential_bytes(Credential::Key(WRITER));
    let data = card.contents[..512].to_vec();
    let mut blocks = reads(card, count);
    let mut pointed = 0;
    (0..count).map(move |i| {
        let Some(Direct::Read { block, .. }) = blocks.next() else { unreachable!() };
        match i % 8 {
            1 | 5 => Direct::Write { port: 0, block, credential: key.clone(), interval: 0, data: data.clone() },
            3 => {
                pointed = block;
                let (source, destination) = (1, block);
                Direct::Create {
                    port: 0,
                    source,
                    source_credential: key.clone(),
                    destination,
                    destination_credential: key.clone(),
                }
            }
            7 => Direct::Delete { port: 0, source: 1, credential: key.clone(), destination: pointed },
            _ => Direct::Read { port: 0, block, credential: key.clone(), interval: 0 },
        }
    })
}

fn batch_time(side: &mut Side, load: &Load) -> Duration {
    let lent = &mut *load.lent.borrow_mut();
    timed(|| done(side.tables.batch(HOST, lent)))
}

/// The records timed together call by call, so that a slow moment spoils few of them, as it spoils one batch.
const SLICE: usize = 10;

/// The best time of the batch, and the sum of the best times of the slices, in turns; nanoseconds a record.
fn batch_and_single(side: &mut Side, load: &Load) -> [f64; 2] {
    let mut batch = Duration::MAX;
    let mut slices = vec![Duration::MAX; load.records.chunks(SLICE).len()];
    let start = Instant::now();
    let mut rounds = 0;
    while rounds < 10 || (start.elapsed() < SHARE && rounds < 20_000) {
        batch = batch_time(side, load).min(batch);
        for (best, slice) in slices.iter_mut().zip(load.records.chunks(SLICE)) {
            let time = timed(|| {
                slice.iter().for_each(|(kind, body)| done(side.tables.serve(HOST, *kind, body, &mut side.buffers)))
            });
            *best = time.min(*best);
        }
        rounds += 1;
    }
    [batch, slices.iter().sum()].map(|d| d.as_nanos() as f64 / load.records.len() as f64)
}

fn batch_table() {
    println!("Records a second, {BATCH} records with one audit by negvask_batch and call by call by negvask_serve.");
    println!();
    println!("| records | size | N | P | batch | call by call | batch / call by call | target |");
    println!("| --- | --- | ---: | ---: | ---: | ---: | ---: | ---: |");
    for name in ["READ", "mixed"] {
        for size in SIZES {
            let s = &mut side(card(size, &scattered(size), 1));
            let card = s.plain.clone();
            let load = if name == "READ" { load(s, reads(&card, BATCH)) } else { load(s, mixed(&card, BATCH)) };
            let [batch, single] = batch_and_single(s, &load);
            assert_eq!(s.tables.difference(&card), None, "the records have changed the card");
            let ratio = single / batch;
            let target = match (name, size.name) {
                ("READ", "full") => format!("{BATCH_TARGET:.0}{}", if ratio < BATCH_TARGET { " (below)" } else { "" }),
                _ => String::new(),
            };
            println!(
                "| {name} | {} | {} | {} | {:.0} | {:.0} | {ratio:.1} | {target} |",
                size.name,
                size.blocks,
                size.places,
                1e9 / batch,
                1e9 / single
            );
        }
    }
}

fn batch_growth_table() {
    let s = &mut side(card(SIZES[2], &scattered(SIZES[2]), 0));
    let card = s.plain.clone();
    let loads = BATCHES.map(|count| load(s, reads(&card, count)));
    let works = [0, 1, 2].map(|i| {
        let load = &loads[i];
        move |s: &mut Side| batch_time(s, load)
    });
    let times = in_turns(s, 1, [&works[0], &works[1], &works[2]]);
    println!("| READs in a batch, full | microseconds | nanoseconds a record | records grow | time grows |");
    println!("| ---: | ---: | ---: | ---: | ---: |");
    for (i, (&count, &time)) in BATCHES.iter().zip(&times).enumerate() {
        let grown = match i {
            0 => " | ".to_string(),
            _ => format!("{:.1} | {:.1}", count as f64 / BATCHES[i - 1] as f64, time / times[i - 1]),
        };
        println!("| {count} | {:.0} | {:.0} | {grown} |", time / 1e3, time / count as f64);
    }
}

// ---- The reach report ----

/// As many keys as may be given; no block has one of them.
fn strange_keys() -> Vec<u64> {
    key_words(&std::array::from_fn::<_, 64, _>(|i| Key { high: u64::MAX, low: i as u64 }))
}

/// A list that is measured.
struct List {
    name: &'static str,
    size: Size,
    card: Card,
    chosen: Option<u16>,
}

/// To the pointers others by chance, between blocks for which `also` holds, until there are so many.
fn filled_up(
    mut pointers: BTreeSet<u32>,
    n: usize,
    count: usize,
    also: impl Fn(usize, usize) -> bool,
) -> BTreeSet<u32> {
    let mut state = 1u64;
    while pointers.len() < count {
        state = state.wrapping_mul(6_364_136_223_846_793_005).wrapping_add(1_442_695_040_888_963_407);
        let (s, d) = ((state >> 33) as usize % n, (state >> 45) as usize % n);
        if d != 0 && s != d && also(s, d) {
            pointers.insert(word(s, d));
        }
    }
    pointers
}

/// A sound card with one root and all blocks allocated, each with the keys of its own that its flags say.
fn list_card(size: Size, pointers: BTreeSet<u32>, flags: impl Fn(usize) -> u8) -> Card {
    let n = size.blocks;
    let mut card = Card {
        info: vec![n as u64, 1, 512, 0, 1_000, 0],
        flags: (0..n).map(|b| ALLOCATED | flags(b)).collect(),
        keys: vec![0; 4 * n],
        counts: vec![0; n],
        pointers: vec![0; size.places],
        multiplicities: vec![0; size.places],
        windows: vec![0; 2 * n],
        contents: vec![1; n * 512],
    };
    for b in 0..n {
        for (flag, at) in [(READ_KEY, 4 * b), (WRITE_KEY, 4 * b + 2)] {
            if card.flags[b] & flag != 0 {
                card.keys[at..at + 2].copy_from_slice(&[b as u64, flag as u64]);
            }
        }
    }
    card.draw_pointers(often(pointers));
    assert_eq!(plain::audit(&card), 0);
    card
}

/// Blocks in a row, without keys: all are within reach, one after the other.
fn row_list(size: Size) -> List {
    let row = (1..size.blocks).map(|b| word(b - 1, b)).collect();
    List { name: "reach, a row", size, card: list_card(size, row, |_| 0), chosen: None }
}

/// Pointers by chance, each block with a read key of its own, which does not seal: all are within reach, and every key is
/// compared with all that are given.
fn chance_list(size: Size) -> List {
    let tree = (1..size.blocks).map(|b| word(b * 2_654_435_761 % 4_099 % b, b)).collect();
    let pointers = filled_up(tree, size.blocks, size.places, |_, _| true);
    let card = list_card(size, pointers, |b| if b == 0 { 0 } else { READ_KEY });
    List { name: "reach, by chance", size, card, chosen: None }
}

/// So many sealed blocks below the root, and below these a row of all the others, its last block the chosen one. Each
/// sealed block leads to it.
fn sealed_list(name: &'static str, size: Size, sealed: usize) -> List {
    let n = size.blocks;
    let mut pointers: BTreeSet<u32> = (1..=sealed).map(|b| word(0, b)).collect();
    pointers.extend((1..=sealed).map(|b| word(b, sealed + 1 + b % (n - sealed - 1))));
    pointers.extend((sealed + 2..n).map(|b| word(b - 1, b)));
    pointers.insert(word(1, sealed + 1));
    let pointers = filled_up(pointers, n, size.places, |s, d| s != 0 && d > sealed);
    let card = list_card(size, pointers, |b| if (1..=sealed).contains(&b) { READ_KEY | WRITE_KEY } else { 0 });
    List { name, size, card, chosen: Some(n as u16 - 1) }
}

/// Half of the blocks sealed below the root, the others a ring without a way from there, each with a read key of its own:
/// every write key is compared with every key of the ring, and none fits.
fn ring_list(size: Size) -> List {
    let (n, half) = (size.blocks, size.blocks / 2);
    let mut pointers: BTreeSet<u32> = (1..half).map(|b| word(0, b)).collect();
    pointers.extend((half + 1..n).map(|b| word(b - 1, b)));
    pointers.insert(word(n - 1, half));
    let pointers = filled_up(pointers, n, size.places, |s, d| s >= half && d >= half);
    let card = list_card(size, pointers, |b| match b {
        0 => 0,
        _ if b < half => READ_KEY | WRITE_KEY,
        _ => READ_KEY,
    });
    List { name: NO_TARGET, size, card, chosen: Some(n as u16 - 1) }
}

fn lists(size: Size) -> Vec<List> {
    let many = size.blocks - 96;
    vec![
        row_list(size),
        chance_list(size),
        sealed_list("unlocking, 64 sealed", size, 64),
        sealed_list("unlocking, all but 96 sealed", size, many),
        ring_list(size),
    ]
}

/// The times of a list by the library and by the plain version, and how many blocks are listed.
fn list_times(list: &List) -> ([f64; 2], u64) {
    let words = strange_keys();
    let given = RefCell::new(Lent::new(&words, 0));
    let (places, value) = (RefCell::new(vec![0u16; list.size.blocks]), RefCell::new(0));
    let mut s = side_with(list.card.clone(), list.size.blocks);
    let times = in_turns(
        &mut s,
        1,
        [&|s| timed(|| done(s.tables.report(list.chosen, &mut given.borrow_mut(), &mut s.buffers))), &|s| {
            let (places, value) = (&mut places.borrow_mut()[..], &mut *value.borrow_mut());
            timed(|| {
                done(match list.chosen {
                    None => plain::reach(&s.plain, black_box(&words), places, value),
                    Some(block) => plain::unlocking(&s.plain, block, black_box(&words), places, value),
                })
            })
        }],
    );
    assert_eq!(s.tables.difference(&list.card), None, "the list has changed the card");
    let plain = Buffers { out: vec![0; 512], places: places.into_inner(), value: value.into_inner() };
    assert_eq!(s.buffers.difference(&plain), None, "library and plain version differ");
    (times, plain.value)
}

/// At most so many times the plain version. The worst case for the comparison of keys has no target: the plain version keeps the keys
/// in a row of their own, for which the library has no stack.
const LIST_TARGET: f64 = 1.5;
const NO_TARGET: &str = "unlocking, none fits";

/// What stands in the column of the target.
fn list_target(name: &str, ratio: f64) -> String {
    match (name == NO_TARGET, ratio > LIST_TARGET) {
        (true, _) => String::new(),
        (_, true) => format!("{LIST_TARGET} (above)"),
        (_, false) => format!("{LIST_TARGET}"),
    }
}

fn list_tables() {
    println!("Nanoseconds a list of the reach report, with 64 keys given.");
    println!();
    println!("| list | size | N | M | sealed | listed | library | plain | library / plain | target |");
    println!("| --- | --- | ---: | ---: | ---: | ---: | ---: | ---: | ---: | ---: |");
    let mut rows = Vec::new();
    for list in SIZES[1..].iter().flat_map(|&size| lists(size)) {
        let ([library, plain], listed) = list_times(&list);
        let sealed = list.card.flags.iter().filter(|&&f| f == 7).count();
        let ratio = library / plain;
        println!(
            "| {} | {} | {} | {} | {sealed} | {listed} | {library:.0} | {plain:.0} | {ratio:.2} | {} |",
            list.name,
            list.size.name,
            list.card.blocks(),
            list.card.used(),
            list_target(list.name, ratio)
        );
        rows.push((list.name, list.card.blocks() + list.card.pointers.len(), library, plain));
    }
    println!();
    println!("| growth of | from | to | N + P grows | library grows | plain grows |");
    println!("| --- | --- | --- | ---: | ---: | ---: |");
    let (middle, full) = rows.split_at(rows.len() / 2);
    for ((name, words, library, plain), (_, more, slower, plain_slower)) in middle.iter().zip(full) {
        let (grown, library, plain) = (*more as f64 / *words as f64, slower / library, plain_slower / plain);
        println!("| {name} | middle | full | {grown:.1} | {library:.1} | {plain:.1} |");
    }
}

/// The list that takes most stack, at full size.
fn deepest_list() -> (&'static str, usize) {
    let list = sealed_list("negvask_unlocking", SIZES[2], 64);
    let mut given = Lent::new(&strange_keys(), 0);
    let mut s = side_with(list.card, list.size.blocks);
    let depths = [("negvask_reach", None), (list.name, list.chosen)]
        .map(|(name, chosen)| (name, stack_of(&mut || done(s.tables.report(chosen, &mut given, &mut s.buffers)))));
    depths.into_iter().max_by_key(|(_, depth)| *depth).unwrap()
}

// ---- Trees ----

/// The blocks of the tree, and its first one, to which block 1 points alone.
const TREE: usize = 4_000;
const TOP: u16 = 2;

/// DELETE_TREE of all of it.
const WHOLE_TREE: &str = "TREE 4000";

/// The write key of block 1.
const ABOVE: Key = Key { high: 1, low: WRITE_KEY as u64 };

/// A tree of blocks with read keys, each with up to four below it, and pointers from them to later ones and to the blocks
/// beside the tree, until no place is left.
fn tree_card(size: Size) -> Card {
    let (n, top) = (size.blocks, TOP as usize);
    let end = top + TREE;
    let mut pointers: BTreeSet<u32> = (end..n).chain([1]).map(|b| word(0, b)).collect();
    pointers.insert(word(1, top));
    pointers.extend((1..TREE).map(|i| word(top + (i - 1) / 4, top + i)));
    let pointers = filled_up(pointers, n, size.places, |s, d| (top..end).contains(&s) && s < d);
    list_card(size, pointers, |b| match b {
        0 => 0,
        1 => WRITE_KEY,
        _ if b < end => READ_KEY,
        _ => READ_KEY | WRITE_KEY,
    })
}

/// Puts the card's record and tables back, but for contents, which no such call changes.
fn restore(tables: &mut Tables, card: &Card) {
    tables.info.load(&card.info);
    tables.flags.load(&card.flags);
    tables.keys.load(&card.keys);
    tables.counts.load(&card.counts);
    tables.pointers.load(&card.pointers);
    tables.multiplicities.load(&card.multiplicities);
    tables.windows.load(&card.windows);
}

/// The same for the plain version.
fn restore_plain(plain: &mut Card, card: &Card) {
    plain.info.copy_from_slice(&card.info);
    plain.flags.copy_from_slice(&card.flags);
    plain.keys.copy_from_slice(&card.keys);
    plain.counts.copy_from_slice(&card.counts);
    plain.pointers.copy_from_slice(&card.pointers);
    plain.multiplicities.copy_from_slice(&card.multiplicities);
    plain.windows.copy_from_slice(&card.windows);
}

/// DELETE_TREE of the whole tree by the host that has the key of block 1.
fn tree_call() -> Direct {
    Direct::DeleteTree { port: 0, source: 1, credential: credential_bytes(Credential::Key(ABOVE)), destination: TOP }
}

fn tree_row(size: Size, pass: f64) -> Row {
    let (start, call) = (tree_card(size), tree_call());
    let mut s = side(start.clone());
    let freed = RefCell::new(0);
    let [library, plain] = in_turns(
        &mut s,
        1,
        [
            &|s| {
                restore(&mut s.tables, &start);
                timed(|| done(s.tables.call(&call, &mut s.buffers)))
            },
            &|s| {
                restore_plain(&mut s.plain, &start);
                let value = &mut *freed.borrow_mut();
                timed(|| done(plain::delete_tree(&mut s.plain, 1, TOP, ABOVE, black_box(value))))
            },
        ],
    );
    assert_eq!(s.tables.difference(&s.plain), None, "library and plain version differ");
    assert_eq!((s.buffers.value.values()[0], freed.into_inner()), (TREE as u64, TREE as u64), "not the whole tree");
    let model = model_time(&start, &[], &call);
    Row { call: WHOLE_TREE, size, library, plain, model, floor: pass, against: plain, target: Some(1.5) }
}

/// The same tree cleared by one DELETE for each time that a pointer is there, at the service port, from the leaves up: how
/// many calls, and how long they take.
fn single_deletes(size: Size) -> (usize, f64) {
    let start = tree_card(size);
    let mut pointers: Vec<(u32, u16)> = start.in_use().filter(|(p, _)| p >> 16 >= 1).collect();
    pointers.sort_by_key(|(p, _)| std::cmp::Reverse(p >> 16));
    let credential = credential_bytes(Credential::Nothing);
    let calls: Vec<Direct> = pointers
        .iter()
        .flat_map(|&(p, times)| (0..times).map(move |_| ((p >> 16) as u16, (p & 65_535) as u16)))
        .map(|(source, destination)| Direct::Delete { port: 1, source, credential: credential.clone(), destination })
        .collect();
    let mut s = side(start.clone());
    let times = (0..2).map(|_| {
        restore(&mut s.tables, &start);
        library_all(&mut s, &calls)
    });
    let best = times.min().unwrap().as_nanos() as f64;
    done(plain::delete_tree(&mut s.plain, 1, TOP, ABOVE, &mut 0));
    assert_eq!(s.tables.difference(&s.plain), None, "the single calls have left another card");
    (calls.len(), best)
}

fn tree_table(row: &Row) {
    let (calls, time) = single_deletes(row.size);
    println!("A tree of {TREE} blocks cleared by one DELETE_TREE, and by DELETE after DELETE from the leaves up.");
    println!();
    println!(
        "| size | N | P | DELETE_TREE, microseconds | DELETEs | their time, microseconds | DELETEs / DELETE_TREE |"
    );
    println!("| --- | ---: | ---: | ---: | ---: | ---: | ---: |");
    println!(
        "| {} | {} | {} | {:.0} | {calls} | {:.0} | {:.0} |",
        row.size.name,
        row.size.blocks,
        row.size.places,
        row.library / 1e3,
        time / 1e3,
        time / row.library
    );
}

// ---- SWEEP ----

/// How many blocks wait and are swept at each size, and the name of the row.
fn sweep_of(size: Size) -> (usize, &'static str) {
    match size.blocks {
        4_096 => (4_000, "SWEEP 4000"),
        512 => (400, "SWEEP 400"),
        _ => (8, "SWEEP 8"),
    }
}

/// A card on which so many blocks wait, between allocated ones that point to each other as often as there is room for.
fn waiting_card(size: Size, waiting: usize) -> Card {
    let n = size.blocks;
    let taken: Vec<usize> = (1..n).step_by((n - 1) / (n - 1 - waiting)).take(n - 1 - waiting).collect();
    let most = taken.len() * taken.len() * 9 / 10;
    let mut start = card(size, &taken, size.places - size.places.min(most));
    start.flags.iter_mut().filter(|f| **f == 0).for_each(|f| *f = WAITING);
    assert_eq!((plain::audit(&start), start.waiting_blocks().len()), (0, waiting));
    start
}

/// SWEEP of all that wait. Flags and contents are put back before each round. The floor has the fill of these blocks alone.
fn sweep_row(size: Size, pass: f64) -> Row {
    let (waiting, name) = sweep_of(size);
    let (start, call) = (waiting_card(size, waiting), Direct::Sweep { most: waiting as u32 });
    let mut s = side(start.clone());
    let blocks = start.waiting_blocks();
    let swept = RefCell::new(0);
    let [fill, library, plain] = in_turns(
        &mut s,
        1,
        [
            &|s| {
                s.plain.contents.copy_from_slice(&start.contents);
                timed(|| blocks.iter().for_each(|b| black_box(&mut s.plain.contents[512 * b..512 * (b + 1)]).fill(0)))
            },
            &|s| {
                s.tables.flags.load(&start.flags);
                s.tables.contents.load(&start.contents);
                timed(|| done(s.tables.call(&call, &mut s.buffers)))
            },
            &|s| {
                s.plain.flags.copy_from_slice(&start.flags);
                s.plain.contents.copy_from_slice(&start.contents);
                let value = &mut *swept.borrow_mut();
                timed(|| done(plain::sweep(&mut s.plain, black_box(waiting as u32), black_box(value))))
            },
        ],
    );
    assert_eq!(s.tables.difference(&s.plain), None, "library and plain version differ");
    let results = (s.buffers.value.values()[0], swept.into_inner());
    assert_eq!(results, (waiting as u64, waiting as u64), "not all that wait");
    let model = model_time(&start, &[], &call);
    Row { call: name, size, library, plain, model, floor: pass + fill, against: plain, target: Some(1.5) }
}

// ---- The stack ----

const STACK: usize = 256 * 1024;
const UNUSED: u8 = 0xA5;

/// Leaves the pattern in the stack below its caller.
#[inline(never)]
fn paint() -> *const u8 {
    let mut area = [0u8; STACK];
    black_box(&mut area).fill(UNUSED);
    black_box(&area).as_ptr()
}

/// The bytes of stack that some work takes: what of the pattern it has written over.
#[inline(never)]
fn stack_of(work: &mut dyn FnMut()) -> usize {
    let low = paint();
    work();
    // The painted bytes lie in the stack of this thread.
    let untouched = (0..STACK).take_while(|&i| unsafe { std::ptr::read_volatile(low.add(i)) } == UNUSED).count();
    // Words are put there, of which a byte may equal the pattern by chance.
    (STACK - untouched).next_multiple_of(8)
}

/// The call of a host that takes most stack, at full size.
fn deepest() -> (&'static str, usize) {
    let key = credential_bytes(Credential::Key(WRITER));
    let size = SIZES[2];
    // Block 2,048 has 63 free ones below it, and the run of 64 is farther than these.
    let start = card(size, &one_run(size, 64), 128);
    let mut s = side(start.clone());
    let new = new_key_bytes(Some(WRITER));
    let calls = [
        ("AUDIT", Direct::Audit),
        ("READ", Direct::Read { port: 0, block: 2, credential: key.clone(), interval: 10 }),
        ("WRITE", Direct::Write { port: 0, block: 2, credential: key.clone(), interval: 10, data: vec![3; 512] }),
        ("ALLOC 63", Direct::Alloc { port: 0, reference: 1, credential: key.clone(), hint: 2_048, count: 63 }),
        ("CONTIG 64", Direct::AllocContig { port: 0, reference: 1, credential: key.clone(), hint: 2_048, count: 64 }),
        ("CREATE", create_call(2)),
        (CREATE_AGAIN, create_call(2)),
        (DELETE_ONE, delete_call(2)),
        ("DELETE", delete_call(2)),
        // One of those that ALLOC has taken.
        ("DELETE_TREE", Direct::DeleteTree { port: 0, source: 1, credential: key.clone(), destination: 2_047 }),
        ("KEY_READ", Direct::KeyRead { port: 0, block: 2, credential: key.clone(), key: new.clone() }),
        ("KEY_WRITE", Direct::KeyWrite { port: 0, block: 2, credential: key.clone(), key: new }),
        ("RENEW", Direct::Renew { mode: 1, block: 2, key: credential_bytes(Credential::Key(WRITER)), interval: 10 }),
        ("FORCE", Direct::Force { block: 2 }),
        ("FREE", Direct::Free),
        ("TICK", Direct::Tick { seconds: 1 }),
        ("RENT", Direct::Rent { price: HIGHEST_PRICE }),
        // Of what DELETE_TREE has freed.
        ("SWEEP", Direct::Sweep { most: 64 }),
    ];
    let depths = calls.iter().map(|(name, call)| {
        let depth = stack_of(&mut || done(s.tables.call(call, &mut s.buffers)));
        (*name, depth)
    });
    let deepest = depths.max_by_key(|(_, depth)| *depth).unwrap();

    // All of them that a record carries in one batch.
    let mut s = side(start);
    let input: Vec<u8> =
        calls.iter().filter_map(|(_, call)| call.record()).flat_map(|(k, b)| [vec![k], b].concat()).collect();
    let mut lent = LentBatch::new(&input, &[0; 2_048], Progress::default());
    let batch = stack_of(&mut || done(s.tables.batch(HOST, &mut lent)));
    if batch > deepest.1 {
        ("negvask_batch", batch)
    } else {
        deepest
    }
}

// ---- The table ----

struct Row {
    call: &'static str,
    size: Size,
    library: f64,
    plain: f64,
    model: f64,
    floor: f64,
    /// What the target is measured against, and the target.
    against: f64,
    target: Option<f64>,
}

/// ALLOC or ALLOC_CONTIG by the plain version.
type PlainAlloc = fn(&mut Card, u16, Key, u16, u8, &mut [u16]) -> u32;

/// CREATE and DELETE of a pointer that is there already, and stays.
const CREATE_AGAIN: &str = "CREATE again";
const DELETE_ONE: &str = "DELETE one of 2";

/// A pointer from block 1, which is near the front, so that most of the table moves where it comes or goes.
fn create_call(destination: u16) -> Direct {
    let key = credential_bytes(Credential::Key(WRITER));
    Direct::Create { port: 0, source: 1, source_credential: key.clone(), destination, destination_credential: key }
}

fn delete_call(destination: u16) -> Direct {
    Direct::Delete { port: 0, source: 1, credential: credential_bytes(Credential::Key(WRITER)), destination }
}

fn library_all(side: &mut Side, calls: &[Direct]) -> Duration {
    timed(|| calls.iter().for_each(|call| done(side.tables.call(call, &mut side.buffers))))
}

fn plain_create_all(side: &mut Side, destinations: &[u16]) -> Duration {
    timed(|| destinations.iter().for_each(|&d| done(plain::create(&mut side.plain, 1, d, WRITER))))
}

fn plain_delete_all(side: &mut Side, destinations: &[u16]) -> Duration {
    let mut value = 0;
    timed(|| destinations.iter().for_each(|&d| done(plain::delete(&mut side.plain, 1, d, WRITER, &mut value))))
}

/// CREATE from block 1 to a batch of blocks, CREATE of the same once more, and DELETE that undoes both.
fn pointer_rows(size: Size, pass: f64) -> Vec<Row> {
    let spare = card(size, &scattered(size), size.batch);
    let mut s = side(spare.clone());
    let destinations: Vec<u16> =
        (2..size.blocks).filter(|&b| spare.flags[b] != 0).take(size.batch).map(|b| b as u16).collect();
    let (d, creates): (&[u16], Vec<Direct>) = (&destinations, destinations.iter().map(|&d| create_call(d)).collect());
    let deletes: Vec<Direct> = destinations.iter().map(|&d| delete_call(d)).collect();
    let [create, plain_create, again, plain_again, one, plain_one, delete, plain_delete] = in_turns(
        &mut s,
        size.batch,
        [
            &|s| library_all(s, &creates),
            &|s| plain_create_all(s, d),
            &|s| library_all(s, &creates),
            &|s| plain_create_all(s, d),
            &|s| library_all(s, &deletes),
            &|s| plain_delete_all(s, d),
            &|s| library_all(s, &deletes),
            &|s| plain_delete_all(s, d),
        ],
    );
    assert_eq!(s.tables.difference(&spare), None, "the calls have changed the card");
    assert_eq!(s.tables.difference(&s.plain), None, "library and plain version differ");
    let (make, take) = (&creates[0], &deletes[0]);
    let row = |call, library, plain, before: &[&Direct], timed| {
        let model = model_time(&spare, before, timed);
        Row { call, size, library, plain, model, floor: pass, against: plain, target: Some(1.5) }
    };
    vec![
        row("CREATE", create, plain_create, &[], make),
        row(CREATE_AGAIN, again, plain_again, &[make], make),
        row("DELETE", delete, plain_delete, &[make], take),
        row(DELETE_ONE, one, plain_one, &[make, make], take),
    ]
}

fn rows(size: Size) -> Vec<Row> {
    let key = |k: Key| credential_bytes(Credential::Key(k));
    let calls = if size.blocks == 16 { 64 } else { 4 };
    let full = card(size, &scattered(size), 0);
    let mut side_full = side(full.clone());
    let s = &mut side_full;
    let data = vec![3u8; 512];

    let [pass] = in_turns(
        s,
        calls,
        [&|s| {
            timed(|| {
                (0..calls).for_each(|_| {
                    black_box(plain::pass(black_box(&s.plain)));
                })
            })
        }],
    );
    let [copy] = in_turns(s, 100, [&|s| timed(|| (0..100).for_each(|_| copy_block(s)))]);

    let audit = repeated(s, calls, &Direct::Audit, |c, _| done(plain::audit(black_box(c))));
    let read_call = Direct::Read { port: 0, block: 2, credential: key(READER), interval: 10 };
    let read = repeated(s, calls, &read_call, |c, out| done(plain::read(c, 2, READER, 10, black_box(out))));
    let write_call = Direct::Write { port: 0, block: 2, credential: key(WRITER), interval: 10, data: data.clone() };
    let write = repeated(s, calls, &write_call, |c, _| done(plain::write(c, 2, WRITER, 10, black_box(&data))));
    let renew_call = Direct::Renew { mode: 1, block: 2, key: key(WRITER), interval: 20 };
    let renew = repeated(s, calls, &renew_call, |c, _| done(plain::renew(c, 1, 2, WRITER, black_box(20))));
    let new = |k| new_key_bytes(Some(k));
    let plain_key = |c: &mut Card, operation, k| done(plain::set_key(c, operation, 2, WRITER, black_box(Some(k))));
    let read_key_call = Direct::KeyRead { port: 0, block: 2, credential: key(WRITER), key: new(READER) };
    let read_key = repeated(s, calls, &read_key_call, |c, _| plain_key(c, Operation::Reading, READER));
    let write_key_call = Direct::KeyWrite { port: 0, block: 2, credential: key(WRITER), key: new(WRITER) };
    let write_key = repeated(s, calls, &write_key_call, |c, _| plain_key(c, Operation::Writing, WRITER));
    let tick_call = Direct::Tick { seconds: 1 };
    let tick = repeated(s, calls, &tick_call, |c, _| done(plain::tick(c, black_box(1), black_box(&mut 0))));
    let rent_call = Direct::Rent { price: HIGHEST_PRICE };
    let rent = repeated(s, calls, &rent_call, |c, _| {
        done(plain::rent(black_box(c), black_box(HIGHEST_PRICE), black_box(&mut 0)))
    });
    let full_model = |call: &Direct| model_time(&full, &[], call);
    assert_eq!(s.tables.difference(&s.plain), None, "library and plain version differ");

    // ALLOC and ALLOC_CONTIG from block 1 by a hint in the middle; the blocks are freed and swept outside the time.
    let hint = size.blocks as u16 / 2;
    let allot = |taken: &[usize], count: u8, request: &Direct, plain: PlainAlloc| {
        let spare = card(size, taken, 64.min(size.places / 4));
        let mut side = side(spare.clone());
        let figures = in_turns(
            &mut side,
            1,
            [
                &|s| {
                    let time = timed(|| done(s.tables.call(request, &mut s.buffers)));
                    for i in 0..count as usize {
                        let destination = s.buffers.places.values()[i];
                        let undo = Direct::Delete {
                            port: 1,
                            source: 1,
                            credential: credential_bytes(Credential::Nothing),
                            destination,
                        };
                        done(s.tables.call(&undo, &mut s.buffers));
                    }
                    done(s.tables.call(&Direct::Sweep { most: count as u32 }, &mut s.buffers));
                    time
                },
                &|s| {
                    let mut places = [0u16; 64];
                    let time = timed(|| done(plain(&mut s.plain, 1, WRITER, hint, count, black_box(&mut places))));
                    let mut value = 0;
                    places[..count as usize]
                        .iter()
                        .for_each(|&d| done(plain::delete(&mut s.plain, 1, d, WRITER, &mut value)));
                    done(plain::sweep(&mut s.plain, count as u32, &mut value));
                    time
                },
            ],
        );
        assert_eq!(side.tables.difference(&side.plain), None, "library and plain version differ");
        (figures, model_time(&spare, &[], request))
    };
    let alloc = |count: u8| {
        let request = Direct::Alloc { port: 0, reference: 1, credential: key(WRITER), hint, count };
        allot(&scattered(size), count, &request, plain::alloc)
    };
    let contig = |count: u8| {
        let request = Direct::AllocContig { port: 0, reference: 1, credential: key(WRITER), hint, count };
        allot(&one_run(size, count as usize), count, &request, plain::alloc_contig)
    };

    let row = |call, library, plain, model, floor, against, target| Row {
        call,
        size,
        library,
        plain,
        model,
        floor,
        against,
        target,
    };
    let transfer = Some(if size.blocks == SIZES[0].blocks { 1.25 } else { 1.1 });
    let auditing = Some(if size.blocks == SIZES[2].blocks { 1.1 } else { 1.5 });
    let mut rows = vec![
        row("AUDIT", audit[0], audit[1], full_model(&Direct::Audit), pass, audit[1], auditing),
        row("READ", read[0], read[1], full_model(&read_call), pass + copy, read[2], transfer),
        row("WRITE", write[0], write[1], full_model(&write_call), pass + copy, write[2], transfer),
    ];
    let ([one, plain_one], model_one) = alloc(1);
    rows.push(row("ALLOC 1", one, plain_one, model_one, pass + copy, plain_one, None));
    if size.blocks > 80 {
        let ([many, plain_many], model_many) = alloc(64);
        rows.push(row("ALLOC 64", many, plain_many, model_many, pass + 64.0 * copy, plain_many, Some(1.5)));
        let ([run, plain_run], model_run) = contig(64);
        rows.push(row("CONTIG 64", run, plain_run, model_run, pass + 64.0 * copy, plain_run, Some(1.5)));
    } else {
        let ([run, plain_run], model_run) = contig(3);
        rows.push(row("CONTIG 3", run, plain_run, model_run, pass + 3.0 * copy, plain_run, None));
    }
    rows.extend(pointer_rows(size, pass));
    if size.blocks > TREE {
        rows.push(tree_row(size, pass));
    }
    let (read_model, write_model) = (full_model(&read_key_call), full_model(&write_key_call));
    rows.push(row("KEY_READ", read_key[0], read_key[1], read_model, pass, read_key[1], Some(1.5)));
    rows.push(row("KEY_WRITE", write_key[0], write_key[1], write_model, pass, write_key[1], Some(1.5)));
    rows.push(row("RENEW", renew[0], renew[1], full_model(&renew_call), pass, renew[1], Some(1.5)));
    rows.push(row("TICK", tick[0], tick[1], full_model(&tick_call), pass, tick[1], Some(1.5)));
    rows.push(row("RENT", rent[0], rent[1], full_model(&rent_call), pass, rent[1], Some(1.5)));
    rows.push(sweep_row(size, pass));
    rows
}

fn main() {
    let all: Vec<Row> = SIZES.iter().flat_map(|&size| rows(size)).collect();
    println!("Nanoseconds a call, best of many rounds taken in turns. B is 512.");
    println!();
    println!(
        "| call | size | N | P | library | plain | model | floor | library / plain | ratio for the target | target |"
    );
    println!("| --- | --- | ---: | ---: | ---: | ---: | ---: | ---: | ---: | ---: | ---: |");
    for r in &all {
        let (ratio, target) = match r.target {
            Some(t) => (
                format!("{:.2}", r.library / r.against),
                format!("{t}{}", if r.library / r.against > t { " (above)" } else { "" }),
            ),
            None => ("".to_string(), "".to_string()),
        };
        println!(
            "| {} | {} | {} | {} | {:.0} | {:.0} | {:.0} | {:.0} | {:.2} | {} | {} |",
            r.call,
            r.size.name,
            r.size.blocks,
            r.size.places,
            r.library,
            r.plain,
            r.model,
            r.floor,
            r.library / r.plain,
            ratio,
            target
        );
    }
    println!();
    println!("Targets: AUDIT against the plain audit; READ and WRITE against the library's own audit plus a copy of");
    println!("B bytes; ALLOC 64, CONTIG 64, CREATE, CREATE again, DELETE, DELETE one of 2, TREE 4000, KEY_READ,");
    println!("KEY_WRITE, RENEW, TICK, RENT and SWEEP against the plain call, audit included.");
    println!();
    println!("| growth of | from | to | N + P grows | library grows | plain grows |");
    println!("| --- | --- | --- | ---: | ---: | ---: |");
    for call in ["AUDIT", "READ", "CREATE", "DELETE", "ALLOC 64", "CONTIG 64"] {
        let of: Vec<&Row> = all.iter().filter(|r| r.call == call).collect();
        for pair in of.windows(2) {
            let words = |r: &Row| (r.size.blocks + r.size.places) as f64;
            println!(
                "| {call} | {} | {} | {:.1} | {:.1} | {:.1} |",
                pair[0].size.name,
                pair[1].size.name,
                words(pair[1]) / words(pair[0]),
                pair[1].library / pair[0].library,
                pair[1].plain / pair[0].plain
            );
        }
    }
    println!();
    batch_table();
    println!();
    batch_growth_table();
    println!();
    list_tables();
    if let Some(row) = all.iter().find(|row| row.call == WHOLE_TREE) {
        println!();
        tree_table(row);
    }
    let ((list, list_bytes), (call, bytes)) = (deepest_list(), deepest());
    println!();
    println!("stack: {list_bytes} bytes below the caller in the deepest call, {list}, at full size");
    println!("stack: {bytes} bytes below the caller in a host's deepest call, {call}, at full size");
}
