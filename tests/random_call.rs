//! Random calls with operands that fit the card, or nearly, and the buffers to lend to them.

use crate::library::{credential_bytes, new_key_bytes, Direct, Raw};
use crate::model::{
    ends, Buffers, Card, Credential, Key, Operation, DAY, HIGHEST_MULTIPLICITY, HIGHEST_PRICE, HOST_KINDS, NO_HINT,
    READ_KEY, SERVICE_KINDS, TIME_END, WRITE_KEY,
};
use crate::random_card::{Random, KEYS};

/// Chooses operands with an eye on the card, so that calls are often done and often just refused.
pub struct Chooser {
    /// Keys that credentials are taken from; other keys of the card are never presented.
    pub known: Vec<Key>,
    pub host_only: bool,
}

impl Chooser {
    pub fn any(host_only: bool, known: &[Key]) -> Self {
        Chooser { known: known.to_vec(), host_only }
    }

    pub fn block(&self, rnd: &mut Random, card: &Card) -> u16 {
        let n = card.blocks() as u64;
        let edge = [0, card.info[1] - 1, card.info[1], n - 1, n, n + 1, 65_534, 65_535];
        match rnd.below(20) {
            0 => rnd.of(&edge) as u16,
            1 if rnd.percent(50) => self.some(rnd, card, |b| card.waiting(b)).unwrap_or(0) as u16,
            1 => rnd.below(n) as u16,
            2 => rnd.below(card.info[1]) as u16,
            3..=12 if self.host_only => self.some(rnd, card, |b| self.near(card, b)).unwrap_or(0) as u16,
            _ => self.some(rnd, card, |b| card.allocated(b) && !card.root(b)).unwrap_or(0) as u16,
        }
    }

    /// A block with the property, by chance, if any has it.
    pub fn some(&self, rnd: &mut Random, card: &Card, property: impl Fn(usize) -> bool) -> Option<usize> {
        let n = card.blocks();
        let start = rnd.below(n as u64) as usize;
        (0..n).map(|i| (start + i) % n).find(|&b| property(b))
    }

    /// Whether a host with the known keys may well open the block, or lead a pointer to it.
    pub fn near(&self, card: &Card, b: usize) -> bool {
        let known = |o| card.key(b, o).is_some_and(|k| self.known.contains(&k));
        let open = |o| {
            card.key(b, o).is_none()
                && card.pointers[..card.used()].iter().any(|&p| ends(p).1 == b && card.window_open(ends(p).0, o))
        };
        let (r, w) = (Operation::Reading, Operation::Writing);
        card.allocated(b) && !card.root(b) && (known(r) || known(w) || open(r) || open(w))
    }

    pub fn source_of(&self, rnd: &mut Random, card: &Card, b: usize, open: Option<Operation>) -> Option<u16> {
        let m = card.used();
        if m == 0 {
            return None;
        }
        let start = rnd.below(m as u64) as usize;
        (0..m)
            .map(|i| ends(card.pointers[(start + i) % m]))
            .find(|&(s, d)| d == b && open.is_none_or(|o| card.window_open(s, o)))
            .map(|(s, _)| s as u16)
    }

    pub fn known_key(&self, rnd: &mut Random) -> Credential {
        match self.known.is_empty() {
            true => Credential::Nothing,
            false => Credential::Key(rnd.of(&self.known)),
        }
    }

    pub fn credential(&self, rnd: &mut Random, card: &Card, block: u16, operation: Operation) -> Credential {
        let b = block as usize;
        let chosen = if card.allocated(b) && rnd.percent(80) {
            self.fitting(rnd, card, b, operation)
        } else {
            match rnd.below(5) {
                0 => Credential::Nothing,
                1 => self.known_key(rnd),
                2 if rnd.percent(30) => {
                    Credential::Reference(self.some(rnd, card, |b| card.waiting(b)).unwrap_or(0) as u16)
                }
                2 => Credential::Reference(self.block(rnd, card)),
                3 => Credential::Reference(self.source_of(rnd, card, b, None).unwrap_or(0)),
                _ if card.allocated(b) => {
                    let other = rnd.of(&[Operation::Reading, Operation::Writing]);
                    // The words of an absent key are zero, and open nothing.
                    Credential::Key(card.key(b, other).unwrap_or(KEYS[0]))
                }
                _ => Credential::Nothing,
            }
        };
        match chosen {
            Credential::Key(k) if !self.known.contains(&k) => self.known_key(rnd),
            other => other,
        }
    }

    pub fn fitting(&self, rnd: &mut Random, card: &Card, b: usize, operation: Operation) -> Credential {
        if let Some(own) = card.key(b, operation) {
            let writing = card.key(b, Operation::Writing);
            return match (operation, writing) {
                (Operation::Reading, Some(k)) if rnd.percent(30) => Credential::Key(k),
                _ => Credential::Key(own),
            };
        }
        if card.root(b) {
            return Credential::Nothing;
        }
        let open = self.source_of(rnd, card, b, Some(operation));
        Credential::Reference(open.or(self.source_of(rnd, card, b, None)).unwrap_or(0))
    }

    /// The bytes of a credential that mostly fits; now and then not well formed.
    pub fn raw(&self, rnd: &mut Random, card: &Card, block: u16, operation: Operation) -> Raw {
        let raw = credential_bytes(self.credential(rnd, card, block, operation));
        self.perhaps_wrong(rnd, raw, &[3, 4, 128, 255])
    }

    /// Whether a host with the known keys may write the block.
    fn writable(&self, card: &Card, b: usize) -> bool {
        let open = |p| ends(p).1 == b && card.window_open(ends(p).0, Operation::Writing);
        match card.key(b, Operation::Writing) {
            Some(k) => self.known.contains(&k),
            None => card.pointers[..card.used()].iter().any(|&p| open(p)),
        }
    }

    /// A block to set a key of: any, or one with both windows open, which few have, that a host may write.
    pub fn key_block(&self, rnd: &mut Random, card: &Card) -> u16 {
        let open = |b| card.window_open(b, Operation::Reading) && card.window_open(b, Operation::Writing);
        let found = self.some(rnd, card, |b| !card.root(b) && open(b) && self.writable(card, b));
        match found {
            Some(b) if rnd.percent(40) => b as u16,
            _ => self.block(rnd, card),
        }
    }

    /// A new key of the block for the operation: none, the one that it has, or any.
    pub fn new_key(&self, rnd: &mut Random, card: &Card, block: u16, operation: Operation) -> Raw {
        let key = match rnd.below(20) {
            0..=7 => None,
            8..=11 if card.allocated(block as usize) => card.key(block as usize, operation),
            _ => Some(rnd.of(&KEYS)),
        };
        self.perhaps_wrong(rnd, new_key_bytes(key), &[2, 3, 128, 255])
    }

    fn perhaps_wrong(&self, rnd: &mut Random, mut raw: Raw, others: &[u8]) -> Raw {
        if !self.host_only && rnd.percent(1) {
            match rnd.below(8) {
                0 => raw[0] = rnd.of(others),
                1 => raw[0] = rnd.of(&[0, 1, 2]),
                2 => raw[0] = rnd.next() as u8,
                3 => raw[rnd.of(&[1, 2, 3, 4])] ^= rnd.of(&[1, 128]),
                4 => raw[rnd.of(&[9, 15, 16])] ^= rnd.of(&[1, 128]),
                5 => raw.truncate(rnd.of(&[0, 1, 3, 16])),
                6 => raw.push(rnd.of(&[0, 1])),
                _ => raw.resize(42, 0),
            }
        }
        raw
    }

    /// An interval of any length, or one that ends where the block's window does, a second sooner or a second later.
    pub fn interval(&self, rnd: &mut Random, card: &Card, block: u16, operation: Operation) -> u32 {
        let b = block as usize;
        if card.allocated(b) && rnd.percent(20) {
            let left = card.window(b, operation).saturating_sub(card.time());
            return (left + rnd.below(3)).saturating_sub(1) as u32;
        }
        match rnd.below(16) {
            0 => 86_401,
            1 => rnd.of(&[86_402, 1 << 31, u32::MAX]),
            2 | 3 => 86_400,
            4 | 5 => 0,
            6 | 7 => 1,
            8 => 86_399,
            _ => rnd.below(DAY + 1) as u32,
        }
    }

    pub fn port(&self, rnd: &mut Random) -> u8 {
        match rnd.below(200) {
            _ if self.host_only => 0,
            0 => rnd.of(&[2, 3, 128, 129, 255]),
            1..=129 => 0,
            _ => 1,
        }
    }

    /// A hint: none, any block, one past the last or at an end of the card, or one that waits.
    pub fn hint(&self, rnd: &mut Random, card: &Card) -> u16 {
        let n = card.info[0];
        match rnd.below(14) {
            0 | 1 => NO_HINT,
            2 => n as u16,
            3 => rnd.of(&[65_534, n as u16 + 1]),
            4 => 0,
            5 => n as u16 - 1,
            6 | 7 => self.some(rnd, card, |b| card.waiting(b)).unwrap_or(0) as u16,
            _ => rnd.below(n) as u16,
        }
    }

    /// How many blocks ALLOC asks for.
    pub fn count(&self, rnd: &mut Random, card: &Card) -> u8 {
        let free = card.free_blocks().min(254) as u64;
        let spare = (card.pointers.len() - card.used()).min(254) as u64;
        let waiting = card.waiting_blocks().len().min(254) as u64;
        let count = match rnd.below(17) {
            0 => 0,
            1 => rnd.of(&[65, 255]),
            2 => 64,
            3 => free,
            4 => free + 1,
            5 => spare,
            6 => spare + 1,
            7 => (free + waiting).min(255),
            _ => rnd.within(1, 4),
        };
        count as u8
    }

    /// How many ALLOC_CONTIG asks for: as ALLOC, or just the longest run, or one more than that; or the longest run that
    /// there were if none waited.
    pub fn run_count(&self, rnd: &mut Random, card: &Card) -> u8 {
        let longest = longest_run(card, |b| card.free(b)).min(254) as u8;
        match rnd.below(10) {
            0 => longest,
            1 | 2 => longest + 1,
            3 => longest_run(card, |b| !card.allocated(b)).min(255) as u8,
            _ => self.count(rnd, card),
        }
    }

    /// A hint for a run of so many: as for ALLOC, or about the last block at which one has room.
    pub fn run_hint(&self, rnd: &mut Random, card: &Card, count: u8) -> u16 {
        let last = (card.blocks() as u16).saturating_sub(count as u16);
        match rnd.below(10) {
            0 => last,
            1 => rnd.of(&[last.saturating_sub(1), last + 1]),
            _ => self.hint(rnd, card),
        }
    }

    pub fn call(&self, rnd: &mut Random, card: &Card) -> Direct {
        let port = self.port(rnd);
        match rnd.below(132) {
            0..=16 => {
                let block = self.block(rnd, card);
                let credential = self.raw(rnd, card, block, Operation::Reading);
                let interval = self.interval(rnd, card, block, Operation::Reading);
                Direct::Read { port, block, credential, interval }
            }
            17..=33 => {
                let block = self.block(rnd, card);
                let credential = self.raw(rnd, card, block, Operation::Writing);
                let b = card.bytes();
                let length = if rnd.percent(97) { b } else { rnd.of(&[0, b - 1, b + 1, 2 * b, 512, 511]) };
                let interval = self.interval(rnd, card, block, Operation::Writing);
                Direct::Write { port, block, credential, interval, data: rnd.bytes(length) }
            }
            34..=46 => {
                let reference = self.block(rnd, card);
                let credential = self.raw(rnd, card, reference, Operation::Writing);
                let hint = self.hint(rnd, card);
                Direct::Alloc { port, reference, credential, hint, count: self.count(rnd, card) }
            }
            47..=59 => {
                let (source, destination) = self.ends_to_join(rnd, card);
                Direct::Create {
                    port,
                    source,
                    source_credential: self.raw(rnd, card, source, Operation::Writing),
                    destination,
                    destination_credential: self.raw(rnd, card, destination, Operation::Writing),
                }
            }
            60..=72 => {
                let (mut source, mut destination) = self.pointer(rnd, card);
                if rnd.percent(20) {
                    source = self.block(rnd, card);
                }
                if rnd.percent(20) {
                    destination = self.block(rnd, card);
                }
                let credential = self.raw(rnd, card, source, Operation::Writing);
                Direct::Delete { port, source, credential, destination }
            }
            73..=80 => {
                let operation = rnd.of(&[Operation::Reading, Operation::Writing]);
                let block = self.key_block(rnd, card);
                let credential = self.raw(rnd, card, block, Operation::Writing);
                let key = self.new_key(rnd, card, block, operation);
                match operation {
                    Operation::Reading => Direct::KeyRead { port, block, credential, key },
                    Operation::Writing => Direct::KeyWrite { port, block, credential, key },
                }
            }
            81..=88 => {
                let mode = if rnd.percent(95) { rnd.below(2) as u8 } else { rnd.of(&[2, 3, 255]) };
                let keyed = self.some(rnd, card, |b| card.flags[b] & (READ_KEY | WRITE_KEY) != 0);
                let block = match keyed {
                    Some(b) if rnd.percent(85) => b as u16,
                    _ => self.block(rnd, card),
                };
                let operation = if mode == 0 { Operation::Reading } else { Operation::Writing };
                let credential = match self.credential(rnd, card, block, operation) {
                    Credential::Key(k) => Credential::Key(k),
                    other if !self.host_only && rnd.percent(5) => other,
                    _ if self.known.is_empty() => Credential::Key(rnd.of(&KEYS)),
                    _ => Credential::Key(rnd.of(&self.known)),
                };
                let key = self.perhaps_wrong(rnd, credential_bytes(credential), &[3, 4, 128, 255]);
                Direct::Renew { mode, block, key, interval: self.interval(rnd, card, block, operation) }
            }
            89..=91 => Direct::Force { block: self.block(rnd, card) },
            92..=93 => Direct::Free,
            94..=97 => {
                let left = TIME_END - card.info[4];
                let seconds = match rnd.below(16) {
                    0 => rnd.of(&[left, left + 1, TIME_END]),
                    1 => rnd.of(&[u64::MAX, u64::MAX - card.info[4], 0u64.wrapping_sub(card.info[4]), 1 << 63]),
                    2 => rnd.of(&[left - 1, left - 1, TIME_END - 1]),
                    3..=5 => self.to_a_window(rnd, card),
                    6 => DAY,
                    7 => 0,
                    _ => rnd.below(20),
                };
                Direct::Tick { seconds }
            }
            98 => Direct::Audit,
            99 => Direct::Free,
            100..=109 => {
                let (mut source, mut destination) = self.tree_pointer(rnd, card, port);
                if rnd.percent(15) {
                    source = self.block(rnd, card);
                }
                if rnd.percent(15) {
                    destination = self.block(rnd, card);
                }
                let credential = self.raw(rnd, card, source, Operation::Writing);
                Direct::DeleteTree { port, source, credential, destination }
            }
            110..=119 => {
                let reference = self.block(rnd, card);
                let credential = self.raw(rnd, card, reference, Operation::Writing);
                let count = self.run_count(rnd, card);
                Direct::AllocContig { port, reference, credential, hint: self.run_hint(rnd, card, count), count }
            }
            120..=125 => Direct::Rent { price: self.price(rnd) },
            _ => Direct::Sweep { most: self.most(rnd, card) },
        }
    }

    /// How many blocks SWEEP may overwrite: none, as many as wait, one more or less, few, or far more, perhaps with low bits
    /// that are 0.
    fn most(&self, rnd: &mut Random, card: &Card) -> u32 {
        let waiting = card.waiting_blocks().len() as u32;
        match rnd.below(16) {
            0 => 0,
            1 | 2 => waiting,
            3 => waiting.saturating_sub(1),
            4 => waiting + 1,
            5 => rnd.of(&[65_536, 1 << 31]),
            6 => u32::MAX,
            _ => rnd.within(1, 3) as u32,
        }
    }

    /// A price: any, one at which the halves of a cent among random totals show, or one that is too high, perhaps with low
    /// bits that are not.
    fn price(&self, rnd: &mut Random) -> u32 {
        match rnd.below(16) {
            0 => 0,
            1 => 1,
            2 => HIGHEST_PRICE + 1,
            3 => rnd.of(&[65_536, 65_536 + 1_000, 1 << 31, u32::MAX]),
            4..=7 => HIGHEST_PRICE,
            8..=11 => 1_000,
            _ => rnd.below(HIGHEST_PRICE as u64 + 1) as u32,
        }
    }

    /// Seconds until some window's end, or one less.
    pub fn to_a_window(&self, rnd: &mut Random, card: &Card) -> u64 {
        let time = card.info[4];
        match self.some(rnd, card, |b| card.windows[2 * b] > time) {
            Some(b) => card.windows[2 * b] - time - rnd.below(2),
            None => 1,
        }
    }

    /// The ends of a pointer for CREATE: any blocks, the ends of a pointer that is there, or equal ones.
    fn ends_to_join(&self, rnd: &mut Random, card: &Card) -> (u16, u16) {
        let source = self.block(rnd, card);
        match rnd.below(20) {
            0..=3 => self.pointer(rnd, card),
            4..=7 => self.often_made(rnd, card),
            8 => (source, source),
            _ => (source, self.block(rnd, card)),
        }
    }

    /// A pointer of the highest multiplicity or just below it, if there is one.
    fn often_made(&self, rnd: &mut Random, card: &Card) -> (u16, u16) {
        let m = card.used();
        let start = rnd.below(m.max(1) as u64) as usize;
        let mut places = (0..m).map(|i| (start + i) % m);
        match places.find(|&i| card.multiplicities[i] >= HIGHEST_MULTIPLICITY - 1) {
            Some(i) => (ends(card.pointers[i]).0 as u16, ends(card.pointers[i]).1 as u16),
            None => self.pointer(rnd, card),
        }
    }

    /// A pointer for DELETE_TREE: any, or one that the port can remove and that takes several blocks with it, its own source,
    /// or none with a write key, if some draws find it.
    fn tree_pointer(&self, rnd: &mut Random, card: &Card, port: u8) -> (u16, u16) {
        let (wanted, host) = (rnd.below(8), port == 0);
        if wanted == 0 || card.used() == 0 {
            return self.pointer(rnd, card);
        }
        let fits = |&(s, d): &(u16, u16)| {
            let s = s as usize;
            let freed = card.freed_with(s, d as usize);
            let several = freed.iter().filter(|&&f| f).count() > 1;
            let keyed = (0..card.blocks()).any(|b| freed[b] && card.flags[b] & WRITE_KEY != 0);
            let sort = match wanted {
                1 | 2 => true,
                3 | 4 => several,
                5 => several && !keyed,
                6 => freed[s],
                _ => freed[s] && !keyed && (!host || self.writable(card, s)),
            };
            sort && !(host && card.root(s))
        };
        let drawn: Vec<_> = (0..24).map(|_| self.pointer(rnd, card)).collect();
        drawn.iter().copied().find(fits).unwrap_or(drawn[0])
    }

    pub fn pointer(&self, rnd: &mut Random, card: &Card) -> (u16, u16) {
        if card.used() == 0 {
            return (0, self.block(rnd, card));
        }
        let (mut s, mut d) = ends(card.pointers[rnd.below(card.info[3]) as usize]);
        for _ in 0..if self.host_only { 6 } else { 0 } {
            if !self.near(card, s) {
                (s, d) = ends(card.pointers[rnd.below(card.info[3]) as usize]);
            }
        }
        (s as u16, d as u16)
    }
}

/// How many blocks with the property adjoin at most.
pub fn longest_run(card: &Card, property: impl Fn(usize) -> bool) -> usize {
    let blocks: Vec<bool> = (0..card.blocks()).map(property).collect();
    blocks.split(|&has| !has).map(|run| run.len()).max().unwrap_or(0)
}

/// Buffers to lend for the call, of fitting length or nearly, holding what they may.
pub fn buffers(rnd: &mut Random, card: &Card, call: Option<&Direct>) -> Buffers {
    let b = card.bytes();
    let out = match call {
        Some(Direct::Read { .. }) => {
            if rnd.percent(97) {
                b
            } else {
                rnd.of(&[0, 1, b - 1, b + 1, 2 * b])
            }
        }
        _ => rnd.of(&[0, 8, 512]),
    };
    let places = match call {
        Some(Direct::Alloc { count, .. } | Direct::AllocContig { count, .. }) => {
            let count = *count as usize;
            if rnd.percent(90) {
                rnd.of(&[64, count, count + 3])
            } else {
                rnd.of(&[0, count.saturating_sub(1)])
            }
        }
        _ => rnd.of(&[0, 4]),
    };
    Buffers { out: rnd.bytes(out), places: (0..places).map(|_| rnd.next() as u16).collect(), value: rnd.next() }
}

/// A record of the call with something about it changed, or bytes by chance.
pub fn spoilt_record(rnd: &mut Random, call: &Direct) -> (u8, Vec<u8>) {
    let (mut kind, mut body) = call.record().unwrap_or((rnd.next() as u8, Vec::new()));
    match rnd.below(6) {
        0 | 1 if !body.is_empty() => body.truncate(rnd.below(body.len() as u64) as usize),
        1 => body.clear(),
        2 => {
            let more = rnd.within(1, 40) as usize;
            body.extend(rnd.bytes(more));
        }
        3 if !body.is_empty() => {
            let at = rnd.below(body.len().min(60) as u64) as usize;
            body[at] ^= 1 << rnd.below(8);
        }
        4 => {
            // Right in length for its kind or not, and likely ill formed.
            kind = rnd.of(&[&[0], &HOST_KINDS[..], &SERVICE_KINDS].concat());
            body.resize(rnd.of(&[21, 22, 23, 36, 38, 535]), 0);
        }
        _ => kind = rnd.of(&[0, 15, 16, 33, 64, 127, 128, 135, 136, 137, 138, 139, 143, 144, 255, rnd.0 as u8]),
    }
    (kind, body)
}

pub fn random_format(rnd: &mut Random, card: &Card) -> Direct {
    let (n, r, b) = (card.info[0], card.info[1], card.info[2]);
    let (mut blocks, mut roots, mut bytes) = (n, rnd.within(1, 8), b);
    match rnd.below(8) {
        0 => blocks = rnd.of(&[0, 15, n - 1, n + 1, 4_097, 1 << 62, u64::MAX]),
        1 => roots = rnd.of(&[0, 9, r + 8, u64::MAX]),
        2 => bytes = rnd.of(&[0, 256, b / 2, b * 2, b + 1, 131_072, 1 << 63]),
        _ => {}
    }
    Direct::Format { blocks, roots, bytes }
}
