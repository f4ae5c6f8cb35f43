//! An independent model of the storage card, written from document 01 and the requests of document 02 alone; what the
//! port of a wire means, and what a batch is, from the words of `include/negvask.h`.
//!
//! It favours plain rules over speed: a question about pointers is answered by looking through the pointers.
//! Every call first names its refusal, in the document's order, and changes the card only when there is none.

pub const DAY: u64 = 86_400;
pub const TIME_END: u64 = 1 << 40;
pub const NO_HINT: u16 = 65_535;
pub const HIGHEST_MULTIPLICITY: u16 = 65_535;
/// In thousandths of a cent for a block and a day.
pub const HIGHEST_PRICE: u32 = 2_000;
/// A total times a price of so much is a cent.
pub const PER_CENT: u64 = 86_400_000;

pub const ALLOCATED: u8 = 1;
pub const READ_KEY: u8 = 2;
pub const WRITE_KEY: u8 = 4;
/// The flags of a block that was freed and waits to be overwritten; it has no other.
pub const WAITING: u8 = 8;

pub const SHAPE: u32 = 1;
pub const UNSOUND: u32 = 2;
pub const NO_BLOCK: u32 = 3;
pub const BAD_OPERAND: u32 = 4;
pub const NOT_OPENED: u32 = 5;
pub const ROOT: u32 = 6;
pub const CANNOT_POINT: u32 = 7;
pub const NO_POINTER: u32 = 8;
pub const HAS_POINTERS: u32 = 9;
pub const NO_SPACE: u32 = 10;
pub const NO_PLACE: u32 = 11;
pub const CLOCK: u32 = 12;
pub const MALFORMED: u32 = 13;
pub const NO_RUN: u32 = 14;
pub const HAS_WRITE_KEY: u32 = 15;
pub const PRICE_TOO_HIGH: u32 = 16;

/// Why a batch stops, besides its end and a malformed record.
pub const CUT_SHORT: u32 = 256;
pub const NO_ROOM: u32 = 257;

/// The numbers in the record.
pub const RECORD: usize = 6;

/// What a call answers: done, or the refusal's number.
pub type Answer = Result<(), u32>;

/// The record and the seven tables that the caller lends.
#[derive(Clone, Debug, PartialEq, Default)]
pub struct Card {
    /// N, R, B, M, T and the total. A record of another length is out of shape.
    pub info: Vec<u64>,
    pub flags: Vec<u8>,
    pub keys: Vec<u64>,
    pub counts: Vec<u32>,
    pub pointers: Vec<u32>,
    pub multiplicities: Vec<u16>,
    pub windows: Vec<u64>,
    pub contents: Vec<u8>,
}

#[derive(Clone, Copy, Debug, PartialEq)]
pub struct Key {
    pub high: u64,
    pub low: u64,
}

#[derive(Clone, Copy, Debug, PartialEq)]
pub enum Credential {
    Nothing,
    Reference(u16),
    Key(Key),
}

#[derive(Clone, Copy, Debug, PartialEq, Eq, PartialOrd, Ord)]
pub enum Port {
    Host,
    Service,
}

/// The port of a number; None for a number that no port has.
pub fn port_of(number: u8) -> Option<Port> {
    match number {
        0 => Some(Port::Host),
        1 => Some(Port::Service),
        _ => None,
    }
}

#[derive(Clone, Copy, Debug, PartialEq)]
pub enum Operation {
    Reading,
    Writing,
}
use Operation::{Reading, Writing};

/// Every call but FORMAT and the reach report; no record carries RENT or SWEEP. The lent buffers are not part of it, save
/// the data of WRITE.
#[derive(Clone, Debug, PartialEq)]
pub enum Call {
    Read { block: u16, credential: Credential, interval: u32 },
    Write { block: u16, credential: Credential, interval: u32, data: Vec<u8> },
    Alloc { reference: u16, credential: Credential, hint: u16, count: u8 },
    AllocContig { reference: u16, credential: Credential, hint: u16, count: u8 },
    Create { source: u16, source_credential: Credential, destination: u16, destination_credential: Credential },
    Delete { source: u16, credential: Credential, destination: u16 },
    DeleteTree { source: u16, credential: Credential, destination: u16 },
    KeyRead { block: u16, credential: Credential, key: Option<Key> },
    KeyWrite { block: u16, credential: Credential, key: Option<Key> },
    Renew { mode: u8, block: u16, key: Key, interval: u32 },
    Force { block: u16 },
    Free,
    Tick { seconds: u64 },
    Audit,
    Rent { price: u32 },
    Sweep { most: u32 },
}

/// What a caller lends besides the tables.
#[derive(Clone, Debug, PartialEq)]
pub struct Buffers {
    pub out: Vec<u8>,
    pub places: Vec<u16>,
    pub value: u64,
}

fn refuse_if(condition: bool, number: u32) -> Answer {
    if condition {
        Err(number)
    } else {
        Ok(())
    }
}

pub fn number(answer: Answer) -> u32 {
    match answer {
        Ok(()) => 0,
        Err(n) => n,
    }
}

fn ranges_hold(blocks: u64, roots: u64, bytes: u64) -> bool {
    (16..=4_096).contains(&blocks)
        && (1..=8).contains(&roots)
        && (512..=65_536).contains(&bytes)
        && bytes.is_power_of_two()
}

impl Card {
    pub fn blocks(&self) -> usize {
        self.info[0] as usize
    }
    pub fn roots(&self) -> usize {
        self.info[1] as usize
    }
    pub fn bytes(&self) -> usize {
        self.info[2] as usize
    }
    pub fn used(&self) -> usize {
        self.info[3] as usize
    }
    pub fn time(&self) -> u64 {
        self.info[4]
    }
    pub fn total(&self) -> u64 {
        self.info[5]
    }

    // ---- Shape and soundness ----

    fn lengths_fit(&self, blocks: u64, bytes: u64) -> bool {
        let n = blocks as usize;
        self.flags.len() == n
            && self.keys.len() == 4 * n
            && self.counts.len() == n
            && (1..=16_384).contains(&self.pointers.len())
            && self.multiplicities.len() == self.pointers.len()
            && self.windows.len() == 2 * n
            && self.contents.len() == n * bytes as usize
    }

    pub fn shaped(&self) -> bool {
        if self.info.len() != RECORD {
            return false;
        }
        let (n, r, b, m, t) = (self.info[0], self.info[1], self.info[2], self.info[3], self.info[4]);
        ranges_hold(n, r, b) && t < TIME_END && self.lengths_fit(n, b) && m <= self.pointers.len() as u64
    }

    /// Soundness of a card in shape.
    pub fn sound(&self) -> bool {
        let (used, rest) = self.pointers.split_at(self.used());
        let (times, other_times) = self.multiplicities.split_at(self.used());
        (0..self.blocks()).all(|b| self.block_sound(b))
            && used.windows(2).all(|pair| pair[0] < pair[1])
            && rest.iter().all(|&p| p == 0)
            && times.iter().all(|&t| t >= 1)
            && other_times.iter().all(|&t| t == 0)
            && used.iter().all(|&p| self.pointer_sound(p))
            && self.total() as u128 <= self.highest_total()
    }

    /// As much as the largest card could have come to by now.
    pub fn highest_total(&self) -> u128 {
        self.time() as u128 * 4_096
    }

    fn block_sound(&self, b: usize) -> bool {
        let flags = self.flags[b];
        let keys = &self.keys[4 * b..4 * b + 4];
        let windows = &self.windows[2 * b..2 * b + 2];
        let root = b < self.roots();
        let allocated = flags & ALLOCATED != 0;

        let unallocated_is_zero = keys == [0, 0, 0, 0] && self.counts[b] == 0 && windows == [0, 0];
        let flags_fit = if allocated { flags < 8 } else { [0, WAITING].contains(&flags) };

        flags_fit
            && (!root || allocated)
            && (allocated || unallocated_is_zero)
            && (flags & READ_KEY != 0 || keys[..2] == [0, 0])
            && (flags & WRITE_KEY != 0 || keys[2..] == [0, 0])
            && self.counts[b] as u64 == self.pointers_to(b)
            && (!allocated || root || self.counts[b] >= 1)
            && windows.iter().all(|&end| end <= self.time() + DAY)
    }

    fn pointer_sound(&self, pointer: u32) -> bool {
        let (source, destination) = ends(pointer);
        self.allocated(source) && self.allocated(destination) && destination >= self.roots() && source != destination
    }

    /// The refusal that every call but FORMAT makes first.
    pub fn audit(&self) -> Answer {
        refuse_if(!self.shaped(), SHAPE)?;
        refuse_if(!self.sound(), UNSOUND)
    }

    // ---- Questions about a card in shape ----

    /// Allocated; a number not below N is not.
    pub fn allocated(&self, b: usize) -> bool {
        b < self.blocks() && self.flags[b] & ALLOCATED != 0
    }

    /// Freed, and not yet overwritten. On a sound card a block below N is allocated, or waits, or is free.
    pub fn waiting(&self, b: usize) -> bool {
        b < self.blocks() && self.flags[b] == WAITING
    }

    pub fn free(&self, b: usize) -> bool {
        b < self.blocks() && self.flags[b] == 0
    }

    pub fn root(&self, b: usize) -> bool {
        b < self.roots()
    }

    /// The pointers in use, each with its multiplicity.
    pub fn in_use(&self) -> impl Iterator<Item = (u32, u16)> + '_ {
        self.pointers[..self.used()].iter().copied().zip(self.multiplicities.iter().copied())
    }

    /// How many pointers lead to the block, each as often as it is there.
    pub fn pointers_to(&self, b: usize) -> u64 {
        self.in_use().filter(|&(p, _)| ends(p).1 == b).map(|(_, times)| times as u64).sum()
    }

    pub fn has_pointers(&self, b: usize) -> bool {
        self.pointers[..self.used()].iter().any(|&p| ends(p).0 == b)
    }

    /// How often one block points to another; 0 where it does not.
    pub fn multiplicity(&self, source: usize, destination: usize) -> u16 {
        self.in_use().find(|&(p, _)| ends(p) == (source, destination)).map_or(0, |(_, times)| times)
    }

    pub fn points(&self, source: usize, destination: usize) -> bool {
        self.multiplicity(source, destination) >= 1
    }

    /// Whether no place is left for a further pointer.
    pub fn full(&self) -> bool {
        self.used() == self.pointers.len()
    }

    pub fn free_blocks(&self) -> usize {
        (0..self.blocks()).filter(|&b| self.free(b)).count()
    }

    /// The blocks that wait, ascending.
    pub fn waiting_blocks(&self) -> Vec<usize> {
        (0..self.blocks()).filter(|&b| self.waiting(b)).collect()
    }

    /// The blocks that rent is paid for.
    pub fn rented_blocks(&self) -> usize {
        (0..self.blocks()).filter(|&b| self.allocated(b) && !self.root(b)).count()
    }

    pub fn key(&self, b: usize, operation: Operation) -> Option<Key> {
        let (flag, at) = key_place(b, operation);
        (self.flags[b] & flag != 0).then(|| Key { high: self.keys[at], low: self.keys[at + 1] })
    }

    pub fn window(&self, b: usize, operation: Operation) -> u64 {
        self.windows[2 * b + operation as usize]
    }

    pub fn window_open(&self, b: usize, operation: Operation) -> bool {
        self.time() < self.window(b, operation)
    }

    /// Document 01, "Credentials", for an allocated block.
    pub fn opens(&self, credential: Credential, b: usize, operation: Operation) -> bool {
        if let Some(own) = self.key(b, operation) {
            let also = if operation == Reading { self.key(b, Writing) } else { None };
            return match credential {
                Credential::Key(k) => k == own || Some(k) == also,
                _ => false,
            };
        }
        if self.root(b) {
            return credential == Credential::Nothing;
        }
        match credential {
            Credential::Reference(r) => {
                let r = r as usize;
                self.allocated(r) && self.points(r, b) && self.window_open(r, operation)
            }
            _ => false,
        }
    }

    fn admitted(&self, port: Port, credential: Credential, b: usize, operation: Operation) -> bool {
        port == Port::Service || self.opens(credential, b, operation)
    }

    // ---- Changes ----

    fn part(&self, b: usize) -> std::ops::Range<usize> {
        b * self.bytes()..(b + 1) * self.bytes()
    }

    /// The window's end becomes the later of its present end and T + interval.
    fn extend_window(&mut self, b: usize, operation: Operation, interval: u32) {
        let end = self.time() + interval as u64;
        let present = self.window(b, operation);
        self.windows[2 * b + operation as usize] = present.max(end);
    }

    /// Puts these pointers with their multiplicities, ascending, in place of those that there are.
    fn set_pointers(&mut self, mut used: Vec<(u32, u16)>) {
        used.sort();
        self.info[3] = used.len() as u64;
        self.pointers.fill(0);
        self.multiplicities.fill(0);
        for (i, (pointer, times)) in used.into_iter().enumerate() {
            self.pointers[i] = pointer;
            self.multiplicities[i] = times;
        }
    }

    /// The same for a card that is drawn, with the counts that the pointers make; a damaged one may lead past N.
    pub fn draw_pointers(&mut self, used: Vec<(u32, u16)>) {
        self.counts.fill(0);
        for &(pointer, times) in &used {
            if let Some(count) = self.counts.get_mut(ends(pointer).1) {
                *count += times as u32;
            }
        }
        self.set_pointers(used);
    }

    /// Lets one block point to another so often; a pointer of multiplicity 0 has no place.
    fn set_multiplicity(&mut self, source: usize, destination: usize, times: u16) {
        let pointer = word(source, destination);
        let mut used: Vec<(u32, u16)> = self.in_use().filter(|&(p, _)| p != pointer).collect();
        if times > 0 {
            used.push((pointer, times));
        }
        self.set_pointers(used);
    }

    fn add_pointer(&mut self, source: usize, destination: usize) {
        self.set_multiplicity(source, destination, self.multiplicity(source, destination) + 1);
        self.counts[destination] += 1;
    }

    fn take_pointer(&mut self, source: usize, destination: usize) {
        self.set_multiplicity(source, destination, self.multiplicity(source, destination) - 1);
        self.counts[destination] -= 1;
    }

    /// Takes the pointers with the property away, each as often as it is there.
    fn take_pointers(&mut self, property: impl Fn(usize, usize) -> bool) {
        let (gone, left): (Vec<_>, Vec<_>) = self.in_use().partition(|&(p, _)| property(ends(p).0, ends(p).1));
        gone.iter().for_each(|&(p, times)| self.counts[ends(p).1] -= times as u32);
        self.set_pointers(left);
    }

    /// Frees a block that nothing points to: it waits, and its contents stay.
    fn release(&mut self, b: usize) {
        self.flags[b] = WAITING;
        self.keys[4 * b..4 * b + 4].fill(0);
        self.windows[2 * b..2 * b + 2].fill(0);
    }

    /// The block with the property that is nearest the hint, the lower on a tie; the lowest when there is no hint.
    fn nearest(&self, hint: u16, property: impl Fn(usize) -> bool) -> Option<usize> {
        let distance = |b: usize| if hint == NO_HINT { b } else { b.abs_diff(hint as usize) };
        (0..self.blocks()).filter(|&b| property(b)).min_by_key(|&b| (distance(b), b))
    }

    /// Whether `count` free blocks adjoin from this one on.
    fn run_from(&self, first: usize, count: usize) -> bool {
        first + count <= self.blocks() && (first..first + count).all(|b| self.free(b))
    }

    /// Allots a free block below the reference block.
    fn take(&mut self, reference: usize, b: usize) {
        self.flags[b] = ALLOCATED;
        let part = self.part(b);
        self.contents[part].fill(0);
        self.add_pointer(reference, b);
    }

    // ---- Calls ----

    pub fn format(&mut self, blocks: u64, roots: u64, bytes: u64) -> Answer {
        let fits = self.info.len() == RECORD && ranges_hold(blocks, roots, bytes) && self.lengths_fit(blocks, bytes);
        refuse_if(!fits, SHAPE)?;
        self.info = vec![blocks, roots, bytes, 0, 0, 0];
        self.flags.fill(0);
        self.flags[..roots as usize].fill(ALLOCATED);
        self.keys.fill(0);
        self.counts.fill(0);
        self.pointers.fill(0);
        self.multiplicities.fill(0);
        self.windows.fill(0);
        self.contents[..(roots * bytes) as usize].fill(0);
        Ok(())
    }

    fn read_or_write_refusal(
        &self,
        port: Port,
        b: usize,
        credential: Credential,
        interval: u32,
        length: usize,
        operation: Operation,
    ) -> Answer {
        self.audit()?;
        refuse_if(length != self.bytes() || interval as u64 > DAY, BAD_OPERAND)?;
        refuse_if(!self.allocated(b), NO_BLOCK)?;
        refuse_if(!self.admitted(port, credential, b, operation), NOT_OPENED)
    }

    /// A host's READ or WRITE with an interval opens the window; the service port opens none.
    fn open_window(&mut self, port: Port, b: usize, operation: Operation, interval: u32) {
        if port == Port::Host && interval != 0 {
            self.extend_window(b, operation, interval);
        }
    }

    pub fn read(&mut self, port: Port, block: u16, credential: Credential, interval: u32, out: &mut [u8]) -> Answer {
        let b = block as usize;
        self.read_or_write_refusal(port, b, credential, interval, out.len(), Reading)?;
        out.copy_from_slice(&self.contents[self.part(b)]);
        self.open_window(port, b, Reading, interval);
        Ok(())
    }

    pub fn write(&mut self, port: Port, block: u16, credential: Credential, interval: u32, data: &[u8]) -> Answer {
        let b = block as usize;
        self.read_or_write_refusal(port, b, credential, interval, data.len(), Writing)?;
        let part = self.part(b);
        self.contents[part].copy_from_slice(data);
        self.open_window(port, b, Writing, interval);
        Ok(())
    }

    /// What ALLOC and ALLOC_CONTIG check alike, up to the number of free blocks.
    fn alloc_refusal(
        &self,
        port: Port,
        r: usize,
        credential: Credential,
        hint: u16,
        wanted: usize,
        places: usize,
    ) -> Answer {
        self.audit()?;
        let hint_fits = (hint as usize) < self.blocks() || hint == NO_HINT;
        refuse_if(wanted == 0 || wanted > 64 || !hint_fits || places < wanted, BAD_OPERAND)?;
        refuse_if(!self.allocated(r), NO_BLOCK)?;
        refuse_if(self.root(r) && port == Port::Host, ROOT)?;
        refuse_if(!self.admitted(port, credential, r, Writing), NOT_OPENED)?;
        refuse_if(self.free_blocks() < wanted, NO_SPACE)
    }

    pub fn alloc(
        &mut self,
        port: Port,
        reference: u16,
        credential: Credential,
        hint: u16,
        count: u8,
        places: &mut [u16],
    ) -> Answer {
        let r = reference as usize;
        let wanted = count as usize;
        self.alloc_refusal(port, r, credential, hint, wanted, places.len())?;
        refuse_if(self.used() + wanted > self.pointers.len(), NO_PLACE)?;
        for place in &mut places[..wanted] {
            let b = self.nearest(hint, |b| self.free(b)).unwrap();
            self.take(r, b);
            *place = b as u16;
        }
        Ok(())
    }

    pub fn alloc_contig(
        &mut self,
        port: Port,
        reference: u16,
        credential: Credential,
        hint: u16,
        count: u8,
        places: &mut [u16],
    ) -> Answer {
        let r = reference as usize;
        let wanted = count as usize;
        self.alloc_refusal(port, r, credential, hint, wanted, places.len())?;
        let first = self.nearest(hint, |b| self.run_from(b, wanted)).ok_or(NO_RUN)?;
        refuse_if(self.used() + wanted > self.pointers.len(), NO_PLACE)?;
        for (b, place) in (first..).zip(&mut places[..wanted]) {
            self.take(r, b);
            *place = b as u16;
        }
        Ok(())
    }

    pub fn create(
        &mut self,
        port: Port,
        source: u16,
        source_credential: Credential,
        destination: u16,
        destination_credential: Credential,
    ) -> Answer {
        let (s, d) = (source as usize, destination as usize);
        self.audit()?;
        refuse_if(!self.allocated(s), NO_BLOCK)?;
        refuse_if(!self.allocated(d), NO_BLOCK)?;
        refuse_if(self.root(d) || (self.root(s) && port == Port::Host), ROOT)?;
        refuse_if(!self.admitted(port, source_credential, s, Writing), NOT_OPENED)?;
        refuse_if(!self.admitted(port, destination_credential, d, Writing), NOT_OPENED)?;
        refuse_if(s == d || self.multiplicity(s, d) == HIGHEST_MULTIPLICITY, CANNOT_POINT)?;
        refuse_if(!self.points(s, d) && self.full(), NO_PLACE)?;
        self.add_pointer(s, d);
        Ok(())
    }

    /// What DELETE and DELETE_TREE check alike, up to the pointer.
    fn removal_refusal(&self, port: Port, s: usize, credential: Credential, d: usize) -> Answer {
        self.audit()?;
        refuse_if(!self.allocated(s), NO_BLOCK)?;
        refuse_if(!self.allocated(d), NO_BLOCK)?;
        refuse_if(self.root(s) && port == Port::Host, ROOT)?;
        refuse_if(!self.admitted(port, credential, s, Writing), NOT_OPENED)?;
        refuse_if(!self.points(s, d), NO_POINTER)
    }

    pub fn delete(
        &mut self,
        port: Port,
        source: u16,
        credential: Credential,
        destination: u16,
        value: &mut u64,
    ) -> Answer {
        let (s, d) = (source as usize, destination as usize);
        self.removal_refusal(port, s, credential, d)?;
        refuse_if(self.counts[d] == 1 && self.has_pointers(d), HAS_POINTERS)?;
        self.take_pointer(s, d);
        let freed = self.counts[d] == 0;
        if freed {
            self.release(d);
        }
        *value = freed as u64;
        Ok(())
    }

    /// The blocks that are freed once the pointer is wholly removed: the destination if nothing points to it then, and
    /// again and again each allocated block that is no root and whose every pointer comes from freed blocks.
    pub fn freed_with(&self, source: usize, destination: usize) -> Vec<bool> {
        let left: Vec<_> = self.in_use().map(|(p, _)| ends(p)).filter(|&e| e != (source, destination)).collect();
        let mut freed = vec![false; self.blocks()];
        freed[destination] = left.iter().all(|&(_, d)| d != destination);
        loop {
            let mut kept = vec![false; self.blocks()];
            left.iter().filter(|&&(s, _)| !freed[s]).for_each(|&(_, d)| kept[d] = true);
            let more: Vec<bool> =
                (0..self.blocks()).map(|b| freed[b] || (self.allocated(b) && !self.root(b) && !kept[b])).collect();
            if more == freed {
                return freed;
            }
            freed = more;
        }
    }

    pub fn delete_tree(
        &mut self,
        port: Port,
        source: u16,
        credential: Credential,
        destination: u16,
        value: &mut u64,
    ) -> Answer {
        let (s, d) = (source as usize, destination as usize);
        self.removal_refusal(port, s, credential, d)?;
        let freed = self.freed_with(s, d);
        let blocks: Vec<usize> = (0..self.blocks()).filter(|&b| freed[b]).collect();
        refuse_if(blocks.iter().any(|&b| self.key(b, Writing).is_some()), HAS_WRITE_KEY)?;
        self.take_pointers(|from, to| (from, to) == (s, d) || freed[from]);
        blocks.iter().for_each(|&b| self.release(b));
        *value = blocks.len() as u64;
        Ok(())
    }

    /// KEY_READ or KEY_WRITE, by the operation whose key is set. Both need write access, and both close both windows.
    pub fn set_key(
        &mut self,
        operation: Operation,
        port: Port,
        block: u16,
        credential: Credential,
        key: Option<Key>,
    ) -> Answer {
        let b = block as usize;
        self.audit()?;
        refuse_if(!self.allocated(b), NO_BLOCK)?;
        refuse_if(self.root(b) && port == Port::Host, ROOT)?;
        refuse_if(!self.admitted(port, credential, b, Writing), NOT_OPENED)?;
        let (flag, at) = key_place(b, operation);
        self.flags[b] &= !flag;
        self.keys[at..at + 2].fill(0);
        if let Some(k) = key {
            self.flags[b] |= flag;
            self.keys[at] = k.high;
            self.keys[at + 1] = k.low;
        }
        self.windows[2 * b..2 * b + 2].fill(0);
        Ok(())
    }

    pub fn renew(&mut self, mode: u8, block: u16, key: Key, interval: u32) -> Answer {
        let b = block as usize;
        self.audit()?;
        refuse_if(mode > 1 || interval == 0 || interval as u64 > DAY, BAD_OPERAND)?;
        refuse_if(!self.allocated(b), NO_BLOCK)?;
        let operation = if mode == 0 { Reading } else { Writing };
        let keyed = self.key(b, operation).is_some();
        refuse_if(!keyed || !self.opens(Credential::Key(key), b, operation), NOT_OPENED)?;
        self.extend_window(b, operation, interval);
        Ok(())
    }

    pub fn force(&mut self, block: u16) -> Answer {
        let b = block as usize;
        self.audit()?;
        refuse_if(!self.allocated(b), NO_BLOCK)?;
        self.windows[2 * b..2 * b + 2].fill(0);
        Ok(())
    }

    pub fn count_free(&self, value: &mut u64) -> Answer {
        self.audit()?;
        *value = self.free_blocks() as u64;
        Ok(())
    }

    pub fn tick(&mut self, seconds: u64, value: &mut u64) -> Answer {
        self.audit()?;
        let time = self.time() as u128 + seconds as u128;
        refuse_if(time >= TIME_END as u128, CLOCK)?;
        let total = self.total() as u128 + seconds as u128 * self.rented_blocks() as u128;
        self.info[4] = time as u64;
        self.info[5] = u64::try_from(total).expect("a total of a sound card");
        *value = time as u64;
        Ok(())
    }

    pub fn rent(&self, price: u32, value: &mut u64) -> Answer {
        self.audit()?;
        refuse_if(price > HIGHEST_PRICE, PRICE_TOO_HIGH)?;
        *value = u64::try_from(cents(self.total(), price)).expect("cents of a sound card");
        Ok(())
    }

    /// Fills the lowest waiting blocks with zeros, so many at most, and makes them free.
    pub fn sweep(&mut self, most: u32, value: &mut u64) -> Answer {
        self.audit()?;
        let waiting = self.waiting_blocks();
        let swept = &waiting[..waiting.len().min(most as usize)];
        for &b in swept {
            self.flags[b] = 0;
            let part = self.part(b);
            self.contents[part].fill(0);
        }
        *value = swept.len() as u64;
        Ok(())
    }

    /// Any call at either port. RENEW and FORCE are a host's; FREE, TICK, AUDIT, RENT and SWEEP serve both ports alike.
    pub fn perform(&mut self, port: Port, call: &Call, lent: &mut Buffers) -> Answer {
        match call {
            Call::Read { block, credential, interval } => {
                self.read(port, *block, *credential, *interval, &mut lent.out)
            }
            Call::Write { block, credential, interval, data } => self.write(port, *block, *credential, *interval, data),
            Call::Alloc { reference, credential, hint, count } => {
                self.alloc(port, *reference, *credential, *hint, *count, &mut lent.places)
            }
            Call::AllocContig { reference, credential, hint, count } => {
                self.alloc_contig(port, *reference, *credential, *hint, *count, &mut lent.places)
            }
            Call::Create { source, source_credential, destination, destination_credential } => {
                self.create(port, *source, *source_credential, *destination, *destination_credential)
            }
            Call::Delete { source, credential, destination } => {
                self.delete(port, *source, *credential, *destination, &mut lent.value)
            }
            Call::DeleteTree { source, credential, destination } => {
                self.delete_tree(port, *source, *credential, *destination, &mut lent.value)
            }
            Call::KeyRead { block, credential, key } => self.set_key(Reading, port, *block, *credential, *key),
            Call::KeyWrite { block, credential, key } => self.set_key(Writing, port, *block, *credential, *key),
            Call::Renew { mode, block, key, interval } => self.renew(*mode, *block, *key, *interval),
            Call::Force { block } => self.force(*block),
            Call::Free => self.count_free(&mut lent.value),
            Call::Tick { seconds } => self.tick(*seconds, &mut lent.value),
            Call::Audit => self.audit(),
            Call::Rent { price } => self.rent(*price, &mut lent.value),
            Call::Sweep { most } => self.sweep(*most, &mut lent.value),
        }
    }

    // ---- Within reach ----

    /// Whether a block has both keys and neither of them is presented.
    pub fn sealed(&self, presented: &[Key], b: usize) -> bool {
        let hides = |k: Option<Key>| k.is_some_and(|k| !presented.contains(&k));
        hides(self.key(b, Reading)) && hides(self.key(b, Writing))
    }

    /// The blocks within reach of the presented keys, by the definition: the least set with its four rules.
    pub fn within_reach(&self, presented: &[Key]) -> Vec<bool> {
        let shown = |k: Option<Key>| k.is_some_and(|k| presented.contains(&k));
        let sealed: Vec<bool> = (0..self.blocks()).map(|b| self.sealed(presented, b)).collect();
        let starts = |b: usize| {
            (self.root(b) && !sealed[b])
                || shown(self.key(b, Reading))
                || shown(self.key(b, Writing))
                || self.window_open(b, Reading)
                || self.window_open(b, Writing)
        };
        let mut reach: Vec<bool> = (0..self.blocks()).map(|b| self.allocated(b) && starts(b)).collect();
        loop {
            let before = reach.clone();
            for &p in &self.pointers[..self.used()] {
                let (source, destination) = ends(p);
                if reach[source] && !sealed[destination] {
                    reach[destination] = true;
                }
            }
            if reach == before {
                return reach;
            }
        }
    }

    pub fn hidden(&self, presented: &[Key]) -> Vec<bool> {
        let reach = self.within_reach(presented);
        (0..self.blocks()).map(|b| self.allocated(b) && !reach[b]).collect()
    }

    // ---- The reach report ----

    /// The blocks within reach of the keys, ascending.
    pub fn reach_list(&self, keys: &[Key]) -> Vec<u16> {
        let reach = self.within_reach(keys);
        (0..self.blocks()).filter(|&b| reach[b]).map(|b| b as u16).collect()
    }

    /// The sealed blocks whose write key, added alone to the keys, brings the chosen block within reach, ascending.
    pub fn unlocking_list(&self, keys: &[Key], chosen: usize) -> Vec<u16> {
        let brings = |s: usize| {
            let added: Vec<Key> = keys.iter().copied().chain(self.key(s, Writing)).collect();
            self.within_reach(&added).get(chosen) == Some(&true)
        };
        (0..self.blocks()).filter(|&s| self.sealed(keys, s) && brings(s)).map(|s| s as u16).collect()
    }

    pub fn reach(&self, given: &[u64], places: &mut [u16], value: &mut u64) -> Answer {
        self.audit()?;
        let keys = given_keys(given).ok_or(BAD_OPERAND)?;
        let list = self.reach_list(&keys);
        refuse_if(places.len() < list.len(), BAD_OPERAND)?;
        put_list(&list, places, value);
        Ok(())
    }

    pub fn unlocking(&self, block: u16, given: &[u64], places: &mut [u16], value: &mut u64) -> Answer {
        let b = block as usize;
        self.audit()?;
        let keys = given_keys(given).ok_or(BAD_OPERAND)?;
        refuse_if(self.within_reach(&keys).get(b) == Some(&true), BAD_OPERAND)?;
        let list = self.unlocking_list(&keys, b);
        refuse_if(places.len() < list.len(), BAD_OPERAND)?;
        refuse_if(!self.allocated(b), NO_BLOCK)?;
        put_list(&list, places, value);
        Ok(())
    }
}

/// The cents of a total at a price, rounded to the nearest, a half upward: the whole cents of half a cent more.
pub fn cents(total: u64, price: u32) -> u128 {
    (2 * total as u128 * price as u128 + PER_CENT as u128) / (2 * PER_CENT as u128)
}

/// The keys of words, high and low in turn; None where these make no whole number of keys, or more than 64.
pub fn given_keys(words: &[u64]) -> Option<Vec<Key>> {
    let fits = words.len() % 2 == 0 && words.len() <= 2 * 64;
    fits.then(|| words.chunks(2).map(|pair| Key { high: pair[0], low: pair[1] }).collect())
}

/// The words of keys.
pub fn key_words(keys: &[Key]) -> Vec<u64> {
    keys.iter().flat_map(|k| [k.high, k.low]).collect()
}

/// A list into the first places, with its length as the result.
fn put_list(list: &[u16], places: &mut [u16], value: &mut u64) {
    places[..list.len()].copy_from_slice(list);
    *value = list.len() as u64;
}

pub fn ends(pointer: u32) -> (usize, usize) {
    ((pointer / 65_536) as usize, (pointer % 65_536) as usize)
}

pub fn word(source: usize, destination: usize) -> u32 {
    source as u32 * 65_536 + destination as u32
}

/// The flag of a block's key for the operation, and the place of the key's first word.
fn key_place(b: usize, operation: Operation) -> (u8, usize) {
    match operation {
        Reading => (READ_KEY, 4 * b),
        Writing => (WRITE_KEY, 4 * b + 2),
    }
}

// ---- Call records ----

/// Takes big-endian numbers from the front of a body; None where the body is cut short or ill formed.
struct Body<'a>(&'a [u8]);

impl<'a> Body<'a> {
    fn bytes(&mut self, count: usize) -> Option<&'a [u8]> {
        let (front, rest) = self.0.split_at_checked(count)?;
        self.0 = rest;
        Some(front)
    }
    fn number(&mut self, count: usize) -> Option<u64> {
        Some(self.bytes(count)?.iter().fold(0, |n, &byte| n * 256 + byte as u64))
    }
    fn block(&mut self) -> Option<u16> {
        self.number(2).map(|n| n as u16)
    }
    fn interval(&mut self) -> Option<u32> {
        self.number(4).map(|n| n as u32)
    }
    fn byte(&mut self) -> Option<u8> {
        self.number(1).map(|n| n as u8)
    }
    fn key(&mut self) -> Option<Key> {
        Some(Key { high: self.number(8)?, low: self.number(8)? })
    }
    fn zeros(&mut self, count: usize) -> Option<()> {
        self.bytes(count)?.iter().all(|&byte| byte == 0).then_some(())
    }
    fn credential(&mut self) -> Option<Credential> {
        match self.byte()? {
            0 => self.zeros(16).map(|()| Credential::Nothing),
            1 => {
                let reference = self.block()?;
                self.zeros(14).map(|()| Credential::Reference(reference))
            }
            2 => self.key().map(Credential::Key),
            _ => None,
        }
    }
    fn new_key(&mut self) -> Option<Option<Key>> {
        match self.byte()? {
            0 => self.zeros(16).map(|()| None),
            1 => self.key().map(Some),
            _ => None,
        }
    }
}

/// The credential of 17 bytes that are passed by themselves.
pub fn credential_of(bytes: &[u8]) -> Option<Credential> {
    (bytes.len() == 17).then(|| Body(bytes).credential())?
}

/// The new key or none of 17 bytes that are passed by themselves.
pub fn new_key_of(bytes: &[u8]) -> Option<Option<Key>> {
    (bytes.len() == 17).then(|| Body(bytes).new_key())?
}

/// The kinds of a host's records, each call once.
pub const HOST_KINDS: [u8; 14] = [1, 2, 3, 4, 5, 6, 7, 8, 9, 10, 11, 12, 13, 14];

/// The kinds of the service port: 128 more than the host's kind of the same call.
pub const SERVICE_KINDS: [u8; 9] = [129, 130, 131, 132, 133, 134, 140, 141, 142];

/// The port at which a record's call is performed, by the port of the wire on which the record came: a host's kinds are
/// a host's calls on either wire, and the service port's exist on the service wire alone.
fn call_port(wire: Port, kind: u8) -> Option<Port> {
    match wire {
        _ if HOST_KINDS.contains(&kind) => Some(Port::Host),
        Port::Service if SERVICE_KINDS.contains(&kind) => Some(Port::Service),
        _ => None,
    }
}

/// The call of a record on a wire and the call's port; None is refusal 13. Bytes past the body are not looked at.
pub fn decode(wire: Port, kind: u8, body: &[u8]) -> Option<(Port, Call)> {
    let port = call_port(wire, kind)?;
    let mut body = Body(body);
    let call = match kind % 128 {
        1 => Call::Read { block: body.block()?, credential: body.credential()?, interval: body.interval()? },
        2 => Call::Write {
            block: body.block()?,
            credential: body.credential()?,
            interval: body.interval()?,
            data: body.bytes(512)?.to_vec(),
        },
        3 => Call::Alloc {
            reference: body.block()?,
            credential: body.credential()?,
            hint: body.block()?,
            count: body.byte()?,
        },
        4 => Call::Create {
            source: body.block()?,
            source_credential: body.credential()?,
            destination: body.block()?,
            destination_credential: body.credential()?,
        },
        5 => Call::Delete { source: body.block()?, credential: body.credential()?, destination: body.block()? },
        6 => Call::KeyRead { block: body.block()?, credential: body.credential()?, key: body.new_key()? },
        7 => Call::Renew { mode: body.byte()?, block: body.block()?, key: body.key()?, interval: body.interval()? },
        8 => Call::Force { block: body.block()? },
        9 => Call::Free,
        10 => Call::Tick { seconds: body.number(8)? },
        12 => Call::AllocContig {
            reference: body.block()?,
            credential: body.credential()?,
            hint: body.block()?,
            count: body.byte()?,
        },
        13 => Call::KeyWrite { block: body.block()?, credential: body.credential()?, key: body.new_key()? },
        14 => Call::DeleteTree { source: body.block()?, credential: body.credential()?, destination: body.block()? },
        _ => Call::Audit,
    };
    Some((port, call))
}

/// One record on the wire of a port's number: 13 before anything else, then its call.
pub fn serve(card: &mut Card, wire: u8, kind: u8, body: &[u8], lent: &mut Buffers) -> Answer {
    let (port, call) = port_of(wire).and_then(|wire| decode(wire, kind, body)).ok_or(MALFORMED)?;
    card.perform(port, &call, lent)
}

// ---- Batches of call records ----

/// The length of a record's body by its kind; None for a kind that does not exist on the wire.
pub fn body_length(wire: Port, kind: u8) -> Option<usize> {
    call_port(wire, kind)?;
    Some(match kind % 128 {
        1 => 23,
        2 => 535,
        3 => 22,
        4 => 38,
        5 | 14 => 21,
        6 | 13 => 36,
        7 => 23,
        8 => 2,
        10 => 8,
        12 => 22,
        _ => 0,
    })
}

/// The record at the front of an input.
pub struct Record {
    pub kind: u8,
    pub port: Port,
    pub call: Call,
    /// With the byte of its kind.
    pub length: usize,
}

/// The next record on a wire, or why a batch stops here.
pub fn next_record(wire: Port, input: &[u8]) -> Result<Record, u32> {
    let Some((&kind, rest)) = input.split_first() else { return Err(0) };
    let length = body_length(wire, kind).ok_or(MALFORMED)?;
    let body = rest.get(..length).ok_or(CUT_SHORT)?;
    let (port, call) = decode(wire, kind, body).ok_or(MALFORMED)?;
    Ok(Record { kind, port, call, length: length + 1 })
}

/// The bytes that a batch lends to READ.
fn lent_bytes(card: &Card) -> usize {
    if card.info[2] > 65_536 {
        0
    } else {
        card.bytes()
    }
}

/// The room that must be left before a batch performs the call.
pub fn answer_room(card: &Card, call: &Call) -> usize {
    match call {
        Call::Read { .. } => 1 + lent_bytes(card),
        Call::Alloc { .. } | Call::AllocContig { .. } => 1 + 2 * 64,
        Call::Delete { .. } | Call::DeleteTree { .. } | Call::Free | Call::Tick { .. } => 1 + 8,
        _ => 1,
    }
}

/// Performs the call; its answer as a batch writes it.
pub fn answer_bytes(card: &mut Card, port: Port, call: &Call) -> Vec<u8> {
    let mut lent = Buffers { out: vec![0; lent_bytes(card)], places: vec![0; 64], value: 0 };
    let number = number(card.perform(port, call, &mut lent));
    let mut bytes = vec![number as u8];
    if number == 0 {
        match call {
            Call::Read { .. } => bytes.extend(&lent.out),
            Call::Alloc { count, .. } | Call::AllocContig { count, .. } => {
                bytes.extend(lent.places[..*count as usize].iter().flat_map(|p| p.to_be_bytes()))
            }
            Call::Delete { .. } | Call::DeleteTree { .. } | Call::Free | Call::Tick { .. } => {
                bytes.extend(lent.value.to_be_bytes())
            }
            _ => {}
        }
    }
    bytes
}

/// How far a batch went.
#[derive(Clone, Copy, Debug, PartialEq, Default)]
pub struct Progress {
    pub records: u64,
    pub read: u64,
    pub written: u64,
}

/// Serves the records of an input on the wire of a port's number, each with its own audit; why it stopped.
pub fn batch(card: &mut Card, wire: u8, input: &[u8], answers: &mut [u8], progress: &mut Progress) -> u32 {
    let Some(wire) = port_of(wire) else { return MALFORMED };
    if card.info.len() != RECORD {
        return SHAPE;
    }
    *progress = Progress::default();
    loop {
        let record = match next_record(wire, &input[progress.read as usize..]) {
            Ok(record) => record,
            Err(stop) => return stop,
        };
        let left = &mut answers[progress.written as usize..];
        if left.len() < answer_room(card, &record.call) {
            return NO_ROOM;
        }
        let answer = answer_bytes(card, record.port, &record.call);
        left[..answer.len()].copy_from_slice(&answer);
        progress.records += 1;
        progress.read += record.length as u64;
        progress.written += answer.len() as u64;
    }
}
