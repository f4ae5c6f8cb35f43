//! Secrecy: what a host sends, on two cards that differ only in the contents of hidden and unallocated blocks; the same
//! blocks wait on both.
//!
//! A session of calls, by function or by record; and bytes at the host port, as batches or record by record.

use crate::batch::{all_served, random_room};
use crate::library::{Direct, LentBatch, LentBuffers, Tables, HOST};
use crate::model::{
    body_length, decode, next_record, Buffers, Call, Card, Credential, Key, Port, Progress, Record, HAS_WRITE_KEY,
    HIGHEST_PRICE, MALFORMED, NO_ROOM, SERVICE_KINDS, WAITING,
};
use crate::random_call::{buffers, Chooser};
use crate::random_card::{random_card, Random, Size, KEYS};
use crate::reach::agrees;
use crate::wires::{spoil, starts, Sort};
use std::collections::BTreeMap;

/// The bytes of a block on these cards.
const BYTES: usize = 512;

fn part(b: usize) -> std::ops::Range<usize> {
    b * BYTES..(b + 1) * BYTES
}

#[derive(Default)]
pub struct Secrecy {
    pub sessions: u64,
    calls: u64,
    done: u64,
    hidden: u64,
    freed: u64,
    reads: u64,
    runs: u64,
    read_keys: u64,
    write_keys: u64,
    /// CREATE and DELETE that are done and leave M as it is.
    raised: u64,
    lowered: u64,
    /// Blocks freed by DELETE_TREE, and how often it was refused because of a write key.
    trees: u64,
    protected: u64,
    /// RENT that is done in a session and gives more than 0.
    rents: u64,
    /// Blocks that SWEEP overwrote in a session, and those of them with contents that differed.
    swept: u64,
    swept_differing: u64,
    /// The same of the SWEEP after the session, of all that wait.
    swept_after: u64,
    swept_after_differing: u64,
    /// Sessions in which the total grew, and those after which rent is due.
    grown: u64,
    due: u64,
}

impl Secrecy {
    pub fn summary(&self) -> String {
        format!(
            "{} sessions, {} calls ({} done, {} of them READ, {} ALLOC_CONTIG, {} KEY_READ, {} KEY_WRITE, {} CREATE and \
             {} DELETE of a pointer that stays, {} RENT of more than 0), {} blocks freed by DELETE_TREE ({} refused 15), {} \
             hidden blocks ({} of them freed by DELETE), {} blocks swept in sessions ({} of them differed) and {} after them \
             ({}), a total that grew in {} and rent due after {}, the same on both cards",
            self.sessions,
            self.calls,
            self.done,
            self.reads,
            self.runs,
            self.read_keys,
            self.write_keys,
            self.raised,
            self.lowered,
            self.rents,
            self.trees,
            self.protected,
            self.hidden,
            self.freed,
            self.swept,
            self.swept_differing,
            self.swept_after,
            self.swept_after_differing,
            self.grown,
            self.due
        )
    }

    pub fn missing(&self) -> Vec<String> {
        let mut missing = self.missing_by_record();
        missing.extend((self.rents == 0).then(|| "secrecy: RENT done".to_string()));
        missing.extend((self.swept_differing == 0).then(|| "secrecy: SWEEP of a block that differs".to_string()));
        missing
    }

    /// The same of records, which carry neither RENT nor SWEEP.
    fn missing_by_record(&self) -> Vec<String> {
        let seen = [
            ("a hidden block", self.hidden),
            ("a hidden block freed", self.freed),
            ("READ done", self.reads),
            ("ALLOC_CONTIG done", self.runs),
            ("KEY_READ done", self.read_keys),
            ("KEY_WRITE done", self.write_keys),
            ("CREATE done on a pointer that is there", self.raised),
            ("DELETE done of one of several", self.lowered),
            ("a block freed by DELETE_TREE", self.trees),
            ("DELETE_TREE refused 15", self.protected),
            ("SWEEP after a session of a block that differs", self.swept_after_differing),
            ("a total that grew", self.grown),
            ("rent due at the end", self.due),
        ];
        seen.iter().filter(|(_, count)| *count == 0).map(|(what, _)| format!("secrecy: {what}")).collect()
    }
}

pub fn presented_by(call: &Call) -> Vec<Key> {
    let key = |c: &Credential| match c {
        Credential::Key(k) => vec![*k],
        _ => vec![],
    };
    match call {
        Call::Read { credential, .. }
        | Call::Write { credential, .. }
        | Call::Alloc { credential, .. }
        | Call::AllocContig { credential, .. }
        | Call::Delete { credential, .. }
        | Call::DeleteTree { credential, .. }
        | Call::KeyRead { credential, .. }
        | Call::KeyWrite { credential, .. } => key(credential),
        Call::Create { source_credential, destination_credential, .. } => {
            [key(source_credential), key(destination_credential)].concat()
        }
        Call::Renew { key, .. } => vec![*key],
        _ => vec![],
    }
}

// ---- Two cards ----

/// A sound card with most windows closed and more blocks sealed than by chance, so that much is hidden.
fn starting_card(rnd: &mut Random) -> Result<Card, String> {
    let bytes = BYTES as u64;
    let size = Size { bytes, blocks: rnd.within(16, 32), roots: rnd.within(1, 3), places: rnd.within(20, 90) };
    let mut start = random_card(rnd, size);
    for b in 0..start.blocks() {
        if start.allocated(b) {
            if rnd.percent(80) {
                start.windows[2 * b..2 * b + 2].fill(start.info[4]);
            }
            if rnd.percent(40) {
                start.flags[b] = 7;
                for pair in start.keys[4 * b..4 * b + 4].chunks_mut(2) {
                    let key = rnd.of(&KEYS);
                    pair.copy_from_slice(&[key.high, key.low]);
                }
            }
        }
    }
    start.audit().map_err(|a| format!("the starting card is refused {a} by the model"))?;
    Ok(start)
}

/// Two cards, as they start and as they are lent.
struct Pair {
    start: Card,
    other: Card,
    /// By the keys that the session presents.
    hidden: Vec<bool>,
    one: Tables,
    two: Tables,
    /// Whether a DELETE took the block's last pointer.
    freed: Vec<bool>,
    /// Whether a SWEEP overwrote the block.
    swept: Vec<bool>,
}

fn of_two_cards(difference: String) -> String {
    difference.replace("library", "one card").replace("model", "the other")
}

impl Pair {
    /// The reach report must have the same blocks hidden on both.
    fn new(rnd: &mut Random, start: Card, presented: &[Key]) -> Result<Self, String> {
        let hidden = start.hidden(presented);
        let mut other = start.clone();
        for b in (0..start.blocks()).filter(|&b| hidden[b] || !start.allocated(b)) {
            rnd.fill(&mut other.contents[part(b)]);
        }
        let [freed, swept] = [(); 2].map(|()| vec![false; start.blocks()]);
        let (mut one, mut two) = (Tables::new(&start), Tables::new(&other));
        agrees(&mut one, &start, presented, &hidden)?;
        agrees(&mut two, &other, presented, &hidden)?;
        Ok(Pair { one, two, start, other, hidden, freed, swept })
    }

    /// SWEEP on both cards: what the buffers then hold, and how many of the blocks that it overwrote differed. These are the
    /// lowest that waited, and are zeros on both.
    fn sweep(&mut self, most: u32, lent: &Buffers) -> Result<(Buffers, u64), String> {
        let before = (self.one.card(), self.two.card());
        let (answer, after) = self.both(lent, |tables, buffers| tables.call(&Direct::Sweep { most }, buffers))?;
        if answer != 0 {
            return Err(format!("SWEEP is refused {answer}"));
        }
        let mut waiting = before.0.waiting_blocks();
        waiting.truncate(most as usize);
        if after.value != waiting.len() as u64 {
            return Err(format!("{} blocks are swept, not {}", after.value, waiting.len()));
        }
        let mut differing = 0;
        for b in waiting {
            let zeros = |tables: &Tables| tables.contents.values()[part(b)].iter().all(|&byte| byte == 0);
            if !zeros(&self.one) || !zeros(&self.two) || self.one.flags.values()[b] == WAITING {
                return Err(format!("block {b} is not overwritten, or still waits"));
            }
            differing += (before.0.contents[part(b)] != before.1.contents[part(b)]) as u64;
            self.swept[b] = true;
        }
        Ok((after, differing))
    }

    /// The same on both cards: the answer and what the buffers then hold, which must be equal.
    fn both(
        &mut self,
        lent: &Buffers,
        run: impl Fn(&mut Tables, &mut LentBuffers) -> u32,
    ) -> Result<(u32, Buffers), String> {
        let (mut first, mut second) = (LentBuffers::new(lent), LentBuffers::new(lent));
        let answers = (run(&mut self.one, &mut first), run(&mut self.two, &mut second));
        if answers.0 != answers.1 {
            return Err(format!("answers of the two cards differ: {} and {}", answers.0, answers.1));
        }
        let after = second.buffers();
        match first.difference(&after).or_else(|| second.difference(&after)) {
            Some(difference) => Err(format!("buffers of the two cards differ: {}", of_two_cards(difference))),
            None => Ok((answers.0, after)),
        }
    }

    /// Notes a call that was answered.
    fn note(&mut self, call: &Call, answer: u32, value: u64, seen: &mut Secrecy) {
        seen.calls += 1;
        if answer == 0 {
            seen.done += 1;
            seen.reads += matches!(call, Call::Read { .. }) as u64;
            seen.runs += matches!(call, Call::AllocContig { .. }) as u64;
            seen.read_keys += matches!(call, Call::KeyRead { .. }) as u64;
            seen.write_keys += matches!(call, Call::KeyWrite { .. }) as u64;
            seen.rents += (matches!(call, Call::Rent { .. }) && value > 0) as u64;
            if let Call::Delete { destination, .. } = call {
                self.freed[*destination as usize] |= value == 1;
            }
        }
        if matches!(call, Call::DeleteTree { .. }) {
            seen.trees += if answer == 0 { value } else { 0 };
            seen.protected += (answer == HAS_WRITE_KEY) as u64;
        }
    }

    /// The rent after the session, which must be the same on both.
    fn compare_rent(&mut self, seen: &mut Secrecy) -> Result<(), String> {
        let lent = Buffers { out: vec![], places: vec![], value: 0 };
        let rent = Direct::Rent { price: HIGHEST_PRICE };
        let (answer, after) = self.both(&lent, |tables, buffers| tables.call(&rent, buffers))?;
        if answer != 0 {
            return Err(format!("RENT after the session is refused {answer}"));
        }
        seen.grown += (self.one.card().total() > self.start.total()) as u64;
        seen.due += (after.value > 0) as u64;
        Ok(())
    }

    /// The cards after the session: equal but for blocks that are still hidden or unallocated, and the hidden ones kept:
    /// only a DELETE frees one. The total is in the record, and so the same. What waits is then swept, and so the same.
    fn compare_after(&mut self, seen: &mut Secrecy) -> Result<(), String> {
        self.compare_rent(seen)?;
        let lent = Buffers { out: vec![], places: vec![], value: 0 };
        let (after, differing) = self.sweep(u32::MAX, &lent).map_err(|e| format!("after the session: {e}"))?;
        seen.swept_after += after.value;
        seen.swept_after_differing += differing;
        let (first, second) = (self.one.card(), self.two.card());
        if let Some(difference) = self.one.difference_but_contents(&second) {
            return Err(format!("after the session the two cards' tables differ: {}", of_two_cards(difference)));
        }
        for b in 0..self.start.blocks() {
            let (one, two) = (&first.contents[part(b)], &second.contents[part(b)]);
            let (hidden, freed) = (self.hidden[b], self.freed[b]);
            let differed = hidden || !self.start.allocated(b);
            // A block that was freed or unallocated is filled with zeros when it is swept or allotted.
            let may_differ = differed && (hidden && !freed || !second.allocated(b)) && !self.swept[b];
            if !may_differ && one != two {
                return Err(format!("block {b} differs after the session"));
            }
            if hidden && !freed && !second.allocated(b) {
                return Err(format!("hidden block {b} was freed, though no DELETE took its last pointer"));
            }
            if hidden && !freed && (one != &self.start.contents[part(b)] || two != &self.other.contents[part(b)]) {
                return Err(format!("hidden block {b} lost its contents"));
            }
            seen.hidden += hidden as u64;
            seen.freed += (hidden && freed) as u64;
        }
        seen.sessions += 1;
        Ok(())
    }
}

// ---- Sessions of calls ----

/// A host's calls with what is lent to them, chosen along the model's card, of which they see no contents. Notes the
/// CREATE and DELETE that leave M there as it is.
fn random_session(rnd: &mut Random, start: &Card, seen: &mut Secrecy) -> Result<Vec<(Direct, Call, Buffers)>, String> {
    let known: Vec<Key> = (0..rnd.below(5)).map(|_| rnd.of(&KEYS)).collect();
    let chooser = Chooser::any(true, &known);
    let mut guide = start.clone();
    let mut session = Vec::new();
    for _ in 0..rnd.within(10, 60) {
        let direct = chooser.call(rnd, &guide);
        let lent = buffers(rnd, &guide, Some(&direct));
        let (port, call) = direct.plain().ok_or("a host call of the session is ill formed")?;
        let used = guide.used();
        let stays = guide.perform(port, &call, &mut lent.clone()).is_ok() && guide.used() == used;
        seen.raised += (stays && matches!(call, Call::Create { .. })) as u64;
        seen.lowered += (stays && matches!(call, Call::Delete { .. })) as u64;
        session.push((direct, call, lent));
    }
    Ok(session)
}

/// One session of calls.
pub fn secrecy(rnd: &mut Random, seen: &mut Secrecy) -> Result<(), String> {
    let start = starting_card(rnd)?;
    let session = random_session(rnd, &start, seen)?;
    let presented: Vec<Key> = session.iter().flat_map(|(_, call, _)| presented_by(call)).collect();
    let mut pair = Pair::new(rnd, start, &presented)?;
    let by_record = rnd.percent(50);
    for (i, (direct, call, lent)) in session.iter().enumerate() {
        let report = |d| format!("call {} of the session: {call:?}\n  {d}", i + 1);
        let answered = match (direct.record().filter(|_| by_record), call) {
            (Some((kind, body)), _) => pair.both(lent, |tables, buffers| tables.serve(HOST, kind, &body, buffers)),
            (None, Call::Sweep { most }) => pair.sweep(*most, lent).map(|(after, differing)| {
                seen.swept += after.value;
                seen.swept_differing += differing;
                (0, after)
            }),
            (None, _) => pair.both(lent, |tables, buffers| tables.call(direct, buffers)),
        };
        let (answer, after) = answered.map_err(report)?;
        pair.note(call, answer, after.value, seen);
    }
    pair.compare_after(seen)
}

// ---- Bytes ----

#[derive(Default)]
pub struct ByteSecrecy {
    pub counts: Secrecy,
    /// By whether they were served as a batch, and why that stopped.
    stops: BTreeMap<(bool, u32), u64>,
    /// Batches without room for a record that presents a key, and that ended there.
    keys_without_room: u64,
    /// Inputs with a record of the service port.
    with_service_kind: u64,
}

/// The stops that can occur by record and by batch. A record cut short is malformed by itself.
const STOPS: [(bool, u32); 6] =
    [(false, 0), (false, MALFORMED), (true, 0), (true, MALFORMED), (true, 256), (true, NO_ROOM)];

impl ByteSecrecy {
    pub fn summary(&self) -> String {
        let stops = |by_batch| {
            let these = self.stops.iter().filter(|((batch, _), _)| *batch == by_batch);
            these.map(|((_, stop), count)| format!("{count} at {stop}")).collect::<Vec<_>>().join(", ")
        };
        format!(
            "{}, {} sent a service record, stops by batch: {} ({} before a key), by record: {}",
            self.counts.summary(),
            self.with_service_kind,
            stops(true),
            self.keys_without_room,
            stops(false)
        )
    }

    pub fn missing(&self) -> Vec<String> {
        let mut missing = self.counts.missing_by_record();
        missing.extend(STOPS.iter().filter(|stop| !self.stops.contains_key(stop)).map(|stop| format!("stop {stop:?}")));
        if self.keys_without_room == 0 || self.with_service_kind == 0 {
            missing.push("a key for which there is no room, or a service record".to_string());
        }
        missing.iter().map(|m| format!("bytes: {m}")).collect()
    }

    fn stop(&mut self, by_batch: bool, stop: u32) {
        *self.stops.entry((by_batch, stop)).or_default() += 1;
    }
}

/// The whole records at the front of bytes at the host port.
fn whole_records(input: &[u8]) -> Vec<Record> {
    let mut records = Vec::new();
    let mut rest = input;
    while let Ok(record) = next_record(Port::Host, rest) {
        rest = &rest[record.length..];
        records.push(record);
    }
    records
}

fn presented_by_records(input: &[u8]) -> Vec<Key> {
    whole_records(input).iter().flat_map(|record| presented_by(&record.call)).collect()
}

/// A host's records, of which one may be spoilt or made one of the service port.
fn host_bytes(rnd: &mut Random, start: &Card, seen: &mut ByteSecrecy) -> Result<Vec<u8>, String> {
    let session = random_session(rnd, start, &mut seen.counts)?;
    let records = session.iter().filter_map(|(direct, _, _)| direct.record());
    let mut input: Vec<u8> = records.flat_map(|(kind, body)| [vec![kind], body].concat()).collect();
    match rnd.below(10) {
        0..=3 => {}
        4..=7 => {
            let sort = rnd.of(&[Sort::Flipped, Sort::Cut, Sort::Inserted]);
            spoil(rnd, Port::Host, sort, &mut input);
        }
        _ => {
            let mut starts = starts(Port::Host, &input);
            starts.retain(|&at| input.get(at).is_some_and(|&kind| SERVICE_KINDS.contains(&(kind + 128))));
            if !starts.is_empty() {
                input[rnd.of(&starts)] += 128;
                seen.with_service_kind += 1;
            }
        }
    }
    Ok(input)
}

/// The bytes of a done call's results in the answers of a batch.
fn results_length(call: &Call) -> usize {
    match call {
        Call::Read { .. } => BYTES,
        Call::Alloc { count, .. } | Call::AllocContig { count, .. } => 2 * *count as usize,
        Call::Delete { .. } | Call::DeleteTree { .. } | Call::Free | Call::Tick { .. } => 8,
        _ => 0,
    }
}

impl Pair {
    /// One batch on both cards: the stop, the answers and the three numbers, which must be equal.
    fn batch(&mut self, rnd: &mut Random, input: &[u8], room: usize) -> Result<(u32, Vec<u8>, Progress), String> {
        let numbers = Progress { records: rnd.next(), read: rnd.next(), written: rnd.next() };
        let lent = rnd.bytes(room);
        let (mut first, mut second) = (LentBatch::new(input, &lent, numbers), LentBatch::new(input, &lent, numbers));
        let stops = (self.one.batch(HOST, &mut first), self.two.batch(HOST, &mut second));
        if stops.0 != stops.1 {
            return Err(format!("stops of the two cards differ: {} and {}", stops.0, stops.1));
        }
        let (answers, progress) = (second.answers.values().to_vec(), second.progress());
        let difference = first.difference(input, &answers, progress);
        match difference.or_else(|| second.difference(input, &answers, progress)) {
            Some(difference) => Err(format!("batches on the two cards differ: {}", of_two_cards(difference))),
            None => Ok((stops.0, answers, progress)),
        }
    }

    /// Notes the calls that a batch answered, by the answers.
    fn note_answers(&mut self, input: &[u8], answers: &[u8], progress: Progress, seen: &mut Secrecy) -> Option<()> {
        let (mut read, mut written) = (0, 0);
        for _ in 0..progress.records {
            let record = next_record(Port::Host, input.get(read..)?).ok()?;
            let answer = *answers.get(written)?;
            let length = if answer == 0 { results_length(&record.call) } else { 0 };
            let results = answers.get(written + 1..written + 1 + length)?;
            let value = results.iter().take(8).fold(0, |n, &byte| n << 8 | byte as u64);
            self.note(&record.call, answer as u32, value, seen);
            read += record.length;
            written += 1 + length;
        }
        (progress.read == read as u64 && progress.written == written as u64).then_some(())
    }

    /// The bytes as batches with room by chance: where there was none, the next goes on from there or the session ends.
    fn batches(&mut self, rnd: &mut Random, input: &[u8], seen: &mut ByteSecrecy) -> Result<(), String> {
        let mut rest = input;
        loop {
            let room = random_room(rnd, &all_served(&self.one.card(), HOST, rest));
            let (stop, answers, progress) = self.batch(rnd, rest, room)?;
            self.note_answers(rest, &answers, progress, &mut seen.counts)
                .ok_or_else(|| format!("the answers of the batch are not those of its records, {progress:?}"))?;
            rest = &rest[progress.read as usize..];
            if stop != NO_ROOM || rnd.percent(50) {
                seen.stop(true, stop);
                seen.keys_without_room += (stop == NO_ROOM && !presented_by_records(rest).is_empty()) as u64;
                return Ok(());
            }
        }
    }

    /// The bytes record by record, until one is malformed.
    fn records(&mut self, rnd: &mut Random, input: &[u8], seen: &mut ByteSecrecy) -> Result<(), String> {
        let mut rest = input;
        while let Some((&kind, behind)) = rest.split_first() {
            let call = decode(Port::Host, kind, behind).map(|(_, call)| call);
            let direct = call.as_ref().map(|call| Direct::from(Port::Host, call));
            let lent = buffers(rnd, &self.start, direct.as_ref());
            let (answer, after) = self.both(&lent, |tables, buffers| tables.serve(HOST, kind, behind, buffers))?;
            match (call, body_length(Port::Host, kind)) {
                (Some(call), Some(length)) => {
                    self.note(&call, answer, after.value, &mut seen.counts);
                    rest = &behind[length..];
                }
                _ if answer == MALFORMED => {
                    seen.stop(false, MALFORMED);
                    return Ok(());
                }
                _ => return Err(format!("a malformed record of kind {kind} is answered {answer}")),
            }
        }
        seen.stop(false, 0);
        Ok(())
    }
}

/// One session of bytes. Blocks are hidden by the keys of all whole records, also of those without room.
pub fn byte_secrecy(rnd: &mut Random, seen: &mut ByteSecrecy) -> Result<(), String> {
    let start = starting_card(rnd)?;
    let input = host_bytes(rnd, &start, seen)?;
    let mut pair = Pair::new(rnd, start, &presented_by_records(&input))?;
    if rnd.percent(60) {
        pair.batches(rnd, &input, seen)?;
    } else {
        pair.records(rnd, &input, seen)?;
    }
    pair.compare_after(&mut seen.counts)
}
