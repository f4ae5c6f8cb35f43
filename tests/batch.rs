//! Batches of call records: the library with one audit for all of them, the model with one for each.

use crate::damage::{damage, DAMAGES, SHAPE_DAMAGES};
use crate::library::{Direct, LentBatch, Tables};
use crate::model::{
    self, answer_bytes, answer_room, body_length, decode, next_record, port_of, Card, Port, Progress, CUT_SHORT,
    MALFORMED, NO_ROOM, RECORD, SERVICE_KINDS, SHAPE,
};
use crate::random_call::{spoilt_record, Chooser};
use crate::random_card::{random_card, Random, Size, KEYS};
use std::collections::BTreeMap;

/// Each stop must be reached more often than that in a thousand batches.
const LEAST_IN_THOUSAND: u64 = 20;

const STOPS: [u32; 5] = [0, SHAPE, MALFORMED, CUT_SHORT, NO_ROOM];

#[derive(Default)]
pub struct Batches {
    pub batches: u64,
    pub cards: u64,
    pub damaged: u64,
    pub records: u64,
    pub done: u64,
    stops: BTreeMap<u32, u64>,
    /// By port, kind and whether it was done.
    answers: BTreeMap<(Port, u8, bool), u64>,
    /// Malformed or cut records found with no byte of the answers left.
    without_room: u64,
}

impl Batches {
    pub fn stops(&self) -> String {
        let counts = STOPS.map(|stop| format!("{} at {stop}", self.stop(stop)));
        counts.join(", ")
    }

    fn stop(&self, stop: u32) -> u64 {
        self.stops.get(&stop).copied().unwrap_or(0)
    }

    /// What can occur and did not, or not often.
    pub fn missing(&self) -> Vec<String> {
        let mut missing = Vec::new();
        let least = self.batches * LEAST_IN_THOUSAND / 1_000;
        for stop in STOPS.into_iter().filter(|&stop| self.stop(stop) <= least) {
            missing.push(format!("batch: stop {stop} more than {least} times"));
        }
        for wire in [Port::Host, Port::Service] {
            for kind in (0..=255).filter(|&kind| body_length(wire, kind).is_some()) {
                for done in [false, true].into_iter().filter(|&done| !self.answers.contains_key(&(wire, kind, done))) {
                    missing.push(format!("batch: kind {kind} at {wire:?} done {done}"));
                }
            }
        }
        if self.without_room <= least {
            missing.push(format!("batch: a record malformed or cut without room more than {least} times"));
        }
        missing
    }
}

// ---- The input ----

pub fn put(input: &mut Vec<u8>, (kind, body): (u8, Vec<u8>)) {
    input.push(kind);
    input.extend(body);
}

/// A random call in the form of a record; None where it has none.
pub fn random_record(rnd: &mut Random, card: &Card) -> Option<(u8, Vec<u8>)> {
    let mut call = Chooser::any(false, &KEYS).call(rnd, card);
    if let Direct::Write { data, .. } = &mut call {
        data.resize(512, 0);
    }
    call.record()
}

/// A record with the length of its kind and a credential of no known form.
fn malformed_record(rnd: &mut Random) -> (u8, Vec<u8>) {
    let kind = rnd.of(&SERVICE_KINDS) - rnd.of(&[0, 128]);
    let mut body = vec![0; body_length(Port::Service, kind).unwrap()];
    match rnd.below(3) {
        0 => body[2] = rnd.of(&[3, 4, 128, 255]),
        1 => body[rnd.within(3, 18) as usize] = 1,
        _ => (body[2], body[rnd.within(5, 18) as usize]) = (1, 128),
    }
    (kind, body)
}

/// Records of kinds that the wire has and that fit the card as the ones before leave it.
pub fn put_records(rnd: &mut Random, card: &Card, wire: Port, count: u64, input: &mut Vec<u8>) {
    let mut ahead = card.clone();
    for _ in 0..count {
        if let Some((kind, body)) = random_record(rnd, &ahead) {
            if let Some((port, call)) = decode(wire, kind, &body) {
                answer_bytes(&mut ahead, port, &call);
                put(input, (kind, body));
            }
        }
    }
}

/// What stands behind the records: nothing, a record cut short, a malformed one, or bytes by chance. Its kind may be one
/// that the wire has not.
fn put_ending(rnd: &mut Random, card: &Card, wire: Port, input: &mut Vec<u8>) {
    let start = input.len();
    match rnd.below(12) {
        0..=5 => return,
        6 | 7 => put(input, random_record(rnd, card).unwrap_or((10, vec![0; 8]))),
        8 => put(input, malformed_record(rnd)),
        9 | 10 => {
            let record = if rnd.percent(60) {
                malformed_record(rnd)
            } else {
                let call = Chooser::any(false, &KEYS).call(rnd, card);
                spoilt_record(rnd, &call)
            };
            put(input, record);
            if rnd.percent(50) {
                put_records(rnd, card, wire, 2, input);
            }
            return;
        }
        _ => {
            let count = rnd.within(1, 60) as usize;
            input.extend(rnd.bytes(count));
            return;
        }
    }
    // Cut within the record, often by one byte or behind its kind.
    let length = input.len() - start;
    let some = rnd.within(1, length as u64) as usize;
    let kept = rnd.of(&[1, length - 1, some]);
    input.truncate(start + kept);
}

// ---- The room ----

/// A record that can be served, where there is room.
pub struct Served {
    kind: u8,
    pub done: bool,
    /// The least length of the answers at which it is served, if those before it are.
    pub room: usize,
}

pub fn all_served(card: &Card, wire: u8, input: &[u8]) -> Vec<Served> {
    let mut served = Vec::new();
    let Some(wire) = port_of(wire).filter(|_| card.info.len() == RECORD) else { return served };
    let mut card = card.clone();
    let (mut read, mut written) = (0, 0);
    while let Ok(record) = next_record(wire, &input[read..]) {
        let room = written + answer_room(&card, &record.call);
        let answer = answer_bytes(&mut card, record.port, &record.call);
        served.push(Served { kind: record.kind, done: answer[0] == 0, room });
        read += record.length;
        written += answer.len();
    }
    served
}

/// A length of answers from none to ample, often just enough for some record or one less.
pub fn random_room(rnd: &mut Random, served: &[Served]) -> usize {
    let most = served.iter().map(|s| s.room).max().unwrap_or(0);
    let some = if served.is_empty() { 1 } else { served[rnd.below(served.len() as u64) as usize].room };
    match rnd.below(20) {
        0 => 0,
        1 | 2 => rnd.below(most as u64 + 1) as usize,
        3 | 4 => some - 1,
        5 => some,
        6 => most.saturating_sub(1),
        7..=13 => most,
        14 => most + 1,
        _ => most + rnd.below(700) as usize,
    }
}

// ---- Library against model ----

/// One batch on model and library with so much room; why it stopped and how far it went, or the difference.
pub fn compare(
    rnd: &mut Random,
    card: &mut Card,
    wire: u8,
    input: &[u8],
    room: usize,
) -> Result<(u32, Progress), String> {
    let mut answers = rnd.bytes(room);
    let mut progress = Progress { records: rnd.next(), read: rnd.next(), written: rnd.next() };
    let mut tables = Tables::new(card);
    let mut lent = LentBatch::new(input, &answers, progress);

    let expected = model::batch(card, wire, input, &mut answers, &mut progress);
    let given = tables.batch(wire, &mut lent);
    let difference = if given != expected {
        Some(format!("stop: library {given}, model {expected}"))
    } else {
        lent.difference(input, &answers, progress).or_else(|| tables.difference(card))
    };
    match difference {
        None => Ok((expected, progress)),
        Some(difference) => Err(format!(
            "port {wire}, {} bytes of input, {room} of answers\n  {difference}\n  model: stop {expected}, {progress:?}",
            input.len()
        )),
    }
}

fn one_batch(rnd: &mut Random, card: &mut Card, wire: Port, input: &[u8], seen: &mut Batches) -> Result<(), String> {
    let served = all_served(card, wire as u8, input);
    let room = random_room(rnd, &served);
    let (stop, progress) = compare(rnd, card, wire as u8, input, room).map_err(|difference| {
        let kinds: Vec<u8> = served.iter().map(|s| s.kind).collect();
        format!("kinds {kinds:?}, {difference}")
    })?;

    seen.batches += 1;
    *seen.stops.entry(stop).or_default() += 1;
    if stop == SHAPE {
        return Ok(());
    }
    seen.records += progress.records;
    for s in &served[..progress.records as usize] {
        seen.done += s.done as u64;
        *seen.answers.entry((wire, s.kind, s.done)).or_default() += 1;
    }
    if [MALFORMED, CUT_SHORT].contains(&stop) && progress.written as usize == room {
        seen.without_room += 1;
    }
    Ok(())
}

/// A copy of the sound card with something about it damaged, and what; None where it stays sound.
pub fn perhaps_damaged(rnd: &mut Random, card: &Card) -> Result<Option<(&'static str, Card)>, String> {
    let mut damaged = card.clone();
    let note = match rnd.below(100) {
        0..=11 => {
            damaged.info.resize(rnd.of(&[0, 1, 2, 3, 4, 5, 7, 8, 10]), 0);
            Some("record of another length")
        }
        12..=21 => {
            let which = rnd.below(DAMAGES.len() as u64) as usize;
            let place = damage(rnd, &mut damaged, which);
            let expected = if which < SHAPE_DAMAGES { model::SHAPE } else { model::UNSOUND };
            if place && damaged.audit() != Err(expected) {
                return Err(format!("{}: the model has not refused it {expected}", DAMAGES[which]));
            }
            place.then_some(DAMAGES[which])
        }
        22..=24 => {
            // The room for READ goes by this number, whether or not the tables have the length for it.
            damaged.info[2] = rnd.of(&[0, 256, 65_536, 65_537, 131_072, 1 << 63, u64::MAX]);
            (damaged.info[2] != card.info[2]).then_some("another B")
        }
        _ => None,
    };
    Ok(note.map(|note| (note, damaged)))
}

/// Batches on one card, each on what the one before left, and some on damaged copies of it.
pub fn batches(rnd: &mut Random, size: Size, count: u64, most: u64, seen: &mut Batches) -> Result<(), String> {
    let mut card = random_card(rnd, size);
    seen.cards += 1;
    for ordinal in 1..=count {
        let wire = if rnd.percent(40) { Port::Host } else { Port::Service };
        let mut input = Vec::new();
        let records = rnd.below(most + 1);
        put_records(rnd, &card, wire, records, &mut input);
        put_ending(rnd, &card, wire, &mut input);
        let damaged = perhaps_damaged(rnd, &card).map_err(|e| format!("batch {ordinal}: {e}"))?;
        let report = |note: &str, difference| format!("batch {ordinal} on the card ({note}): {difference}");
        if let Some((note, mut damaged)) = damaged {
            seen.damaged += 1;
            one_batch(rnd, &mut damaged, wire, &input, seen).map_err(|d| report(note, d))?;
        } else {
            one_batch(rnd, &mut card, wire, &input, seen).map_err(|d| report("sound", d))?;
            if card.audit().is_err() {
                return Err(report("sound", "the card is no longer sound by the model".to_string()));
            }
        }
    }
    Ok(())
}
