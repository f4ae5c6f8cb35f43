//! Bytes on the wires of the ports, by `negvask_batch` and by `negvask_serve`.
//!
//! - Bytes by chance, and records with something about them spoilt, at ports 0, 1, 2 and 255: library against model.
//! - A record of the service port in every place among a host's, whole and cut short: at the host port a batch stops
//!   there with 13, with the records before it performed and nothing of it done; at the service port it is taken.
//! - Each of the 256 kinds at both ports, those that exist with every number of bytes behind them up to one more than
//!   the body has: where the batch stops, and why.
//! - Every number that no port has: 13, and nothing changes.

use crate::batch::{all_served, compare, perhaps_damaged, put, put_records, random_record, random_room};
use crate::damage::{damage, DAMAGES};
use crate::library::{LentBatch, LentBuffers, Tables, HOST, SERVICE};
use crate::model::{
    self, body_length, next_record, number, port_of, Buffers, Card, Port, Progress, CUT_SHORT, HOST_KINDS, MALFORMED,
    NO_ROOM, SERVICE_KINDS, SHAPE,
};
use crate::random_card::{random_card, Random, Size};
use std::collections::{BTreeMap, BTreeSet};

/// A small card, since every step compares the whole of it.
fn small_card(rnd: &mut Random) -> Card {
    let size = Size { bytes: 512, blocks: rnd.within(16, 20), roots: rnd.within(1, 3), places: rnd.within(10, 60) };
    random_card(rnd, size)
}

// ---- Bytes ----

/// How the bytes of an input are made.
#[derive(Clone, Copy, Debug, PartialEq, Eq, PartialOrd, Ord)]
pub enum Sort {
    /// Any bytes.
    Chance,
    /// Kinds, each with a body of its length that is zero but for a few bytes; the last may be cut short.
    Bodies,
    /// Records that fit the card, and one byte of them with one bit changed.
    Flipped,
    /// Records that fit the card without their end.
    Cut,
    /// Records that fit the card, and one byte more.
    Inserted,
}

/// The sorts, and how often: few bytes by chance are records.
const SORTS: [(Sort, u64); 5] =
    [(Sort::Chance, 4), (Sort::Bodies, 1), (Sort::Flipped, 1), (Sort::Cut, 1), (Sort::Inserted, 1)];

/// The numbers of the ports that the bytes are sent to, and how often: both, and two that are none.
const WIRES: [(u8, u64); 4] = [(HOST, 3), (SERVICE, 3), (2, 1), (255, 1)];

fn random_bytes(rnd: &mut Random, card: &Card, wire: Port, sort: Sort) -> Vec<u8> {
    let mut input = Vec::new();
    match sort {
        Sort::Chance => {
            let most = rnd.of(&[2, 30, 700]);
            let count = rnd.below(most) as usize;
            input = rnd.bytes(count);
        }
        Sort::Bodies => {
            (0..rnd.below(8)).for_each(|_| put(&mut input, body_by_chance(rnd)));
            if rnd.percent(30) {
                input.truncate(input.len().saturating_sub(rnd.within(1, 20) as usize));
            }
        }
        _ => {
            // Now and then the other port's records, too.
            let sender = if rnd.percent(25) { Port::Service } else { wire };
            let count = rnd.within(1, 8);
            put_records(rnd, card, sender, count, &mut input);
            spoil(rnd, sender, sort, &mut input);
        }
    }
    input
}

/// A kind, most often one that a host may send, and a body of its length.
fn body_by_chance(rnd: &mut Random) -> (u8, Vec<u8>) {
    let kind = if rnd.percent(85) { rnd.of(&HOST_KINDS) } else { rnd.of(&SERVICE_KINDS) };
    let mut body = vec![0; body_length(Port::Service, kind).unwrap()];
    for _ in 0..rnd.below(4).min(body.len() as u64) {
        let at = rnd.below(body.len().min(60) as u64) as usize;
        body[at] = rnd.of(&[1, 2, 3, 16, 255, rnd.0 as u8]);
    }
    (kind, body)
}

/// Where the whole records at the front of the input begin, and where they end.
pub fn starts(wire: Port, input: &[u8]) -> Vec<usize> {
    let mut starts = vec![0];
    while let Ok(record) = next_record(wire, &input[starts[starts.len() - 1]..]) {
        starts.push(starts[starts.len() - 1] + record.length);
    }
    starts
}

/// A place in a record of the input, its kind or one of the bytes behind, but seldom in the data of WRITE.
fn place(rnd: &mut Random, wire: Port, input: &[u8]) -> usize {
    let within = rnd.of(&[1, 4, 60]);
    let place = rnd.of(&starts(wire, input)) + rnd.below(within) as usize;
    place.min(input.len())
}

/// Spoils records of the wire by their sort; an empty input has nothing to spoil but by a byte more.
pub fn spoil(rnd: &mut Random, wire: Port, sort: Sort, input: &mut Vec<u8>) {
    let at = place(rnd, wire, input);
    match sort {
        Sort::Flipped if at < input.len() => input[at] ^= 1 << rnd.below(8),
        Sort::Cut => input.truncate(at),
        Sort::Inserted => input.insert(at, rnd.of(&[0, 1, 9, 11, 12, 13, 14, 131, 134, 140, 141, 142, rnd.0 as u8])),
        _ => {}
    }
}

/// The front of an input, for a report.
fn front(input: &[u8]) -> String {
    format!("{:?} of {} bytes", &input[..input.len().min(60)], input.len())
}

// ---- Bytes against the model ----

#[derive(Default)]
pub struct Bytes {
    inputs: u64,
    /// Records that were performed, by batch and by record.
    records: u64,
    done: u64,
    /// By sort, wire and why the batch stopped.
    stops: BTreeMap<(Sort, u8, u32), u64>,
}

/// Why a batch of such bytes can stop at a port.
fn possible(sort: Sort, wire: u8) -> Vec<u32> {
    match (sort, wire) {
        // What is left of well-formed records is well formed, and the service port has all kinds.
        (Sort::Cut, SERVICE) => vec![0, SHAPE, CUT_SHORT, NO_ROOM],
        (_, HOST | SERVICE) => vec![0, SHAPE, MALFORMED, CUT_SHORT, NO_ROOM],
        _ => vec![MALFORMED],
    }
}

impl Bytes {
    fn count(&self, wanted: impl Fn(&(Sort, u8, u32)) -> bool) -> u64 {
        self.stops.iter().filter(|(place, _)| wanted(place)).map(|(_, count)| count).sum()
    }

    pub fn summary(&self) -> String {
        let wires = WIRES.map(|(wire, _)| format!("{} at port {wire}", self.count(|place| place.1 == wire)));
        let stops = [0, SHAPE, MALFORMED, CUT_SHORT, NO_ROOM]
            .map(|stop| format!("{} at {stop}", self.count(|place| place.1 <= SERVICE && place.2 == stop)));
        format!(
            "bytes: {} inputs by batch and by record ({}), {} records ({} done), stops at ports 0 and 1: {}, no difference",
            self.inputs,
            wires.join(", "),
            self.records,
            self.done,
            stops.join(", ")
        )
    }

    pub fn missing(&self) -> Vec<String> {
        let mut missing = Vec::new();
        for (sort, _) in SORTS {
            for (wire, _) in WIRES {
                let stops = possible(sort, wire);
                for stop in stops.iter().filter(|&&stop| !self.stops.contains_key(&(sort, wire, stop))) {
                    missing.push(format!("bytes: {sort:?} at port {wire}, stop {stop}"));
                }
            }
        }
        if self.done == 0 {
            missing.push("bytes: a record done".to_string());
        }
        missing
    }
}

/// The bytes record by record, as they come from a wire, until one is refused 13; how many were performed, and done.
fn by_serve(rnd: &mut Random, card: &mut Card, wire: u8, input: &[u8]) -> Result<(u64, u64), String> {
    let mut tables = Tables::new(card);
    let (mut rest, mut records, mut done) = (input, 0, 0);
    while let Some((&kind, behind)) = rest.split_first() {
        let length = port_of(wire).and_then(|wire| body_length(wire, kind)).unwrap_or(behind.len()).min(behind.len());
        // What stands behind the body must not matter.
        let body = if rnd.percent(50) { behind } else { &behind[..length] };
        let out = rnd.of(&[512, 512, 512, 0, 511, 513]);
        let lent = Buffers { out: rnd.bytes(out), places: vec![0xEEEE; 64], value: rnd.next() };
        let (mut expected, mut buffers) = (lent.clone(), LentBuffers::new(&lent));
        let answer = number(model::serve(card, wire, kind, body, &mut expected));
        let given = tables.serve(wire, kind, body, &mut buffers);
        crate::compare("by record", given, answer, &tables, card, &buffers, &expected)
            .map_err(|d| format!("port {wire}, record {} of kind {kind}: {d}", records + 1))?;
        if answer == MALFORMED {
            break;
        }
        records += 1;
        done += (answer == 0) as u64;
        rest = &behind[length..];
    }
    Ok((records, done))
}

/// Bytes of a sort at a port, on the card as it is or on a damaged copy of it.
fn bytes_at(rnd: &mut Random, card: &Card, sort: Sort, wire: u8, seen: &mut Bytes) -> Result<(), String> {
    let input = random_bytes(rnd, card, port_of(wire).unwrap_or(Port::Service), sort);
    let (note, card) = perhaps_damaged(rnd, card)?.unwrap_or(("sound", card.clone()));
    let report = |d| format!("bytes ({sort:?}, {}) on the card ({note}): {d}", front(&input));
    let served = all_served(&card, wire, &input);
    let room = random_room(rnd, &served);
    let (stop, progress) = compare(rnd, &mut card.clone(), wire, &input, room).map_err(report)?;
    let (records, done) = by_serve(rnd, &mut card.clone(), wire, &input).map_err(report)?;

    seen.inputs += 1;
    *seen.stops.entry((sort, wire, stop)).or_default() += 1;
    seen.records += records;
    seen.done += done;
    // Elsewhere the numbers of the batch are as they were lent.
    if port_of(wire).is_some() && stop != SHAPE {
        let performed = &served[..progress.records as usize];
        seen.records += performed.len() as u64;
        seen.done += performed.iter().filter(|s| s.done).count() as u64;
    }
    Ok(())
}

/// Bytes of every sort at every port, with one card to start with.
pub fn bytes(rnd: &mut Random, seen: &mut Bytes) -> Result<(), String> {
    let card = small_card(rnd);
    for (sort, often) in SORTS {
        for (wire, times) in WIRES {
            for _ in 0..often * times {
                bytes_at(rnd, &card, sort, wire, seen)?;
            }
        }
    }
    Ok(())
}

// ---- Records of the service port among a host's ----

/// The host's records in an input, so that a service record has one place more.
const HOSTS: usize = 5;

#[derive(Clone, Copy, Debug, PartialEq, Eq, PartialOrd, Ord)]
enum Form {
    Whole,
    /// Without its last bytes, and the host's other records behind.
    CutWithin,
    /// Without its last bytes at the end of the input.
    CutAtEnd,
}

const FORMS: [Form; 3] = [Form::Whole, Form::CutWithin, Form::CutAtEnd];

#[derive(Default)]
pub struct ServiceKinds {
    /// Stopped at the host port, by place, kind and form.
    refused: BTreeMap<(usize, u8, Form), u64>,
    /// Of these, those with no byte of the answers left.
    without_room: u64,
    /// Performed at the service port, by kind, and whether it was done.
    taken: BTreeMap<(u8, bool), u64>,
}

impl ServiceKinds {
    pub fn summary(&self) -> String {
        let taken = |done| self.taken.iter().filter(|((_, d), _)| *d == done).map(|(_, count)| count).sum::<u64>();
        format!(
            "service kinds: {} batches at the host port, {} kinds in {} places whole and cut short ({} with no room left), \
             all stopped there at 13, at the service port {} whole ones performed ({} done)",
            self.refused.values().sum::<u64>(),
            SERVICE_KINDS.len(),
            HOSTS + 1,
            self.without_room,
            taken(true) + taken(false),
            taken(true)
        )
    }

    pub fn missing(&self) -> Vec<String> {
        let mut missing = Vec::new();
        for kind in SERVICE_KINDS {
            for place in 0..=HOSTS {
                for form in FORMS.into_iter().filter(|&form| !self.refused.contains_key(&(place, kind, form))) {
                    missing.push(format!("service kinds: {kind} in place {place}, {form:?}"));
                }
            }
            if !self.taken.contains_key(&(kind, true)) {
                missing.push(format!("service kinds: {kind} done at the service port"));
            }
        }
        if self.without_room == 0 {
            missing.push("service kinds: no room left".to_string());
        }
        missing
    }
}

/// A well-formed record of that kind; one that is done on the card, if a few draws find it. A body of zeros is well formed.
fn record_of(rnd: &mut Random, card: &Card, kind: u8) -> Vec<u8> {
    let mut found = vec![kind];
    found.resize(1 + body_length(Port::Service, kind).unwrap(), 0);
    for _ in 0..60 {
        let Some((_, body)) = random_record(rnd, card).filter(|(other, _)| other % 128 == kind % 128) else { continue };
        let record = [vec![kind], body].concat();
        if let [served] = &all_served(card, SERVICE, &record)[..] {
            found = record;
            if served.done {
                break;
            }
        }
    }
    found
}

/// A host's records, each fit for the card that the one before leaves; those cards, behind the one to start with.
fn host_records(rnd: &mut Random, card: Card) -> (Vec<Vec<u8>>, Vec<Card>) {
    let (mut records, mut cards) = (Vec::new(), vec![card]);
    for i in 0..HOSTS {
        let mut after = cards[i].clone();
        let kind = rnd.of(&HOST_KINDS);
        let record = record_of(rnd, &after, kind);
        model::batch(&mut after, HOST, &record, &mut [0; 1_024], &mut Progress::default());
        records.push(record);
        cards.push(after);
    }
    (records, cards)
}

/// At the host port the batch stops at the record behind `before`; whether no byte of the answers was left.
fn stopped(rnd: &mut Random, cards: &[Card], before: &[u8], place: usize, input: &[u8]) -> Result<bool, String> {
    let least = all_served(&cards[0], HOST, before).iter().map(|s| s.room).max().unwrap_or(0);
    let room = least + rnd.of(&[0, 1, 700]);
    let mut after = cards[0].clone();
    let (stop, progress) = compare(rnd, &mut after, HOST, input, room)?;
    let mut alone = Progress::default();
    model::batch(&mut cards[0].clone(), HOST, before, &mut vec![0; room], &mut alone);
    if stop != MALFORMED || progress != alone || alone.records != place as u64 || after != cards[place] {
        return Err(format!("at the host port: stop {stop}, {progress:?}; the records before it alone: {alone:?}"));
    }
    Ok(progress.written as usize == room)
}

/// At the service port a whole record is performed, and those behind it; one at the end of the input is cut short.
fn taken(rnd: &mut Random, card: &Card, place: usize, form: Form, input: &[u8]) -> Result<(), String> {
    let (stop, progress) = compare(rnd, &mut card.clone(), SERVICE, input, 600 * (HOSTS + 1))?;
    let records = progress.records as usize;
    let as_expected = match form {
        Form::Whole => (stop, records) == (0, HOSTS + 1),
        Form::CutAtEnd => (stop, records) == (CUT_SHORT, place),
        // It takes the bytes of the records behind, whatever these make of it.
        Form::CutWithin => records >= place,
    };
    if !as_expected {
        return Err(format!("at the service port: stop {stop}, {progress:?}"));
    }
    Ok(())
}

/// The record by itself: refused 13 at the host port; at the service port a whole one is performed. Whether it is done.
fn by_itself(rnd: &mut Random, card: &Card, form: Form, record: &[u8]) -> Result<Option<bool>, String> {
    let mut after = card.clone();
    let (at_host, _) = by_serve(rnd, &mut after, HOST, record)?;
    let (at_service, done) = by_serve(rnd, &mut card.clone(), SERVICE, record)?;
    if at_host != 0 || after != *card || at_service != (form == Form::Whole) as u64 {
        return Err(format!("by itself: {at_host} performed at the host port, {at_service} at the service port"));
    }
    Ok((form == Form::Whole).then_some(done == 1))
}

/// Every kind of the service port in every place among a host's records on one card, in every form.
pub fn service_kinds(rnd: &mut Random, seen: &mut ServiceKinds) -> Result<(), String> {
    let card = small_card(rnd);
    let (records, cards) = host_records(rnd, card);
    for place in 0..=HOSTS {
        let (before, behind) = (records[..place].concat(), records[place..].concat());
        for kind in SERVICE_KINDS {
            let whole = record_of(rnd, &cards[place], kind);
            for form in FORMS {
                let some = rnd.within(1, whole.len() as u64 - 1) as usize;
                let kept = if form == Form::Whole { whole.len() } else { rnd.of(&[1, some, whole.len() - 1]) };
                let record = &whole[..kept];
                let mut input = [&before, record].concat();
                if form != Form::CutAtEnd {
                    input.extend(&behind);
                }
                let report = |d| format!("kind {kind} in place {place}, {form:?}, {kept} bytes of it: {d}");
                seen.without_room += stopped(rnd, &cards, &before, place, &input).map_err(report)? as u64;
                taken(rnd, &cards[0], place, form, &input).map_err(report)?;
                if let Some(done) = by_itself(rnd, &cards[place], form, record).map_err(report)? {
                    *seen.taken.entry((kind, done)).or_default() += 1;
                }
                *seen.refused.entry((place, kind, form)).or_default() += 1;
            }
        }
    }
    Ok(())
}

// ---- All kinds ----

/// Behind a kind that does not exist: the lengths of bodies, and those one shorter and one longer; and that of the operand
/// of RENT and of SWEEP, which no record carries.
const BEHIND_NO_KIND: [usize; 21] = [0, 1, 2, 3, 4, 7, 8, 9, 20, 21, 22, 23, 24, 35, 36, 37, 38, 39, 534, 535, 536];

#[derive(Default)]
pub struct AllKinds {
    inputs: u64,
    /// The kinds that exist, by port.
    known: BTreeSet<(u8, u8)>,
    /// By why the batch stopped.
    stops: BTreeMap<u32, u64>,
}

impl AllKinds {
    pub fn summary(&self) -> String {
        let known = |wire| self.known.iter().filter(|(at, _)| *at == wire).count();
        let stops: Vec<_> = self.stops.iter().map(|(stop, count)| format!("{count} at {stop}")).collect();
        format!(
            "kinds: {} inputs of 256 kinds at each port, of which {} exist at port 0 and {} at port 1, stops: {}, no difference",
            self.inputs,
            known(HOST),
            known(SERVICE),
            stops.join(", ")
        )
    }

    pub fn missing(&self) -> Vec<String> {
        let stops = [0, MALFORMED, CUT_SHORT].into_iter().filter(|stop| !self.stops.contains_key(stop));
        stops.map(|stop| format!("kinds: stop {stop}")).collect()
    }
}

/// A kind and so many zeros behind it, in a batch and as a record: zeros are a well-formed body, and no kind.
fn kind_with(
    rnd: &mut Random,
    card: &Card,
    wire: u8,
    kind: u8,
    zeros: usize,
    seen: &mut AllKinds,
) -> Result<(), String> {
    let input = [vec![kind], vec![0; zeros]].concat();
    let (stop, progress) = compare(rnd, &mut card.clone(), wire, &input, 1_024)?;
    by_serve(rnd, &mut card.clone(), wire, &input)?;
    let (reason, read) = match port_of(wire).and_then(|wire| body_length(wire, kind)) {
        None => (MALFORMED, 0),
        Some(length) if zeros < length => (CUT_SHORT, 0),
        Some(length) if zeros > length => (MALFORMED, 1 + length),
        Some(length) => (0, 1 + length),
    };
    if (stop, progress.read) != (reason, read as u64) {
        return Err(format!("stop {stop} with {} bytes read, not {reason} with {read}", progress.read));
    }
    seen.inputs += 1;
    *seen.stops.entry(stop).or_default() += 1;
    Ok(())
}

/// All kinds at both ports, on one card.
pub fn all_kinds(rnd: &mut Random, seen: &mut AllKinds) -> Result<(), String> {
    let card = small_card(rnd);
    for wire in [HOST, SERVICE] {
        for kind in 0..=255 {
            let behind: Vec<usize> = match port_of(wire).and_then(|wire| body_length(wire, kind)) {
                Some(length) => {
                    seen.known.insert((wire, kind));
                    (0..=length + 1).collect()
                }
                None => BEHIND_NO_KIND.to_vec(),
            };
            for zeros in behind {
                kind_with(rnd, &card, wire, kind, zeros, seen)
                    .map_err(|d| format!("kind {kind} at port {wire} with {zeros} bytes behind it: {d}"))?;
            }
        }
    }
    Ok(())
}

// ---- Numbers that no port has ----

#[derive(Default)]
pub struct OtherPorts {
    batches: u64,
    records: u64,
    /// Records of the same bytes that are done at the service port.
    done_at_service: u64,
}

impl OtherPorts {
    pub fn summary(&self) -> String {
        format!(
            "ports: {} batches and {} records at ports 2 to 255, all refused 13 with nothing changed, \
             {} records of the same bytes done at the service port",
            self.batches, self.records, self.done_at_service
        )
    }

    pub fn missing(&self) -> Vec<String> {
        let missing = self.batches == 0 || self.records == 0 || self.done_at_service == 0;
        missing.then(|| "ports: a batch, a record, or one done at the service port".to_string()).into_iter().collect()
    }
}

/// One batch and one record at a port of no such number: 13, and all is as it was.
fn refused_whole(rnd: &mut Random, card: &Card, wire: u8, input: &[u8]) -> Result<(), String> {
    let mut tables = Tables::new(card);
    let answers = rnd.bytes(700);
    let progress = Progress { records: rnd.next(), read: rnd.next(), written: rnd.next() };
    let mut lent = LentBatch::new(input, &answers, progress);
    let by_batch = tables.batch(wire, &mut lent);

    let (&kind, body) = input.split_first().unwrap_or((&9, &[]));
    let buffers = Buffers { out: rnd.bytes(512), places: vec![0xEEEE; 64], value: rnd.next() };
    let mut lent_buffers = LentBuffers::new(&buffers);
    let by_record = tables.serve(wire, kind, body, &mut lent_buffers);

    let difference = lent
        .difference(input, &answers, progress)
        .or_else(|| lent_buffers.difference(&buffers))
        .or_else(|| tables.difference(card));
    if (by_batch, by_record) != (MALFORMED, MALFORMED) || difference.is_some() {
        return Err(format!("port {wire}: {by_batch} by batch, {by_record} by record, {difference:?}"));
    }
    Ok(())
}

/// Every such number, on a sound card and on ones that would be refused 1 and 2, with bytes good and bad.
pub fn other_ports(rnd: &mut Random, seen: &mut OtherPorts) -> Result<(), String> {
    let sound = small_card(rnd);
    let mut cards = vec![("sound", sound.clone())];
    for name in ["record short", "record long", "N one more", "count too high"] {
        let mut damaged = sound.clone();
        damage(rnd, &mut damaged, DAMAGES.iter().position(|d| *d == name).unwrap());
        cards.push((name, damaged));
    }
    let mut records = Vec::new();
    put_records(rnd, &sound, Port::Service, 20, &mut records);
    seen.done_at_service += all_served(&sound, SERVICE, &records).iter().filter(|s| s.done).count() as u64;
    for (name, card) in &cards {
        for input in [&records[..], &[], &[0], &[131], &[140], &[141], &[142], &[9, 11, 9]] {
            for wire in 2..=255 {
                refused_whole(rnd, card, wire, input)
                    .map_err(|d| format!("{} on the card ({name}): {d}", front(input)))?;
                seen.batches += 1;
                seen.records += 1;
            }
        }
    }
    Ok(())
}
