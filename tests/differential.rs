//! Differential test: the library against the model, call by call.
//!
//! In parts, all but the first on random cards from a printed seed:
//! - the documents' own trials and the example of ten records, by the library;
//! - random calls by the C functions on one card and as records on another, damaged tables among them; after each,
//!   the answer, the record, every table, every lent buffer and the memory beside them are compared with the model;
//! - batches of call records, the model with an audit for each record;
//! - bytes of any sort at the ports, service records at the host port, all 256 kinds, and numbers that no port has;
//! - the reach report: what is within reach of keys, and which blocks' write keys would open a hidden one;
//! - secrecy: one host session of calls, and one of bytes, on two cards that differ in hidden and unallocated contents
//!   only, those of waiting blocks among them.
//!
//! Options: --calls N --seed S. Exit status 1 on a difference, or at the default size on a pair of call and answer,
//! a stop of a batch or another case that can occur and did not.

mod batch;
mod damage;
mod library;
mod model;
mod random_call;
mod random_card;
mod reach;
mod secrecy;
mod trials;
mod wires;

use batch::{batches, Batches};
use damage::{damage, DAMAGES, SHAPE_DAMAGES};
use library::{Direct, LentBuffers, Tables, HOST, SERVICE};
use model::{
    cents, ends, number, port_of, word, Buffers, Call, Card, Credential, Operation, Port, ALLOCATED, CANNOT_POINT,
    HAS_POINTERS, HAS_WRITE_KEY, HIGHEST_MULTIPLICITY, HIGHEST_PRICE, HOST_KINDS, NOT_OPENED, NO_BLOCK, NO_PLACE,
    NO_RUN, NO_SPACE, PER_CENT, READ_KEY, SERVICE_KINDS, TIME_END, WAITING, WRITE_KEY,
};
use random_call::{buffers, longest_run, random_format, spoilt_record, Chooser};
use random_card::{random_card, random_size, Random, Size, KEYS};
use reach::Reports;
use secrecy::{byte_secrecy, secrecy, ByteSecrecy, Secrecy};
use std::cmp::Ordering;
use std::collections::BTreeMap;
use trials::trials;
use wires::{all_kinds, bytes, other_ports, service_kinds, AllKinds, Bytes, OtherPorts, ServiceKinds};

const DEFAULT_CALLS: u64 = 300_000;
const DEFAULT_SEED: u64 = 1;

// ---- Counting what was reached ----

/// Each at the place of its host kind, and behind them RENT and SWEEP, which have none.
const CALLS: [&str; 17] = [
    "FORMAT",
    "READ",
    "WRITE",
    "ALLOC",
    "CREATE",
    "DELETE",
    "KEY_READ",
    "RENEW",
    "FORCE",
    "FREE",
    "TICK",
    "AUDIT",
    "ALLOC_CONTIG",
    "KEY_WRITE",
    "DELETE_TREE",
    "RENT",
    "SWEEP",
];

/// Whether the call has a port of its own, and so a credential.
fn has_port(call: usize) -> bool {
    SERVICE_KINDS.contains(&(call as u8 + 128))
}

/// Records that have no call, behind the calls: why there is none.
const NO_CALL: [&str; 3] = ["a kind of the service port at the host port", "another kind", "another port"];

/// A new key beside the one that it replaces.
#[derive(Clone, Copy, Debug, PartialEq, Eq, PartialOrd, Ord)]
enum NewKey {
    None,
    Same,
    Other,
}

/// What KEY_READ or KEY_WRITE finds: the call, its port, the flags of the block's keys, the new key, and whether both
/// windows of the block are open. That the other key stays and both windows close shows in the cards, which are
/// compared whole.
type KeyChange = (&'static str, Port, u8, NewKey, bool);

/// The change of a key that the call makes, if it is done.
fn key_change(card: &Card, port: Port, call: &Call) -> Option<KeyChange> {
    let (name, operation, block, new) = match call {
        Call::KeyRead { block, key, .. } => ("KEY_READ", Operation::Reading, *block, *key),
        Call::KeyWrite { block, key, .. } => ("KEY_WRITE", Operation::Writing, *block, *key),
        _ => return None,
    };
    let b = block as usize;
    if !card.shaped() || !card.allocated(b) {
        return None;
    }
    let sort = match new {
        None => NewKey::None,
        Some(_) if new == card.key(b, operation) => NewKey::Same,
        Some(_) => NewKey::Other,
    };
    let open = [Operation::Reading, Operation::Writing].into_iter().all(|o| card.window_open(b, o));
    Some((name, port, card.flags[b] & (READ_KEY | WRITE_KEY), sort, open))
}

/// Every change of a key: a new key is the same only where there is one.
fn key_changes() -> Vec<KeyChange> {
    let mut changes = Vec::new();
    for (name, own) in [("KEY_READ", READ_KEY), ("KEY_WRITE", WRITE_KEY)] {
        for port in [Port::Host, Port::Service] {
            for keys in [0, READ_KEY, WRITE_KEY, READ_KEY | WRITE_KEY] {
                for new in [NewKey::None, NewKey::Same, NewKey::Other] {
                    if new != NewKey::Same || keys & own != 0 {
                        changes.extend([false, true].map(|open| (name, port, keys, new, open)));
                    }
                }
            }
        }
    }
    changes
}

/// What a READ, a WRITE or a RENEW finds: the call, its port, whether its interval is 0, whether the window is open, and
/// T + interval beside the window's end. What becomes of the end shows in the cards.
type WindowChange = (&'static str, Port, bool, bool, Ordering);

/// The change of a window that the call makes, if it is done.
fn window_change(card: &Card, port: Port, call: &Call) -> Option<WindowChange> {
    let (name, operation, block, interval) = match call {
        Call::Read { block, interval, .. } => ("READ", Operation::Reading, *block, *interval),
        Call::Write { block, interval, .. } => ("WRITE", Operation::Writing, *block, *interval),
        Call::Renew { mode: 0, block, interval, .. } => ("RENEW", Operation::Reading, *block, *interval),
        Call::Renew { block, interval, .. } => ("RENEW", Operation::Writing, *block, *interval),
        _ => return None,
    };
    let b = block as usize;
    if !card.shaped() || !card.allocated(b) {
        return None;
    }
    let end = card.time() + interval as u64;
    Some((name, port, interval == 0, card.window_open(b, operation), end.cmp(&card.window(b, operation))))
}

/// Every change of a window: one that is not open ends at T or before.
fn window_changes() -> Vec<WindowChange> {
    use Ordering::{Equal, Greater, Less};
    let by_interval = [(false, false, Greater), (false, true, Less), (false, true, Equal), (false, true, Greater)];
    let by_0 = [(true, true, Less), (true, false, Equal), (true, false, Greater)];
    let mut changes = Vec::new();
    for (name, port) in [("READ", Port::Host), ("WRITE", Port::Host), ("READ", Port::Service), ("WRITE", Port::Service)]
    {
        changes.extend(by_interval.iter().chain(&by_0).map(|&(zero, open, end)| (name, port, zero, open, end)));
    }
    changes.extend(by_interval.map(|(zero, open, end)| ("RENEW", Port::Host, zero, open, end)));
    changes
}

/// How often a pointer is there.
#[derive(Clone, Copy, Debug, PartialEq, Eq, PartialOrd, Ord)]
enum Times {
    Never,
    Once,
    Twice,
    More,
    JustBelowHighest,
    Highest,
}

impl Times {
    fn of(multiplicity: u16) -> Self {
        match multiplicity {
            0 => Times::Never,
            1 => Times::Once,
            2 => Times::Twice,
            HIGHEST_MULTIPLICITY => Times::Highest,
            _ if multiplicity == HIGHEST_MULTIPLICITY - 1 => Times::JustBelowHighest,
            _ => Times::More,
        }
    }
}

/// More often than once.
const REPEATED: [Times; 4] = [Times::Twice, Times::More, Times::JustBelowHighest, Times::Highest];

/// What a CREATE between two blocks finds: its port, how often the pointer is there, and whether the table is full. What
/// becomes of multiplicity and count shows in the cards.
type Creation = (Port, Times, bool);

/// The answers of a CREATE that comes to its pointer, if its ends differ.
const CREATION_ANSWERS: [u32; 3] = [0, CANNOT_POINT, NO_PLACE];

fn creation(card: &Card, port: Port, call: &Call) -> Option<Creation> {
    let Call::Create { source, destination, .. } = call else { return None };
    if !card.shaped() || source == destination {
        return None;
    }
    Some((port, Times::of(card.multiplicity(*source as usize, *destination as usize)), card.full()))
}

/// Every such CREATE with its answer: only a new pointer needs a place.
fn creations() -> Vec<(Creation, u32)> {
    let mut all = Vec::new();
    for port in [Port::Host, Port::Service] {
        for full in [false, true] {
            all.push(((port, Times::Never, full), if full { NO_PLACE } else { 0 }));
            for times in [Times::Once].into_iter().chain(REPEATED) {
                all.push(((port, times, full), if times == Times::Highest { CANNOT_POINT } else { 0 }));
            }
        }
    }
    all
}

/// What a DELETE finds of a pointer: its port, how often the pointer is there, whether another block points to the
/// destination too, and whether the destination has pointers of its own.
type Deletion = (Port, Times, bool, bool);

/// The answers of a DELETE of a pointer that is there.
const DELETION_ANSWERS: [u32; 2] = [0, HAS_POINTERS];

fn deletion(card: &Card, port: Port, call: &Call) -> Option<Deletion> {
    let Call::Delete { source, destination, .. } = call else { return None };
    let (s, d) = (*source as usize, *destination as usize);
    if !card.shaped() || !card.allocated(d) {
        return None;
    }
    let times = card.multiplicity(s, d);
    Some((port, Times::of(times), card.counts[d] > times as u32, card.has_pointers(d)))
}

/// Every such DELETE with its answer: 9 is for the last of all pointers to a block.
fn deletions() -> Vec<(Deletion, u32)> {
    let mut all = Vec::new();
    for port in [Port::Host, Port::Service] {
        for (others, own) in [(false, false), (false, true), (true, false), (true, true)] {
            all.push(((port, Times::Once, others, own), if own && !others { HAS_POINTERS } else { 0 }));
            all.extend(REPEATED.map(|times| ((port, times, others, own), 0)));
        }
    }
    all
}

/// What becomes of the blocks in a DELETE_TREE of a pointer that is there, the first that holds.
#[derive(Clone, Copy, Debug, PartialEq, Eq, PartialOrd, Ord)]
enum Tree {
    /// Nothing is freed, though the pointer was the last on any chain from a root to its destination.
    KeptByItself,
    /// Nothing is freed.
    Kept,
    /// The destination has a write key, and would be freed.
    KeyOfDestination,
    /// Another block that would be freed has one.
    KeyBelow,
    /// The source is freed too.
    WithSource,
    /// A freed block pointed several times to one that stays.
    Lowering,
    Alone,
    Several,
}

/// What a DELETE_TREE finds: its port, whether the pointer is there several times, whether a block that would be freed has a
/// read key, and what becomes of the blocks.
type TreeDeletion = (Port, bool, bool, Tree);

/// The answers of a DELETE_TREE of a pointer that is there.
const TREE_ANSWERS: [u32; 2] = [0, HAS_WRITE_KEY];

fn tree_deletion(card: &Card, port: Port, call: &Call) -> Option<TreeDeletion> {
    let Call::DeleteTree { source, destination, .. } = call else { return None };
    let (s, d) = (*source as usize, *destination as usize);
    if card.audit().is_err() || !card.points(s, d) {
        return None;
    }
    let freed = card.freed_with(s, d);
    let with_key = |flag: u8| (0..card.blocks()).any(|b| freed[b] && card.flags[b] & flag != 0);
    let lowers = |(p, times): (u32, u16)| times > 1 && freed[ends(p).0] && !freed[ends(p).1];
    let tree = match freed.iter().filter(|&&f| f).count() {
        0 if !led_to(card, s, d)[d] => Tree::KeptByItself,
        0 => Tree::Kept,
        _ if card.flags[d] & WRITE_KEY != 0 => Tree::KeyOfDestination,
        _ if with_key(WRITE_KEY) => Tree::KeyBelow,
        _ if freed[s] => Tree::WithSource,
        _ if card.in_use().any(lowers) => Tree::Lowering,
        1 => Tree::Alone,
        _ => Tree::Several,
    };
    Some((port, card.multiplicity(s, d) > 1, with_key(READ_KEY), tree))
}

/// The blocks to which chains of pointers lead from a root, but for the pointer between these two.
fn led_to(card: &Card, source: usize, destination: usize) -> Vec<bool> {
    let mut led: Vec<bool> = (0..card.blocks()).map(|b| card.root(b)).collect();
    loop {
        let before = led.clone();
        for (from, to) in card.in_use().map(|(p, _)| ends(p)).filter(|&e| e != (source, destination)) {
            led[to] |= led[from];
        }
        if led == before {
            return led;
        }
    }
}

/// Every such DELETE_TREE with its answer. Where nothing is freed, no key counts.
fn tree_deletions() -> Vec<(TreeDeletion, u32)> {
    use Tree::{Alone, Kept, KeptByItself, KeyBelow, KeyOfDestination, Lowering, Several, WithSource};
    let mut all = Vec::new();
    for port in [Port::Host, Port::Service] {
        for times in [false, true] {
            all.extend([KeptByItself, Kept].map(|tree| ((port, times, false, tree), 0)));
            for key in [false, true] {
                all.extend([KeyOfDestination, KeyBelow].map(|tree| ((port, times, key, tree), HAS_WRITE_KEY)));
                all.extend([WithSource, Lowering, Alone, Several].map(|tree| ((port, times, key, tree), 0)));
            }
        }
    }
    all
}

/// Whether a done DELETE_TREE freed so many blocks, and just those that a list of work over the counts finds.
fn freed_as_counted(before: &Card, after: &Card, call: &Call, value: u64) -> bool {
    let Call::DeleteTree { source, destination, .. } = call else { return true };
    let (s, d) = (*source as usize, *destination as usize);
    let mut counts = before.counts.clone();
    counts[d] -= before.multiplicity(s, d) as u32;
    let mut work = if counts[d] == 0 { vec![d] } else { vec![] };
    let mut freed = work.clone();
    while let Some(b) = work.pop() {
        for (p, times) in before.in_use().filter(|&(p, _)| ends(p).0 == b && ends(p) != (s, d)) {
            let to = ends(p).1;
            counts[to] -= times as u32;
            if counts[to] == 0 {
                work.push(to);
                freed.push(to);
            }
        }
    }
    let kept = |b: &usize| before.allocated(*b) && !freed.contains(b);
    value == freed.len() as u64 && (0..before.blocks()).all(|b| after.allocated(b) == kept(&b))
}

/// Whether each pointer is there as often as before, with those that the done call made and without those that it took.
fn counted(before: &Card, after: &Card, call: &Call, places: &[u16]) -> bool {
    let mut pointers: BTreeMap<u32, u64> = before.in_use().map(|(pointer, times)| (pointer, times as u64)).collect();
    let mut make = |source: u16, destination: u16| {
        *pointers.entry(word(source as usize, destination as usize)).or_default() += 1;
    };
    match call {
        Call::Create { source, destination, .. } => make(*source, *destination),
        Call::Alloc { reference, count, .. } | Call::AllocContig { reference, count, .. } => {
            places[..*count as usize].iter().for_each(|&b| make(*reference, b));
        }
        Call::Delete { source, destination, .. } => {
            *pointers.entry(word(*source as usize, *destination as usize)).or_default() -= 1;
        }
        Call::DeleteTree { source, destination, .. } => {
            let freed = |b: usize| before.allocated(b) && !after.allocated(b);
            pointers.retain(|&p, _| p != word(*source as usize, *destination as usize) && !freed(ends(p).0));
        }
        _ => {}
    }
    pointers.retain(|_, times| *times > 0);
    after.in_use().map(|(pointer, times)| (pointer, times as u64)).eq(pointers)
}

/// A block of which a window ends sooner than before, though the call neither shut its windows nor freed it.
fn cut(before: &Card, after: &Card, call: &Call) -> Option<usize> {
    let shut = match call {
        Call::Force { block } | Call::KeyRead { block, .. } | Call::KeyWrite { block, .. } => Some(*block as usize),
        _ => None,
    };
    let sooner = |b: usize| (2 * b..2 * b + 2).any(|at| after.windows[at] < before.windows[at]);
    (0..before.blocks()).find(|&b| sooner(b) && shut != Some(b) && after.allocated(b))
}

/// The total of a card in shape.
#[derive(Clone, Copy, Debug, PartialEq, Eq, PartialOrd, Ord)]
enum Total {
    None,
    Some,
    /// Above T times N, which is sound too where N is below 4,096.
    AboveBlocks,
    Highest,
}

const TOTALS: [Total; 4] = [Total::None, Total::Some, Total::AboveBlocks, Total::Highest];

impl Total {
    fn of(card: &Card) -> Self {
        match card.total() as u128 {
            0 => Total::None,
            total if total == card.highest_total() => Total::Highest,
            total if total > card.time() as u128 * card.blocks() as u128 => Total::AboveBlocks,
            _ => Total::Some,
        }
    }
}

/// The seconds of a TICK.
#[derive(Clone, Copy, Debug, PartialEq, Eq, PartialOrd, Ord)]
enum Seconds {
    None,
    Some,
    /// T becomes 2^40 - 1.
    AllThatAreLeft,
}

/// What a TICK finds: its seconds, the total, whether there are blocks that rent is paid for, and whether some wait, for
/// which none is paid. What becomes of T and the total shows in the cards.
type Ticking = (Seconds, Total, bool, bool);

/// What the call adds to T and the total, if it is done.
fn ticking(card: &Card, call: &Call) -> Option<Ticking> {
    let Call::Tick { seconds } = call else { return None };
    if !card.shaped() {
        return None;
    }
    let sort = match seconds {
        0 => Seconds::None,
        _ if card.time() as u128 + *seconds as u128 + 1 == TIME_END as u128 => Seconds::AllThatAreLeft,
        _ => Seconds::Some,
    };
    Some((sort, Total::of(card), card.rented_blocks() > 0, !card.waiting_blocks().is_empty()))
}

/// Every such TICK; one of all seconds that are left with blocks that it adds for.
fn tickings() -> Vec<Ticking> {
    let sorts = [
        (Seconds::None, false),
        (Seconds::None, true),
        (Seconds::Some, false),
        (Seconds::Some, true),
        (Seconds::AllThatAreLeft, true),
    ];
    let with_totals = sorts.into_iter().flat_map(|(seconds, rented)| TOTALS.map(|total| (seconds, total, rented)));
    with_totals
        .flat_map(|(seconds, total, rented)| [false, true].map(|waits| (seconds, total, rented, waits)))
        .collect()
}

/// The price of a RENT.
#[derive(Clone, Copy, Debug, PartialEq, Eq, PartialOrd, Ord)]
enum Price {
    None,
    Some,
    Highest,
}

/// How the cents of a RENT are rounded.
#[derive(Clone, Copy, Debug, PartialEq, Eq, PartialOrd, Ord)]
enum Rounding {
    Exact,
    Down,
    /// Down, and for one block and second more it would be up.
    JustDown,
    Half,
    Up,
}

/// What a RENT finds: its price, the total, and how its cents are rounded.
type Renting = (Price, Total, Rounding);

/// What the call gives, if it is done.
fn renting(card: &Card, call: &Call) -> Option<Renting> {
    let Call::Rent { price } = *call else { return None };
    if card.audit().is_err() {
        return None;
    }
    let sort = match price {
        0 => Price::None,
        HIGHEST_PRICE => Price::Highest,
        _ => Price::Some,
    };
    let rounding = match 2 * (card.total() as u128 * price as u128 % PER_CENT as u128) {
        0 => Rounding::Exact,
        twice if twice == PER_CENT as u128 => Rounding::Half,
        twice if twice > PER_CENT as u128 => Rounding::Up,
        _ if cents(card.total(), price) < cents(card.total() + 1, price) => Rounding::JustDown,
        _ => Rounding::Down,
    };
    Some((sort, Total::of(card), rounding))
}

/// Every such RENT, but those that hardly occur: T times 4,096 times a price is never half a cent, and seldom a whole one.
fn rentings() -> Vec<Renting> {
    use Rounding::{Down, Exact, Half, JustDown, Up};
    let mut all: Vec<Renting> = TOTALS.map(|total| (Price::None, total, Exact)).to_vec();
    for price in [Price::Some, Price::Highest] {
        all.push((price, Total::None, Exact));
        for total in [Total::Some, Total::AboveBlocks] {
            all.extend([Exact, Down, JustDown, Half, Up].map(|rounding| (price, total, rounding)));
        }
        all.extend([Down, Up].map(|rounding| (price, Total::Highest, rounding)));
    }
    all
}

/// Whether the done call has added to the total what it should: TICK its seconds for each block to which pointers lead,
/// which no root is, and other calls nothing.
fn charged(before: &Card, after: &Card, call: &Call) -> bool {
    let seconds = if let Call::Tick { seconds } = call { *seconds as u128 } else { 0 };
    let pointed_to = before.counts.iter().filter(|&&count| count > 0).count() as u128;
    after.total() as u128 == before.total() as u128 + seconds * pointed_to
}

/// Which block of a call waits, the first that is looked at.
#[derive(Clone, Copy, Debug, PartialEq, Eq, PartialOrd, Ord)]
enum Named {
    /// The block itself, or the source.
    Block,
    Destination,
    /// The credential is a reference to it.
    Reference,
}

/// A call that names a block which waits: the call's place, its port, and which block it is.
type WaitingNamed = (usize, Port, Named);

fn waiting_named(card: &Card, port: Port, call: &Call) -> Option<WaitingNamed> {
    let (block, destination, credential) = match call {
        Call::Read { block, credential, .. }
        | Call::Write { block, credential, .. }
        | Call::Alloc { reference: block, credential, .. }
        | Call::AllocContig { reference: block, credential, .. }
        | Call::KeyRead { block, credential, .. }
        | Call::KeyWrite { block, credential, .. } => (*block, None, Some(*credential)),
        Call::Create { source, source_credential, destination, .. } => {
            (*source, Some(*destination), Some(*source_credential))
        }
        Call::Delete { source, credential, destination } | Call::DeleteTree { source, credential, destination } => {
            (*source, Some(*destination), Some(*credential))
        }
        Call::Renew { block, .. } | Call::Force { block } => (*block, None, None),
        _ => return None,
    };
    if !card.shaped() {
        return None;
    }
    let waits = |b: u16| card.waiting(b as usize);
    let named = match credential {
        _ if waits(block) => Named::Block,
        _ if destination.is_some_and(waits) => Named::Destination,
        Some(Credential::Reference(r)) if port == Port::Host && waits(r) => Named::Reference,
        _ => return None,
    };
    Some((index(&Direct::from(port, call)).0, port, named))
}

/// Every such call with its answer.
fn all_waiting_named() -> Vec<(WaitingNamed, u32)> {
    let mut all = vec![];
    for call in ["READ", "WRITE", "ALLOC", "ALLOC_CONTIG", "KEY_READ", "KEY_WRITE", "CREATE", "DELETE", "DELETE_TREE"] {
        let place = CALLS.iter().position(|name| *name == call).unwrap();
        for port in [Port::Host, Port::Service] {
            all.push(((place, port, Named::Block), NO_BLOCK));
            if ["CREATE", "DELETE", "DELETE_TREE"].contains(&call) {
                all.push(((place, port, Named::Destination), NO_BLOCK));
            }
        }
        all.push(((place, Port::Host, Named::Reference), NOT_OPENED));
    }
    all.extend([7, 8].map(|place| ((place, Port::Host, Named::Block), NO_BLOCK)));
    all
}

/// How waiting blocks stand in the way of an ALLOC or an ALLOC_CONTIG, the first that holds.
#[derive(Clone, Copy, Debug, PartialEq, Eq, PartialOrd, Ord)]
enum InTheWay {
    /// Enough blocks are unallocated, but so many of them wait that too few are free.
    TooFewFree,
    /// So many unallocated blocks adjoin, but not so many free ones.
    NoFreeRun,
    /// The block of the hint waits.
    Hint,
    /// Others wait.
    Elsewhere,
    None,
}

/// What an ALLOC or an ALLOC_CONTIG finds: whether the blocks are to adjoin, its port, and how waiting blocks are in its way.
type Allotment = (bool, Port, InTheWay);

/// The answers of a call that comes to look for blocks and has places for their pointers.
const ALLOTMENT_ANSWERS: [u32; 3] = [0, NO_SPACE, NO_RUN];

fn allotment(card: &Card, port: Port, call: &Call) -> Option<Allotment> {
    let (adjoining, hint, count) = match call {
        Call::Alloc { hint, count, .. } => (false, *hint, *count as usize),
        Call::AllocContig { hint, count, .. } => (true, *hint, *count as usize),
        _ => return None,
    };
    if !card.shaped() {
        return None;
    }
    let (free, waiting) = (card.free_blocks(), card.waiting_blocks().len());
    let run = |property: &dyn Fn(usize) -> bool| longest_run(card, property);
    let in_the_way = match () {
        _ if waiting == 0 => InTheWay::None,
        _ if free < count && count <= free + waiting => InTheWay::TooFewFree,
        _ if adjoining && run(&|b| card.free(b)) < count && count <= run(&|b| !card.allocated(b)) => {
            InTheWay::NoFreeRun
        }
        _ if card.waiting(hint as usize) => InTheWay::Hint,
        _ => InTheWay::Elsewhere,
    };
    Some((adjoining, port, in_the_way))
}

/// Every such call with its answer.
fn allotments() -> Vec<(Allotment, u32)> {
    use InTheWay::{Elsewhere, Hint, NoFreeRun, None, TooFewFree};
    let single =
        [(TooFewFree, NO_SPACE), (Hint, 0), (Elsewhere, 0), (Elsewhere, NO_SPACE), (None, 0), (None, NO_SPACE)];
    let run = [(NoFreeRun, NO_RUN), (Elsewhere, NO_RUN), (None, NO_RUN)];
    let mut all = Vec::new();
    for port in [Port::Host, Port::Service] {
        all.extend(single.map(|(way, answer)| ((false, port, way), answer)));
        all.extend(single.iter().chain(&run).map(|&(way, answer)| ((true, port, way), answer)));
    }
    all
}

/// How many blocks a SWEEP asks for, beside those that wait.
#[derive(Clone, Copy, Debug, PartialEq, Eq, PartialOrd, Ord)]
enum Asked {
    None,
    Fewer,
    All,
    More,
    /// The highest number.
    Highest,
}

/// What a SWEEP finds: how many it asks for, whether some wait, and whether there are free blocks too. Which blocks it
/// overwrites shows in the cards.
type Sweeping = (Asked, bool, bool);

/// What the call overwrites, if it is done.
fn sweeping(card: &Card, call: &Call) -> Option<Sweeping> {
    let Call::Sweep { most } = *call else { return None };
    if !card.shaped() {
        return None;
    }
    let waiting = card.waiting_blocks().len();
    let asked = match most {
        0 => Asked::None,
        u32::MAX => Asked::Highest,
        _ => match (most as usize).cmp(&waiting) {
            Ordering::Less => Asked::Fewer,
            Ordering::Equal => Asked::All,
            Ordering::Greater => Asked::More,
        },
    };
    Some((asked, waiting > 0, card.free_blocks() > 0))
}

/// Every such SWEEP.
fn sweepings() -> Vec<Sweeping> {
    use Asked::{All, Fewer, Highest, More, None};
    let sorts = [(None, false), (More, false), (Highest, false)];
    let sorts = sorts.into_iter().chain([None, Fewer, All, More, Highest].map(|asked| (asked, true)));
    sorts.flat_map(|(asked, waits)| [false, true].map(|free| (asked, waits, free))).collect()
}

/// Whether the done call has left what is not allocated as it should. What it freed waits and keeps its contents; what waited
/// waits on, but for the lowest that SWEEP overwrote, so many as it says; what was free is free or allotted. But for SWEEP and
/// the blocks that are allotted no such block is touched.
fn waited(before: &Card, after: &Card, call: &Call, value: u64) -> bool {
    let mut swept = if let Call::Sweep { most } = call { *most as u64 } else { 0 };
    let bytes = before.bytes();
    let mut overwritten = 0;
    let kept = (0..before.blocks()).all(|b| {
        let (old, new) = (&before.contents[b * bytes..][..bytes], &after.contents[b * bytes..][..bytes]);
        match (before.flags[b], after.flags[b]) {
            (WAITING, 0) if swept > 0 => {
                swept -= 1;
                overwritten += 1;
                new.iter().all(|&byte| byte == 0)
            }
            (WAITING, WAITING) => swept == 0 && old == new,
            (0, 0) => old == new,
            (0, ALLOCATED) => new.iter().all(|&byte| byte == 0),
            (WAITING | 0, _) => false,
            (_, flags) => flags & ALLOCATED != 0 || (flags == WAITING && old == new),
        }
    });
    kept && (!matches!(call, Call::Sweep { .. }) || value == overwritten)
}

/// Counts by route (0 by function, 1 by record), call, port and answer.
#[derive(Default)]
struct Reached {
    counts: BTreeMap<(usize, usize, u8, u32), u64>,
    key_changes: BTreeMap<KeyChange, u64>,
    window_changes: BTreeMap<WindowChange, u64>,
    creations: BTreeMap<(Creation, u32), u64>,
    deletions: BTreeMap<(Deletion, u32), u64>,
    tree_deletions: BTreeMap<(TreeDeletion, u32), u64>,
    tickings: BTreeMap<Ticking, u64>,
    rentings: BTreeMap<Renting, u64>,
    waiting_named: BTreeMap<(WaitingNamed, u32), u64>,
    allotments: BTreeMap<(Allotment, u32), u64>,
    sweepings: BTreeMap<Sweeping, u64>,
    damages: BTreeMap<usize, u64>,
    calls: u64,
}

fn index(call: &Direct) -> (usize, u8) {
    match call {
        Direct::Format { .. } => (0, 0),
        Direct::Read { port, .. } => (1, *port),
        Direct::Write { port, .. } => (2, *port),
        Direct::Alloc { port, .. } => (3, *port),
        Direct::Create { port, .. } => (4, *port),
        Direct::Delete { port, .. } => (5, *port),
        Direct::KeyRead { port, .. } => (6, *port),
        Direct::Renew { .. } => (7, 0),
        Direct::Force { .. } => (8, 0),
        Direct::Free => (9, 0),
        Direct::Tick { .. } => (10, 0),
        Direct::Audit => (11, 0),
        Direct::AllocContig { port, .. } => (12, *port),
        Direct::KeyWrite { port, .. } => (13, *port),
        Direct::DeleteTree { port, .. } => (14, *port),
        Direct::Rent { .. } => (15, 0),
        Direct::Sweep { .. } => (16, 0),
    }
}

/// The place of a record among the calls, or behind them.
fn record_index(wire: u8, kind: u8) -> (usize, u8) {
    match (wire, kind) {
        (HOST | SERVICE, _) if HOST_KINDS.contains(&kind) => (kind as usize, 0),
        (SERVICE, _) if SERVICE_KINDS.contains(&kind) => (kind as usize - 128, 1),
        (HOST, _) if SERVICE_KINDS.contains(&kind) => (CALLS.len(), 0),
        (HOST | SERVICE, _) => (CALLS.len() + 1, 0),
        _ => (CALLS.len() + 2, 0),
    }
}

impl Reached {
    fn note(&mut self, route: usize, (call, port): (usize, u8), answer: u32) {
        *self.counts.entry((route, call, port.min(2), answer)).or_default() += 1;
    }

    /// The answers that a call can have at a port by a route.
    fn possible(route: usize, call: usize, port: u8) -> Vec<u32> {
        let host = port == 0;
        let mut answers: Vec<u32> = match CALLS[call] {
            "FORMAT" | "RENT" | "SWEEP" if route == 1 => return vec![],
            "FORMAT" => return vec![0, 1],
            "READ" | "WRITE" => vec![3, 4, 5],
            "ALLOC" => vec![3, 4, 5, 6, 10, 11],
            "ALLOC_CONTIG" => vec![3, 4, 5, 6, 10, 11, 14],
            "CREATE" => vec![3, 5, 6, 7, 11],
            "DELETE" => vec![3, 5, 6, 8, 9],
            "DELETE_TREE" => vec![3, 5, 6, 8, 15],
            "KEY_READ" | "KEY_WRITE" => vec![3, 5, 6],
            "RENEW" => vec![3, 4, 5],
            "FORCE" => vec![3],
            "TICK" => vec![12],
            "RENT" => vec![16],
            _ => vec![],
        };
        if !host {
            // No credential is asked for, and roots may be sources; a root as CREATE's destination stays refused.
            answers.retain(|&a| a != 5 && (a != 6 || CALLS[call] == "CREATE"));
        }
        answers.extend([0, 1, 2]);
        let formed = has_port(call) || (route == 1 && [7, 8, 10].contains(&call));
        if formed {
            answers.push(13);
        }
        answers.sort();
        answers
    }

    /// Prints what was refused 13 before there was a call; gives what did not occur.
    fn without_call(&self) -> Vec<String> {
        let at = |wanted: &dyn Fn(usize, usize, u8) -> bool| -> u64 {
            self.counts.iter().filter(|((route, call, port, _), _)| wanted(*route, *call, *port)).map(|(_, c)| c).sum()
        };
        let mut refused = vec![("by function, another port".to_string(), at(&|route, _, port| route == 0 && port > 1))];
        for (i, why) in NO_CALL.iter().enumerate() {
            refused.push((format!("by record, {why}"), at(&|route, call, _| route == 1 && call == CALLS.len() + i)));
        }
        let counts: Vec<String> = refused.iter().map(|(why, count)| format!("{why} {count}")).collect();
        println!("refused 13: {}", counts.join("; "));
        refused.iter().filter(|(_, count)| *count == 0).map(|(why, _)| format!("refused 13: {why}")).collect()
    }

    /// Prints the table; gives the pairs that can occur and did not.
    fn table(&self) -> Vec<String> {
        let mut missing = Vec::new();
        let answers = [0, 1, 2, 3, 4, 5, 6, 7, 8, 9, 10, 11, 12, 13, 14, 15, 16];
        print!("{:<33}", "calls by answer");
        answers.iter().for_each(|a| print!("{a:>7}"));
        println!();
        for route in 0..2 {
            for call in 0..CALLS.len() {
                for port in 0..if has_port(call) { 2 } else { 1 } {
                    let possible = Self::possible(route, call, port);
                    if possible.is_empty() {
                        continue;
                    }
                    let place = match (call, port) {
                        (0 | 9..=11 | 15..=16, _) => "",
                        (_, 0) => " host",
                        _ => " service",
                    };
                    let name = format!("{}{} by {}", CALLS[call], place, ["function", "record"][route]);
                    print!("{name:<33}");
                    for a in answers {
                        let count = self.counts.get(&(route, call, port, a)).copied().unwrap_or(0);
                        match (possible.contains(&a), count) {
                            (false, 0) => print!("{:>7}", "."),
                            _ => print!("{count:>7}"),
                        }
                        if possible.contains(&a) && count == 0 {
                            missing.push(format!("{name}: answer {a}"));
                        }
                    }
                    println!();
                }
            }
        }
        missing.extend(self.without_call());
        missing.extend(sorts("key change", &self.key_changes, &key_changes()));
        missing.extend(sorts("window change", &self.window_changes, &window_changes()));
        missing.extend(sorts("CREATE", &self.creations, &creations()));
        missing.extend(sorts("DELETE", &self.deletions, &deletions()));
        missing.extend(sorts("DELETE_TREE", &self.tree_deletions, &tree_deletions()));
        missing.extend(sorts("TICK", &self.tickings, &tickings()));
        missing.extend(sorts("RENT", &self.rentings, &rentings()));
        missing.extend(sorts("waiting block", &self.waiting_named, &all_waiting_named()));
        missing.extend(sorts("allotment", &self.allotments, &allotments()));
        missing.extend(sorts("SWEEP", &self.sweepings, &sweepings()));
        println!(
            "damage: {} ways, each refused {} times or more",
            self.damages.len(),
            self.damages.values().min().unwrap_or(&0)
        );
        for (i, name) in DAMAGES.iter().enumerate() {
            if !self.damages.contains_key(&i) {
                missing.push(format!("damage: {name}"));
            }
        }
        missing
    }
}

/// Counts what a call came to, if there is something.
fn count<T: Ord>(counts: &mut BTreeMap<T, u64>, change: Option<T>) {
    if let Some(change) = change {
        *counts.entry(change).or_default() += 1;
    }
}

/// Prints how often each sort was reached; gives those that were not.
fn sorts<T: Ord + std::fmt::Debug>(name: &str, reached: &BTreeMap<T, u64>, all: &[T]) -> Vec<String> {
    println!("{name}s: {} sorts, each {} times or more", reached.len(), reached.values().min().unwrap_or(&0));
    all.iter().filter(|sort| !reached.contains_key(sort)).map(|sort| format!("{name}: {sort:?}")).collect()
}

// ---- Library against model ----

/// The model with two lent cards: one for the functions, one for the records.
struct Bench {
    model: Card,
    functions: Tables,
    records: Tables,
}

impl Bench {
    fn new(card: Card) -> Self {
        Bench { functions: Tables::new(&card), records: Tables::new(&card), model: card }
    }

    fn load(&mut self, card: Card) {
        self.functions.load(&card);
        self.records.load(&card);
        self.model = card;
    }

    /// The model's answer. A refusal must have changed nothing, and a done call must have cut no window, have counted each
    /// pointer, have freed no other blocks than it should, have added to the total what it should and have left alone what
    /// is not allocated.
    fn expect(&mut self, step: &Step, buffers: &mut Buffers) -> Result<u32, String> {
        let small = self.model.contents.len() <= 1 << 16;
        let before = (small.then(|| self.model.clone()), buffers.clone());
        let answer = number(match step {
            Step::Call(Direct::Format { blocks, roots, bytes }, _) => self.model.format(*blocks, *roots, *bytes),
            Step::Call(call, _) => match call.plain() {
                None => Err(model::MALFORMED),
                Some((port, plain)) => self.model.perform(port, &plain, buffers),
            },
            Step::Record(wire, kind, body) => model::serve(&mut self.model, *wire, *kind, body, buffers),
        });
        if answer != 0 && (before.0.as_ref().is_some_and(|b| *b != self.model) || before.1 != *buffers) {
            return Err("the model changed something in a refusal".to_string());
        }
        if let (0, Some(before), Some((_, call))) = (answer, &before.0, step.plain()) {
            if let Some(b) = cut(before, &self.model, &call) {
                return Err(format!("the model let a window of block {b} end sooner"));
            }
            if !counted(before, &self.model, &call, &buffers.places) {
                return Err("the model has not each pointer as often as it was made".to_string());
            }
            if !freed_as_counted(before, &self.model, &call, buffers.value) {
                return Err("the model freed others than a list of work over the counts".to_string());
            }
            if !charged(before, &self.model, &call) {
                return Err("the model added another sum to the total than it should".to_string());
            }
            if !waited(before, &self.model, &call, buffers.value) {
                return Err("the model has touched a block that is not allocated, or not overwritten it".to_string());
            }
        }
        Ok(answer)
    }

    /// One call on model and library, by function on one card and by record on the other; gives the answer, or the
    /// difference.
    fn step(&mut self, step: &Step, lent: &Buffers, reached: &mut Reached) -> Result<u32, String> {
        let mut expected = lent.clone();
        let key = step.plain().and_then(|(port, call)| key_change(&self.model, port, &call));
        let window = step.plain().and_then(|(port, call)| window_change(&self.model, port, &call));
        let creation = step.plain().and_then(|(port, call)| creation(&self.model, port, &call));
        let deletion = step.plain().and_then(|(port, call)| deletion(&self.model, port, &call));
        let tree = step.plain().and_then(|(port, call)| tree_deletion(&self.model, port, &call));
        let ticking = step.plain().and_then(|(_, call)| ticking(&self.model, &call));
        let renting = step.plain().and_then(|(_, call)| renting(&self.model, &call));
        let named = step.plain().and_then(|(port, call)| waiting_named(&self.model, port, &call));
        let allotment = step.plain().and_then(|(port, call)| allotment(&self.model, port, &call));
        let sweeping = step.plain().and_then(|(_, call)| sweeping(&self.model, &call));
        let answer = self.expect(step, &mut expected)?;
        if answer == 0 {
            count(&mut reached.key_changes, key);
            count(&mut reached.window_changes, window);
            count(&mut reached.tickings, ticking);
            count(&mut reached.rentings, renting);
            count(&mut reached.sweepings, sweeping);
        }
        let answered = |answers: &[u32]| answers.contains(&answer).then_some(answer);
        count(&mut reached.creations, creation.zip(answered(&CREATION_ANSWERS)));
        count(&mut reached.deletions, deletion.zip(answered(&DELETION_ANSWERS)));
        count(&mut reached.tree_deletions, tree.zip(answered(&TREE_ANSWERS)));
        let by_name = |(_, _, named): WaitingNamed| if named == Named::Reference { NOT_OPENED } else { NO_BLOCK };
        count(&mut reached.waiting_named, named.filter(|&named| answer == by_name(named)).zip(Some(answer)));
        count(&mut reached.allotments, allotment.zip(answered(&ALLOTMENT_ANSWERS)));
        let (by_function, by_record) = step.routes();
        if let Some(call) = &by_function {
            let mut buffers = LentBuffers::new(lent);
            let given = self.functions.call(call, &mut buffers);
            reached.note(0, index(call), given);
            compare("by function", given, answer, &self.functions, &self.model, &buffers, &expected)?;
        }
        let mut buffers = LentBuffers::new(lent);
        let (given, name) = match (&by_record, &by_function) {
            (Some((wire, kind, body)), _) => {
                let given = self.records.serve(*wire, *kind, body, &mut buffers);
                reached.note(1, record_index(*wire, *kind), given);
                (given, "by record")
            }
            (None, Some(call)) => (self.records.call(call, &mut buffers), "by function on the other card"),
            (None, None) => unreachable!(),
        };
        compare(name, given, answer, &self.records, &self.model, &buffers, &expected)?;
        reached.calls += 1;
        Ok(answer)
    }
}

#[derive(Debug)]
enum Step {
    /// A call, and the wire on which its record comes.
    Call(Direct, u8),
    /// The wire of a record, its kind and its body.
    Record(u8, u8, Vec<u8>),
}

/// The call of a record on a wire; None is refusal 13.
fn call_of(wire: u8, kind: u8, body: &[u8]) -> Option<(Port, Call)> {
    model::decode(port_of(wire)?, kind, body)
}

impl Step {
    /// The call on its wire: one at the service port on that alone, a host's on either.
    fn call(rnd: &mut Random, call: Direct) -> Self {
        let wire = if index(&call).1 == SERVICE { SERVICE } else { rnd.of(&[HOST, SERVICE]) };
        Step::Call(call, wire)
    }

    /// A spoilt record of the call on any wire.
    fn spoilt(rnd: &mut Random, call: &Direct) -> Self {
        let (kind, body) = spoilt_record(rnd, call);
        let wire = if rnd.percent(4) { rnd.of(&[2, 3, 128, 255]) } else { rnd.of(&[HOST, SERVICE]) };
        Step::Record(wire, kind, body)
    }

    /// The call, if it is well formed and not FORMAT.
    fn plain(&self) -> Option<(Port, Call)> {
        match self {
            Step::Call(call, _) => call.plain(),
            Step::Record(wire, kind, body) => call_of(*wire, *kind, body),
        }
    }

    /// The call by function and by record, where it has the form.
    fn routes(&self) -> (Option<Direct>, Option<(u8, u8, Vec<u8>)>) {
        match self {
            Step::Call(call, wire) => {
                let record = call.record().map(|(kind, body)| (*wire, kind, body)).filter(|(wire, kind, body)| {
                    let same = call_of(*wire, *kind, body) == call.plain();
                    assert!(same || call.plain().is_none(), "the record is not the call's");
                    same
                });
                (Some(call.clone()), record)
            }
            Step::Record(wire, kind, body) => {
                let call = call_of(*wire, *kind, body).map(|(port, call)| Direct::from(port, &call));
                (call, Some((*wire, *kind, body.clone())))
            }
        }
    }
}

fn compare(
    route: &str,
    given: u32,
    expected: u32,
    tables: &Tables,
    card: &Card,
    lent: &LentBuffers,
    buffers: &Buffers,
) -> Result<(), String> {
    if given != expected {
        return Err(format!("{route}: answer: library {given}, model {expected}"));
    }
    match tables.difference(card).or_else(|| lent.difference(buffers)) {
        Some(difference) => Err(format!("{route}: {difference}")),
        None => Ok(()),
    }
}

/// Random calls on one card. The error is the call's place on the card, the call and the difference.
fn differential(rnd: &mut Random, size: Size, calls: u64, reached: &mut Reached) -> Result<(), String> {
    let chooser = Chooser::any(false, &KEYS);
    let mut bench = Bench::new(random_card(rnd, size));
    if bench.model.audit().is_err() {
        return Err("the random card is not sound by the model".to_string());
    }
    for ordinal in 1..=calls {
        let damaged = rnd.percent(12);
        let format = rnd.percent(if damaged { 8 } else { 1 });
        let call = if format { random_format(rnd, &bench.model) } else { chooser.call(rnd, &bench.model) };
        let lent = buffers(rnd, &bench.model, Some(&call));
        let spoilt = !damaged && rnd.percent(10);
        let mut step = if spoilt { Step::spoilt(rnd, &call) } else { Step::call(rnd, call) };
        let report = |step: &Step, note: &str, difference: String| {
            let mut shown = format!("{step:?}");
            shown.truncate(600);
            format!("call {ordinal} on the card{note}: {shown}\n  {difference}")
        };
        if damaged {
            let sound = bench.model.clone();
            let mut card = sound.clone();
            let which = rnd.below(DAMAGES.len() as u64) as usize;
            if !damage(rnd, &mut card, which) {
                continue;
            }
            let note = format!(", damaged ({})", DAMAGES[which]);
            let expected = if which < SHAPE_DAMAGES { model::SHAPE } else { model::UNSOUND };
            if card.audit() != Err(expected) {
                return Err(report(&step, &note, format!("the model has not refused it {expected}")));
            }
            // FORMAT with operands that fit tables out of range.
            if let (Step::Call(Direct::Format { blocks, roots, bytes }, _), [n, r, b, ..]) = (&mut step, &card.info[..])
            {
                (*blocks, *roots, *bytes) = (*n, *r, *b);
            }
            bench.load(card);
            let answer = bench.step(&step, &lent, reached).map_err(|d| report(&step, &note, d))?;
            if answer == expected {
                *reached.damages.entry(which).or_default() += 1;
            }
            bench.load(sound);
        } else {
            bench.step(&step, &lent, reached).map_err(|d| report(&step, "", d))?;
            if bench.model.contents.len() <= 1 << 16 && bench.model.audit().is_err() {
                return Err(report(&step, "", "the card is no longer sound by the model".to_string()));
            }
        }
    }
    Ok(())
}

// ---- The run ----

/// Cards at the ends of the ranges, with few calls each since each call is compared whole.
const ENDS: [(Size, u64); 7] = [
    (Size { blocks: 16, roots: 8, bytes: 512, places: 1 }, 500),
    (Size { blocks: 16, roots: 1, bytes: 65_536, places: 16_384 }, 300),
    (Size { blocks: 4_096, roots: 8, bytes: 512, places: 16_384 }, 40),
    (Size { blocks: 4_096, roots: 1, bytes: 512, places: 16_384 }, 40),
    (Size { blocks: 4_096, roots: 1, bytes: 1_024, places: 4_095 }, 25),
    (Size { blocks: 4_095, roots: 2, bytes: 512, places: 16_383 }, 25),
    (Size { blocks: 4_096, roots: 1, bytes: 65_536, places: 16_384 }, 3),
];

/// Batches on cards at the ends of the ranges: how many, and the most records in each.
const BATCH_ENDS: [(Size, u64, u64); 4] = [
    (Size { blocks: 16, roots: 8, bytes: 512, places: 1 }, 20, 60),
    (Size { blocks: 16, roots: 1, bytes: 65_536, places: 16_384 }, 20, 20),
    (Size { blocks: 64, roots: 2, bytes: 1_024, places: 200 }, 20, 60),
    (Size { blocks: 4_096, roots: 1, bytes: 512, places: 16_384 }, 2, 8),
];

fn run_batches(count: u64, seed: u64, whole: bool, seen: &mut Batches) -> Result<(), String> {
    let mut card = 0;
    let mut next = |size: Option<(Size, u64, u64)>, seen: &mut Batches| {
        card += 1;
        let mut rnd = Random(seed.wrapping_mul(9_000_011).wrapping_add(card));
        let (size, batches_here, most) = size.unwrap_or_else(|| {
            let size = random_size(&mut rnd);
            let heavy = size.blocks > 100 || size.bytes > 1_024 || size.places > 2_000;
            (size, if heavy { 1 } else { 4 }, if heavy { 15 } else { 70 })
        });
        batches(&mut rnd, size, batches_here, most, seen).map_err(|e| {
            format!("batch card {card} (N {}, R {}, B {}, P {}), {e}", size.blocks, size.roots, size.bytes, size.places)
        })
    };
    for &end in BATCH_ENDS.iter().filter(|_| whole) {
        next(Some(end), seen)?;
    }
    while seen.batches < count {
        next(None, seen)?;
    }
    println!(
        "batch: {} batches ({} of them on damaged tables) on {} cards, {} records ({} done), stops: {}, no difference",
        seen.batches,
        seen.damaged,
        seen.cards,
        seen.records,
        seen.done,
        seen.stops()
    );
    Ok(())
}

/// Bytes at the ports: so many cards for each test, each with its own seed.
fn run_wires(calls: u64, seed: u64, seen: &mut Seen) -> Result<(), String> {
    let random = |test: u64, card: u64| Random(seed.wrapping_mul(11_000_003 + test).wrapping_add(card));
    for card in 0..calls / 750 {
        bytes(&mut random(0, card), &mut seen.bytes).map_err(|e| format!("card {card}, {e}"))?;
    }
    println!("{}", seen.bytes.summary());
    for card in 0..calls / 1_500 {
        service_kinds(&mut random(2, card), &mut seen.service).map_err(|e| format!("card {card}, service {e}"))?;
    }
    println!("{}", seen.service.summary());
    for card in 0..(calls / 150_000).max(1) {
        all_kinds(&mut random(6, card), &mut seen.kinds).map_err(|e| format!("card {card}, {e}"))?;
    }
    println!("{}", seen.kinds.summary());
    for card in 0..(calls / 150_000).max(1) {
        other_ports(&mut random(4, card), &mut seen.ports).map_err(|e| format!("card {card}, {e}"))?;
    }
    println!("{}", seen.ports.summary());
    Ok(())
}

fn run_secrecy(calls: u64, seed: u64, seen: &mut Seen) -> Result<(), String> {
    for session in 0..calls / 100 {
        let mut rnd = Random(seed.wrapping_mul(7_000_003).wrapping_add(session));
        secrecy(&mut rnd, &mut seen.secrecy).map_err(|e| format!("session {session}, secrecy, {e}"))?;
    }
    println!("secrecy: {}, no difference", seen.secrecy.summary());
    for session in 0..calls / 100 {
        let mut rnd = Random(seed.wrapping_mul(13_000_027).wrapping_add(session));
        byte_secrecy(&mut rnd, &mut seen.byte_secrecy)
            .map_err(|e| format!("session {session} of bytes, secrecy, {e}"))?;
    }
    println!("secrecy of bytes: {}, no difference", seen.byte_secrecy.summary());
    Ok(())
}

/// Random calls, first on cards at the ends of the ranges.
fn run_calls(calls: u64, seed: u64, whole: bool, reached: &mut Reached) -> Result<(), String> {
    let mut card = 0;
    for (size, count) in ENDS.iter().filter(|_| whole) {
        card += 1;
        let seed = seed.wrapping_mul(1_000_003).wrapping_add(card);
        differential(&mut Random(seed), *size, *count, reached)
            .map_err(|e| format!("card {card} (N {}, P {}), {e}", size.blocks, size.places))?;
    }
    while reached.calls < calls {
        card += 1;
        let mut rnd = Random(seed.wrapping_mul(1_000_003).wrapping_add(card));
        let size = random_size(&mut rnd);
        let heavy = size.blocks > 100 || size.bytes > 1_024 || size.places > 2_000;
        let count = (if heavy { 15 } else { 150 }).min(calls - reached.calls);
        differential(&mut rnd, size, count, reached).map_err(|e| {
            format!("card {card} (N {}, R {}, B {}, P {}), {e}", size.blocks, size.roots, size.bytes, size.places)
        })?;
    }
    println!("differential: {} calls on {card} cards, each by function and by record, no difference", reached.calls);
    Ok(())
}

/// What each part has come across.
#[derive(Default)]
struct Seen {
    reached: Reached,
    batches: Batches,
    bytes: Bytes,
    service: ServiceKinds,
    kinds: AllKinds,
    ports: OtherPorts,
    reports: Reports,
    secrecy: Secrecy,
    byte_secrecy: ByteSecrecy,
}

impl Seen {
    /// What can occur and did not.
    fn missing(&self) -> Vec<String> {
        let mut missing = self.reached.table();
        missing.extend(self.batches.missing());
        missing.extend(self.bytes.missing());
        missing.extend(self.service.missing());
        missing.extend(self.kinds.missing());
        missing.extend(self.ports.missing());
        missing.extend(self.reports.missing());
        missing.extend(self.secrecy.missing());
        missing.extend(self.byte_secrecy.missing());
        missing
    }
}

fn run(calls: u64, seed: u64, seen: &mut Seen) -> Result<(), String> {
    let rows = trials()?;
    println!("trials of the documents: {rows} of {rows} as written");
    let whole = calls >= DEFAULT_CALLS;
    run_calls(calls, seed, whole, &mut seen.reached)?;
    run_batches(calls / 50, seed, whole, &mut seen.batches)?;
    run_wires(calls, seed, seen)?;
    reach::run(calls / 30, seed, whole, &mut seen.reports)?;
    run_secrecy(calls, seed, seen)
}

fn main() {
    let (mut calls, mut seed) = (DEFAULT_CALLS, DEFAULT_SEED);
    let mut words = std::env::args().skip(1);
    while let Some(option) = words.next() {
        let value = words.next().and_then(|w| w.parse().ok());
        match (option.as_str(), value) {
            ("--calls", Some(n)) => calls = n,
            ("--seed", Some(n)) => seed = n,
            _ => {
                eprintln!("usage: differential [--calls N] [--seed S]");
                std::process::exit(2);
            }
        }
    }
    println!("seed {seed}, {calls} calls");
    let mut seen = Seen::default();
    if let Err(report) = run(calls, seed, &mut seen) {
        println!("DIFFERENCE with --calls {calls} --seed {seed}: {report}");
        std::process::exit(1);
    }
    let missing = seen.missing();
    missing.iter().for_each(|m| println!("not reached: {m}"));
    if !missing.is_empty() && calls >= DEFAULT_CALLS {
        std::process::exit(1);
    }
}
