//! The reach report: both lists by the library against the model, which has them by their definitions.
//!
//! On cards by hand with their lists written out, and on random cards and keys; the record, every table, the keys and
//! every place behind a list must stay as they were. And host sessions that present no other keys than those given: no
//! call of them opens a block that the first list has not.

use crate::damage::{damage, DAMAGES, SHAPE_DAMAGES};
use crate::library::{differs, Direct, Lent, LentBuffers, Tables};
use crate::model::{
    given_keys, key_words, number, word, Answer, Buffers, Call, Card, Key, Operation, ALLOCATED, READ_KEY, SHAPE,
    UNSOUND, WAITING, WRITE_KEY,
};
use crate::random_call::{buffers, Chooser};
use crate::random_card::{random_card, Random, Size, KEYS};
use crate::secrecy::presented_by;
use std::collections::BTreeMap;

/// What each ask can come to, of either list, and what must occur among those that are done.
const CASES: [&str; 32] = [
    "within reach: no key",
    "within reach: one key",
    "within reach: 64 keys",
    "within reach: a key twice",
    "within reach: a key that no block has",
    "within reach: all allocated blocks",
    "within reach: blocks that wait are not listed",
    "within reach: a block by its window alone",
    "within reach: a window that has just ended",
    "within reach: just enough places",
    "within reach: 16 blocks",
    "within reach: 4,096 blocks",
    "within reach: 1",
    "within reach: 2",
    "within reach: 4 by an odd number of words",
    "within reach: 4 by a 65th key",
    "within reach: 4 by too few places",
    "unlocking: none",
    "unlocking: one",
    "unlocking: several",
    "unlocking: the chosen block itself",
    "unlocking: two by one write key",
    "unlocking: one by another block's read key",
    "unlocking: 64 keys",
    "unlocking: just enough places",
    "unlocking: 1",
    "unlocking: 2",
    "unlocking: 4 by an odd number of words",
    "unlocking: 4 by a 65th key",
    "unlocking: 4 by a block within reach",
    "unlocking: 4 by too few places",
    "unlocking: 3 without a place",
];

/// More of a block that is refused 3.
const MISSING: [&str; 4] =
    ["unlocking: 3 above N", "unlocking: 3 free", "unlocking: 3 waiting", "unlocking: 4 by keys, before 3"];

#[derive(Default)]
pub struct Reports {
    pub asked: u64,
    pub cards: u64,
    cases: BTreeMap<&'static str, u64>,
    sessions: u64,
    calls: u64,
    done: u64,
    hidden: u64,
}

impl Reports {
    fn note(&mut self, case: &'static str, holds: bool) {
        *self.cases.entry(case).or_default() += holds as u64;
    }

    pub fn summary(&self) -> String {
        format!(
            "reach: {} lists asked for on {} cards; {} sessions, {} calls ({} done) that opened none of {} hidden blocks; \
             no difference",
            self.asked, self.cards, self.sessions, self.calls, self.done, self.hidden
        )
    }

    /// What can occur and did not.
    pub fn missing(&self) -> Vec<String> {
        let seen = |case: &str| self.cases.get(case).is_some_and(|&count| count > 0);
        let mut missing: Vec<String> =
            CASES.iter().chain(&MISSING).filter(|case| !seen(case)).map(|case| format!("reach: {case}")).collect();
        if self.done == 0 || self.hidden == 0 {
            missing.push("reach: a session with a call that is done, and hidden blocks".to_string());
        }
        missing
    }
}

// ---- One list ----

/// A list that is asked for: within reach of the keys, or what unlocks the chosen block.
struct Ask {
    chosen: Option<u16>,
    given: Vec<u64>,
}

impl Ask {
    fn by_model(&self, card: &Card, lent: &mut Buffers) -> Answer {
        match self.chosen {
            None => card.reach(&self.given, &mut lent.places, &mut lent.value),
            Some(block) => card.unlocking(block, &self.given, &mut lent.places, &mut lent.value),
        }
    }

    /// The list by the model, on a sound card, whether it is refused or not.
    fn list(&self, card: &Card) -> Vec<u16> {
        let keys = given_keys(&self.given).unwrap_or_default();
        match self.chosen {
            None => card.reach_list(&keys),
            Some(block) => card.unlocking_list(&keys, block as usize),
        }
    }
}

/// Asks model and library: the answer, and what the buffers then hold; or the difference.
fn compare(tables: &mut Tables, card: &Card, ask: &Ask, lent: &Buffers) -> Result<(u32, Buffers), String> {
    let mut expected = lent.clone();
    let answer = number(ask.by_model(card, &mut expected));
    let (mut given, mut buffers) = (Lent::new(&ask.given, 0xA5A5_A5A5_A5A5_A5A5), LentBuffers::new(lent));
    let by_library = tables.report(ask.chosen, &mut given, &mut buffers);
    if by_library != answer {
        return Err(format!("answer: library {by_library}, model {answer}"));
    }
    let changed = tables.difference(card).or_else(|| differs("given", &given, &ask.given));
    match changed.or_else(|| buffers.difference(&expected)) {
        Some(difference) => Err(difference),
        None => Ok((answer, expected)),
    }
}

/// The blocks that the library lists as within reach of the keys.
fn listed(tables: &mut Tables, card: &Card, keys: &[Key]) -> Result<Vec<u16>, String> {
    let lent = Buffers { out: Vec::new(), places: vec![0; card.blocks()], value: 0 };
    let (answer, after) = compare(tables, card, &Ask { chosen: None, given: key_words(keys) }, &lent)?;
    match answer {
        0 => Ok(after.places[..after.value as usize].to_vec()),
        refusal => Err(format!("the report is refused {refusal}")),
    }
}

/// Whether the library's list and these hidden blocks are all allocated blocks, and none is both.
pub fn agrees(tables: &mut Tables, card: &Card, presented: &[Key], hidden: &[bool]) -> Result<(), String> {
    let mut keys: Vec<Key> = Vec::new();
    for &key in presented {
        if !keys.contains(&key) {
            keys.push(key);
        }
    }
    if keys.len() > 64 {
        return Ok(());
    }
    let list = listed(tables, card, &keys)?;
    match (0..card.blocks()).find(|&b| card.allocated(b) && hidden[b] == list.contains(&(b as u16))) {
        Some(b) => Err(format!("block {b} is hidden and listed, or neither")),
        None => Ok(()),
    }
}

// ---- Cards by hand ----

/// A key by one number.
fn key(low: u64) -> Key {
    Key { high: 7, low }
}

/// A card of so many blocks with a root, these pointers, and these keys: block, read key and write key, 0 for none.
fn card_of(n: usize, pointers: &[(usize, usize)], keys: &[(usize, u64, u64)]) -> Card {
    let mut card = Card {
        info: vec![n as u64, 1, 512, 0, 0, 0],
        flags: vec![0; n],
        keys: vec![0; 4 * n],
        counts: vec![0; n],
        pointers: vec![0; 2 * n],
        multiplicities: vec![0; 2 * n],
        windows: vec![0; 2 * n],
        contents: vec![0; 512 * n],
    };
    card.flags[0] = ALLOCATED;
    pointers.iter().for_each(|&(_, destination)| card.flags[destination] = ALLOCATED);
    // What is within reach does not depend on how often a block points to another.
    let often = (1..=3).cycle();
    card.draw_pointers(pointers.iter().zip(often).map(|(&(s, d), times)| (word(s, d), times)).collect());
    for &(b, read, write) in keys {
        for (flag, at, low) in [(READ_KEY, 4 * b, read), (WRITE_KEY, 4 * b + 2, write)] {
            if low != 0 {
                card.flags[b] |= flag;
                card.keys[at..at + 2].copy_from_slice(&[key(low).high, low]);
            }
        }
    }
    card
}

/// A card of 16 blocks.
fn by_hand(pointers: &[(usize, usize)], keys: &[(usize, u64, u64)]) -> Card {
    card_of(16, pointers, keys)
}

/// The lists that must come on a card for the keys: within reach, and for each chosen block what unlocks it.
fn written(card: &Card, keys: &[Key], within: &[u16], unlocking: &[(u16, &[u16])]) -> Result<(), String> {
    let mut tables = Tables::new(card);
    let mut asks = vec![(None, within)];
    asks.extend(unlocking.iter().map(|&(chosen, list)| (Some(chosen), list)));
    for (chosen, list) in asks {
        let lent = Buffers { out: Vec::new(), places: vec![9_999; list.len() + 1], value: 9_999 };
        let (answer, after) = compare(&mut tables, card, &Ask { chosen, given: key_words(keys) }, &lent)?;
        let expected = [list, &[9_999]].concat();
        if answer != 0 || after.places != expected || after.value != list.len() as u64 {
            return Err(format!("chosen {chosen:?}: answer {answer}, places {:?}, not {expected:?}", after.places));
        }
    }
    Ok(())
}

/// Lists that are written out.
fn by_hand_cases() -> Result<(), String> {
    // Two directories that are sealed; below each a block without keys, and one that both point to.
    let two = [(0, 1), (0, 2), (1, 3), (1, 5), (2, 4), (2, 5)];
    let card = by_hand(&two, &[(1, 11, 12), (2, 21, 22)]);
    written(&card, &[], &[0], &[(1, &[1]), (3, &[1]), (4, &[2]), (5, &[1, 2])])?;
    written(&card, &[key(11)], &[0, 1, 3, 5], &[(2, &[2]), (4, &[2])])?;
    written(&card, &[key(12), key(12), key(22)], &[0, 1, 2, 3, 4, 5], &[])?;
    written(&card, &[key(99); 64], &[0], &[(5, &[1, 2])])?;
    // One write key for both: each of them brings what the other has.
    let card = by_hand(&two, &[(1, 11, 12), (2, 21, 12)]);
    written(&card, &[], &[0], &[(3, &[1, 2]), (4, &[1, 2])])?;
    // The write key of the first is the read key of the second, not the other way round.
    let card = by_hand(&two, &[(1, 11, 12), (2, 12, 22)]);
    written(&card, &[], &[0], &[(3, &[1]), (4, &[1, 2])])?;
    // Sealed within sealed: the inner one is opened by its own key alone, as is what is below it.
    let card = by_hand(&[(0, 1), (1, 2), (2, 3), (3, 4), (4, 2)], &[(1, 11, 12), (3, 31, 32)]);
    written(&card, &[], &[0], &[(2, &[1, 3]), (3, &[3]), (4, &[3])])?;
    written(&card, &[key(12)], &[0, 1, 2], &[(4, &[3])])?;
    // One key alone does not seal. A sealed root is hidden, and what is below it.
    let card = by_hand(&[(0, 1), (1, 2)], &[(1, 0, 12), (2, 21, 0)]);
    written(&card, &[], &[0, 1, 2], &[])?;
    let card = by_hand(&[(0, 1), (1, 2)], &[(0, 1, 2), (2, 21, 0)]);
    written(&card, &[key(21)], &[2], &[(0, &[0]), (1, &[0])])?;
    // Two blocks that point to each other and to which no way leads: nothing opens them.
    let card = by_hand(&[(0, 1), (2, 3), (3, 2)], &[(1, 11, 12)]);
    written(&card, &[], &[0], &[(2, &[]), (3, &[])])?;
    // A window that is open at T, and the same one when it ends.
    let mut card = by_hand(&two, &[(1, 11, 12), (2, 21, 22)]);
    card.windows[2] = 1;
    written(&card, &[], &[0, 1, 3, 5], &[(4, &[2])])?;
    card.info[4] = 1;
    written(&card, &[], &[0], &[(3, &[1])])?;
    // All other blocks wait: the lists are the same.
    card.flags[6..].fill(WAITING);
    written(&card, &[], &[0], &[(3, &[1]), (5, &[1, 2])])?;
    written(&card, &[key(12), key(22)], &[0, 1, 2, 3, 4, 5], &[])
}

/// A full card whose blocks stand in a row, each 64th sealed: by keys of its own, or all by the same write key.
fn rows_by_hand() -> Result<(), String> {
    let row: Vec<(usize, usize)> = (1..4_096).map(|b| (b - 1, b)).collect();
    let sealed: Vec<usize> = (64..4_096).step_by(64).collect();
    let first: Vec<u16> = (0..64).collect();
    let own: Vec<_> = sealed.iter().map(|&b| (b, 2 * b as u64, 2 * b as u64 + 1)).collect();
    written(&card_of(4_096, &row, &own), &[], &first, &[(4_095, &[4_032]), (4_031, &[3_968]), (4_032, &[4_032])])?;
    let same: Vec<_> = sealed.iter().map(|&b| (b, 2 * b as u64, 1)).collect();
    let all: Vec<u16> = sealed.iter().map(|&b| b as u16).collect();
    let card = card_of(4_096, &row, &same);
    written(&card, &[], &first, &[(4_095, &all), (64, &all)])?;
    written(&card, &[key(9_999), key(1)], &(0..4_096).collect::<Vec<u16>>(), &[])
}

// ---- Random cards ----

/// Allots two blocks that point to each other and to which no way leads from a root, if there is room for them.
fn lose_two(card: &mut Card) {
    let free: Vec<usize> = (0..card.blocks()).filter(|&b| !card.allocated(b)).collect();
    if free.len() < 2 || card.used() + 2 > card.pointers.len() {
        return;
    }
    let (one, other) = (free[0], free[free.len() - 1]);
    let lost = [(word(one, other), 1), (word(other, one), 2)];
    card.draw_pointers(card.in_use().chain(lost).collect());
    [one, other].into_iter().for_each(|b| card.flags[b] = ALLOCATED);
}

/// A sound card with windows mostly shut and more sealed blocks than by chance, many by keys of their own.
fn sealed_card(rnd: &mut Random, size: Size) -> Result<Card, String> {
    let mut card = random_card(rnd, size);
    if rnd.percent(30) {
        lose_two(&mut card);
    }
    let (shut, sealed, own) = (rnd.of(&[30, 90, 100]), rnd.of(&[0, 20, 50, 100]), rnd.of(&[0, 50, 95]));
    for b in (0..card.blocks()).filter(|&b| card.allocated(b)).collect::<Vec<_>>() {
        if rnd.percent(shut) {
            card.windows[2 * b..2 * b + 2].fill(card.info[4]);
        }
        if rnd.percent(sealed) {
            card.flags[b] |= READ_KEY | WRITE_KEY;
            for i in 0..2 {
                let key = if rnd.percent(own) { Key { high: b as u64, low: i } } else { rnd.of(&KEYS) };
                card.keys[4 * b + 2 * i as usize..][..2].copy_from_slice(&[key.high, key.low]);
            }
        }
    }
    card.audit().map_err(|a| format!("the card is refused {a} by the model"))?;
    Ok(card)
}

/// A key that some block has, or any.
fn random_key(rnd: &mut Random, card: &Card) -> Key {
    let b = rnd.below(card.blocks() as u64) as usize;
    let operation = rnd.of(&[Operation::Reading, Operation::Writing]);
    match card.key(b, operation) {
        Some(key) => key,
        None if rnd.percent(30) => rnd.of(&KEYS),
        None => Key { high: rnd.next(), low: rnd.next() },
    }
}

/// The words of keys: none, few, just as many as may be given or one more, or an odd number of words.
fn random_words(rnd: &mut Random, card: &Card) -> Vec<u64> {
    let count = match rnd.below(20) {
        0..=3 => 0,
        4..=7 => 1,
        8..=14 => rnd.within(2, 6),
        15..=17 => 64,
        18 => 65,
        _ => rnd.within(7, 70),
    };
    let few: Vec<Key> = (0..rnd.within(1, 8)).map(|_| random_key(rnd, card)).collect();
    let keys: Vec<Key> = (0..count).map(|_| if count < 7 { random_key(rnd, card) } else { rnd.of(&few) }).collect();
    let mut words = key_words(&keys);
    if rnd.percent(6) {
        words.push(rnd.next());
    } else if rnd.percent(2) {
        words.pop();
    }
    words
}

/// A block to choose: mostly a hidden one, a sealed one among them.
fn random_chosen(rnd: &mut Random, card: &Card, keys: &[Key]) -> u16 {
    let hidden = card.hidden(keys);
    let n = card.blocks() as u64;
    let start = rnd.below(n) as usize;
    let mut from_start = (0..card.blocks()).map(|i| (start + i) % card.blocks());
    let found = match rnd.below(10) {
        0 => return rnd.of(&[n as u16, n as u16 + 1, 4_095, 4_096, 65_535]),
        1 if rnd.percent(50) => from_start.find(|&b| card.waiting(b)),
        1 => from_start.find(|&b| card.free(b)),
        2 => from_start.find(|&b| hidden[b] && card.sealed(keys, b)),
        3 => Some(start),
        _ => from_start.find(|&b| hidden[b] && !card.sealed(keys, b)),
    };
    found.unwrap_or(start) as u16
}

/// Buffers with as many places as the list has, one less, one more, or many; all with something in them.
fn random_lent(rnd: &mut Random, card: &Card, list: &[u16]) -> Buffers {
    let count = match rnd.below(8) {
        0 | 1 => list.len(),
        2 => list.len().saturating_sub(1),
        3 => list.len() + 1,
        4 => 0,
        _ => card.blocks() + 1,
    };
    Buffers { out: Vec::new(), places: (0..count).map(|_| rnd.next() as u16).collect(), value: rnd.next() }
}

// ---- What was reached ----

/// The case of a refusal; None for a number that the list is never refused.
fn refusal_case(ask: &Ask, card: &Card, answer: u32, places: usize) -> Option<&'static str> {
    let within = |keys: &[Key], b: u16| card.within_reach(keys).get(b as usize) == Some(&true);
    let keys = given_keys(&ask.given);
    let odd = ask.given.len() % 2 == 1;
    Some(match (ask.chosen, answer, keys) {
        (None, 1, _) => "within reach: 1",
        (None, 2, _) => "within reach: 2",
        (None, 4, None) if odd => "within reach: 4 by an odd number of words",
        (None, 4, None) => "within reach: 4 by a 65th key",
        (None, 4, Some(_)) => "within reach: 4 by too few places",
        (Some(_), 1, _) => "unlocking: 1",
        (Some(_), 2, _) => "unlocking: 2",
        (Some(b), 4, None) if !card.allocated(b as usize) => "unlocking: 4 by keys, before 3",
        (Some(_), 4, None) if odd => "unlocking: 4 by an odd number of words",
        (Some(_), 4, None) => "unlocking: 4 by a 65th key",
        (Some(b), 4, Some(keys)) if within(&keys, b) => "unlocking: 4 by a block within reach",
        (Some(_), 4, Some(_)) => "unlocking: 4 by too few places",
        (Some(_), 3, _) if places == 0 => "unlocking: 3 without a place",
        (Some(b), 3, _) if b as usize >= card.blocks() => "unlocking: 3 above N",
        (Some(b), 3, _) if card.waiting(b as usize) => "unlocking: 3 waiting",
        (Some(_), 3, _) => "unlocking: 3 free",
        _ => return None,
    })
}

/// Notes a list of blocks within reach.
fn note_within(card: &Card, keys: &[Key], list: &[u16], places: usize, seen: &mut Reports) {
    let on_card = |k: &Key| {
        (0..card.blocks()).any(|b| [Operation::Reading, Operation::Writing].map(|o| card.key(b, o)).contains(&Some(*k)))
    };
    let windows = |b: usize| [card.windows[2 * b], card.windows[2 * b + 1]];
    let mut shut = card.clone();
    shut.windows.fill(0);
    let without = shut.reach_list(keys);
    seen.note("within reach: no key", keys.is_empty());
    seen.note("within reach: one key", keys.len() == 1);
    seen.note("within reach: 64 keys", keys.len() == 64);
    seen.note("within reach: a key twice", (1..keys.len()).any(|i| keys[..i].contains(&keys[i])));
    seen.note("within reach: a key that no block has", keys.iter().any(|k| !on_card(k)));
    let unallocated = card.free_blocks() + card.waiting_blocks().len();
    seen.note("within reach: all allocated blocks", list.len() == card.blocks() - unallocated);
    let listed = |b: &usize| list.contains(&(*b as u16));
    let waiting = card.waiting_blocks();
    seen.note("within reach: blocks that wait are not listed", !waiting.is_empty() && !waiting.iter().any(listed));
    seen.note("within reach: a block by its window alone", without != list);
    let ended = |&b: &u16| !list.contains(&b) && card.time() > 0 && windows(b as usize).contains(&card.time());
    seen.note("within reach: a window that has just ended", (0..card.blocks() as u16).any(|b| ended(&b)));
    seen.note("within reach: just enough places", places == list.len());
    seen.note("within reach: 16 blocks", card.blocks() == 16);
    seen.note("within reach: 4,096 blocks", card.blocks() == 4_096);
}

/// Notes a list of blocks that unlock another.
fn note_unlocking(card: &Card, keys: &[Key], chosen: u16, list: &[u16], places: usize, seen: &mut Reports) {
    let write = |b: &u16| card.key(*b as usize, Operation::Writing);
    let twice = (1..list.len()).any(|i| list[..i].iter().any(|other| write(other) == write(&list[i])));
    // Its write key is the read key of another sealed block, and the write key of none.
    let elsewhere = |s: &u16| {
        let others: Vec<u16> = (0..card.blocks() as u16).filter(|b| b != s).collect();
        let reads = |b: &u16| card.key(*b as usize, Operation::Reading) == write(s) && card.sealed(keys, *b as usize);
        card.key(*s as usize, Operation::Reading) != write(s)
            && others.iter().any(reads)
            && !others.iter().any(|b| write(b) == write(s))
    };
    seen.note("unlocking: none", list.is_empty());
    seen.note("unlocking: one", list.len() == 1);
    seen.note("unlocking: several", list.len() > 1);
    seen.note("unlocking: the chosen block itself", list.contains(&chosen));
    seen.note("unlocking: two by one write key", twice);
    seen.note("unlocking: one by another block's read key", list.iter().any(elsewhere));
    seen.note("unlocking: 64 keys", keys.len() == 64);
    seen.note("unlocking: just enough places", places == list.len());
}

fn note(
    ask: &Ask,
    card: &Card,
    answer: u32,
    lent: &Buffers,
    after: &Buffers,
    seen: &mut Reports,
) -> Result<(), String> {
    seen.asked += 1;
    if answer != 0 {
        let case = refusal_case(ask, card, answer, lent.places.len());
        seen.note(case.ok_or(format!("refused {answer}"))?, true);
        return Ok(());
    }
    let keys = given_keys(&ask.given).ok_or("done with keys that are none")?;
    let list = &after.places[..after.value as usize];
    match ask.chosen {
        None => note_within(card, &keys, list, lent.places.len(), seen),
        Some(chosen) => note_unlocking(card, &keys, chosen, list, lent.places.len(), seen),
    }
    Ok(())
}

// ---- The run ----

/// Asks on one card, now and then a damaged one.
pub fn reports(rnd: &mut Random, size: Size, asks: u64, seen: &mut Reports) -> Result<(), String> {
    let card = sealed_card(rnd, size)?;
    let mut tables = Tables::new(&card);
    seen.cards += 1;
    for ordinal in 1..=asks {
        let given = random_words(rnd, &card);
        let keys = given_keys(&given).unwrap_or_default();
        let chosen = rnd.percent(60).then(|| random_chosen(rnd, &card, &keys));
        let ask = Ask { chosen, given };
        let lent = random_lent(rnd, &card, &ask.list(&card));
        let report = |difference| format!("ask {ordinal}, chosen {chosen:?}, words {:?}\n  {difference}", ask.given);
        let mut asked = card.clone();
        let which = rnd.below(DAMAGES.len() as u64) as usize;
        let damaged = rnd.percent(8) && damage(rnd, &mut asked, which);
        tables.load(&asked);
        let (answer, after) = compare(&mut tables, &asked, &ask, &lent).map_err(report)?;
        let expected = if which < SHAPE_DAMAGES { SHAPE } else { UNSOUND };
        if damaged && answer != expected {
            return Err(report(format!("damaged ({}), and answered {answer}", DAMAGES[which])));
        }
        note(&ask, &card, answer, &lent, &after, seen).map_err(report)?;
    }
    Ok(())
}

/// The blocks that a host's call opens if it is done.
fn opened_by(call: &Call) -> Vec<u16> {
    match call {
        Call::Read { block, .. }
        | Call::Write { block, .. }
        | Call::KeyRead { block, .. }
        | Call::KeyWrite { block, .. }
        | Call::Renew { block, .. } => vec![*block],
        Call::Alloc { reference, .. } | Call::AllocContig { reference, .. } => vec![*reference],
        Call::Create { source, destination, .. } => vec![*source, *destination],
        Call::Delete { source, .. } | Call::DeleteTree { source, .. } => vec![*source],
        _ => vec![],
    }
}

/// A host session that presents the keys given and no others: it opens no hidden block that has not been freed, and only
/// a DELETE frees one.
pub fn opens_listed(rnd: &mut Random, seen: &mut Reports) -> Result<(), String> {
    let size = Size { bytes: 512, blocks: rnd.within(16, 32), roots: rnd.within(1, 3), places: rnd.within(20, 90) };
    let mut card = sealed_card(rnd, size)?;
    let mut tables = Tables::new(&card);
    let keys: Vec<Key> = (0..rnd.below(4)).map(|_| random_key(rnd, &card)).collect();
    let list = listed(&mut tables, &card, &keys)?;
    let mut hidden: Vec<bool> = (0..card.blocks()).map(|b| card.allocated(b) && !list.contains(&(b as u16))).collect();
    seen.sessions += 1;
    seen.hidden += hidden.iter().filter(|&&h| h).count() as u64;
    let chooser = Chooser::any(true, &keys);
    for _ in 0..40 {
        let direct: Direct = chooser.call(rnd, &card);
        let lent = buffers(rnd, &card, Some(&direct));
        let (_, call) = direct.plain().ok_or("a host call of the session is ill formed")?;
        if presented_by(&call).iter().any(|k| !keys.contains(k)) {
            continue;
        }
        let mut lent = LentBuffers::new(&lent);
        let answer = tables.call(&direct, &mut lent);
        seen.calls += 1;
        if answer == 0 {
            seen.done += 1;
            if let Some(b) = opened_by(&call).into_iter().find(|&b| hidden[b as usize]) {
                return Err(format!("block {b} is hidden by the report, and {call:?} is done"));
            }
            if let Call::Delete { destination, .. } = call {
                hidden[destination as usize] &= lent.value.values()[0] == 0;
            }
        }
        card = tables.card();
        if let Some(b) = (0..card.blocks()).find(|&b| hidden[b] && !card.allocated(b)) {
            return Err(format!(
                "block {b} is hidden by the report, and no DELETE took its last pointer, but it is freed"
            ));
        }
    }
    Ok(())
}

/// Cards by hand, then random ones: at the ends of the range of N and between.
pub fn run(asks: u64, seed: u64, whole: bool, seen: &mut Reports) -> Result<(), String> {
    by_hand_cases().and_then(|()| rows_by_hand()).map_err(|e| format!("reach, a card by hand: {e}"))?;
    let random = |card: u64| Random(seed.wrapping_mul(17_000_023).wrapping_add(card));
    for (i, blocks) in [16, 4_096, 4_096].into_iter().enumerate().filter(|_| whole) {
        let size = Size { blocks, roots: 1 + i as u64, bytes: 512, places: if i == 0 { 32 } else { 16_384 } };
        let asks = if blocks == 16 { 100 } else { 8 };
        reports(&mut random(i as u64), size, asks, seen).map_err(|e| format!("reach, N {blocks}: {e}"))?;
    }
    let mut card = 10;
    while seen.asked < asks {
        card += 1;
        let rnd = &mut random(card);
        let blocks = if rnd.percent(97) { rnd.within(16, 40) } else { rnd.within(41, 300) };
        let size = Size { blocks, roots: rnd.within(1, 8), bytes: 512, places: rnd.within(8, 4 * blocks) };
        reports(rnd, size, 25, seen).map_err(|e| format!("reach, card {card} (N {blocks}): {e}"))?;
    }
    for session in 0..asks / 10 {
        let rnd = &mut Random(seed.wrapping_mul(19_000_013).wrapping_add(session));
        opens_listed(rnd, seen).map_err(|e| format!("reach, session {session}: {e}"))?;
    }
    println!("{}", seen.summary());
    Ok(())
}
