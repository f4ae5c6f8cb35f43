//! The documents' own trials, on library and model: the example of ten records, T1 to T12, and rows of the requests.

use crate::compare;
use crate::library::{self, Direct, LentBatch, LentBuffers, Tables};
use crate::model::{
    self, number, word, Buffers, Call, Card, Credential, Key, Port, Progress, ALLOCATED, CANNOT_POINT, HAS_WRITE_KEY,
    HIGHEST_MULTIPLICITY, MALFORMED, NO_HINT, NO_POINTER, PRICE_TOO_HIGH, READ_KEY, RECORD, SHAPE, TIME_END, UNSOUND,
    WAITING, WRITE_KEY,
};
use crate::random_card::KEYS;

pub const SERVICE: Port = Port::Service;
pub const HOST: Port = Port::Host;

/// A row of trials: its name, and each call with its port and its line as the player prints it, without the ordinal; SWEEP,
/// which no record carries, has its name in place of a kind.
type Row = (&'static str, Vec<(Port, Call, &'static str)>);

/// A card on library and model.
pub struct Player {
    pub model: Card,
    pub tables: Tables,
}

/// Tables of a card with N blocks of 512 bytes and P places, all zero.
fn blank(blocks: usize, places: usize) -> Card {
    Card {
        info: vec![0; RECORD],
        flags: vec![0; blocks],
        keys: vec![0; 4 * blocks],
        counts: vec![0; blocks],
        pointers: vec![0; places],
        multiplicities: vec![0; places],
        windows: vec![0; 2 * blocks],
        contents: vec![0; 512 * blocks],
    }
}

impl Player {
    /// A fresh player's card: N 16, R 1, B 512, P 32, contents zero, formatted by the library.
    pub fn new() -> Self {
        let mut player = Player::of(blank(16, 32));
        player.format();
        player
    }

    fn format(&mut self) {
        let mut none = LentBuffers::new(&Buffers { out: vec![], places: vec![], value: 0 });
        let format = Direct::Format { blocks: 16, roots: 1, bytes: 512 };
        assert_eq!((self.tables.call(&format, &mut none), self.model.format(16, 1, 512)), (0, Ok(())));
    }

    fn of(model: Card) -> Self {
        Player { tables: Tables::new(&model), model }
    }

    /// A call by function at the service port: the answer and the number, 0 if there is none.
    fn by_function(&mut self, call: &Call) -> Result<(u32, u64), String> {
        let lent = Buffers { out: vec![], places: vec![0; 64], value: 0 };
        let (mut expected, mut buffers) = (lent.clone(), LentBuffers::new(&lent));
        let answer = number(self.model.perform(SERVICE, call, &mut expected));
        let given = self.tables.call(&Direct::from(SERVICE, call), &mut buffers);
        compare("trial by function", given, answer, &self.tables, &self.model, &buffers, &expected)?;
        Ok((given, expected.value))
    }

    /// A call by function at the service port, which must come to this answer and this number.
    fn call(&mut self, call: &Call, comes_to: (u32, u64)) -> Result<(), String> {
        match self.by_function(call)? {
            given if given == comes_to => Ok(()),
            given => Err(format!("{call:?} by function: {given:?}, not {comes_to:?}")),
        }
    }

    /// Bytes as a batch at a port: why it stopped, how far it went, and the answers.
    fn batch(&mut self, port: u8, input: &[u8], room: usize) -> Result<(u32, Progress, Vec<u8>), String> {
        let (mut answers, mut progress) = (vec![0xEE; room], Progress::default());
        let mut lent = LentBatch::new(input, &answers, progress);
        let given = self.tables.batch(port, &mut lent);
        let stop = model::batch(&mut self.model, port, input, &mut answers, &mut progress);
        let difference = lent.difference(input, &answers, progress).or(self.tables.difference(&self.model));
        if given != stop || difference.is_some() {
            return Err(format!("a batch at port {port}: stop {given}, by the model {stop}, {difference:?}"));
        }
        answers.truncate(progress.written as usize);
        Ok((stop, progress, answers))
    }

    /// So many records of a call in one batch at the service port: the answers.
    fn repeat(&mut self, call: &Call, times: usize) -> Result<Vec<u8>, String> {
        let (kind, body) = Direct::from(SERVICE, call).record().ok_or("no record")?;
        let input = [vec![kind], body].concat().repeat(times);
        match self.batch(library::SERVICE, &input, 9 * times)? {
            (0, _, answers) => Ok(answers),
            (stop, progress, _) => Err(format!("{times} records of {call:?}: stop {stop}, {progress:?}")),
        }
    }

    /// Whether the pointer from 0 to 1 is there so often, and so many pointers lead to block 1. The library has what the
    /// model has.
    fn holds(&self, times: u16, count: u32) -> Result<(), String> {
        let found = (self.model.multiplicity(0, 1), self.model.counts[1]);
        match found == (times, count) {
            true => Ok(()),
            false => Err(format!("multiplicity and count are {found:?}, not {:?}", (times, count))),
        }
    }

    /// Plays a call of a row; its line there.
    fn play_row(&mut self, port: Port, call: &Call) -> Result<String, String> {
        match call {
            Call::Sweep { .. } => self.by_function(call).map(|(answer, value)| format!("SWEEP {answer} {value}")),
            _ => self.play(port, call.clone()),
        }
    }

    /// Plays a record on library and model, at the service port as the player does; its line as the player prints it,
    /// without the ordinal.
    pub fn play(&mut self, port: Port, call: Call) -> Result<String, String> {
        let (kind, body) = Direct::from(port, &call).record().ok_or("no record")?;
        let lent = Buffers { out: vec![0xEE; 512], places: vec![0xEEEE; 64], value: 0 };
        let (mut expected, mut buffers) = (lent.clone(), LentBuffers::new(&lent));
        let answer = number(model::serve(&mut self.model, library::SERVICE, kind, &body, &mut expected));
        let given = self.tables.serve(library::SERVICE, kind, &body, &mut buffers);
        compare("trial", given, answer, &self.tables, &self.model, &buffers, &expected)?;
        let mut line = format!("{kind} {given}");
        if given == 0 {
            let results: Vec<u64> = match &call {
                Call::Read { .. } => buffers.out.values()[..8].iter().map(|&v| v as u64).collect(),
                Call::Alloc { count, .. } | Call::AllocContig { count, .. } => {
                    buffers.places.values()[..*count as usize].iter().map(|&v| v as u64).collect()
                }
                Call::Delete { .. } | Call::DeleteTree { .. } | Call::Free | Call::Tick { .. } => {
                    vec![buffers.value.values()[0]]
                }
                _ => vec![],
            };
            results.iter().for_each(|v| line += &format!(" {v}"));
        }
        Ok(line)
    }
}

/// The calls as a batch on fresh cards: whole at the service port, while the host port stops at the first, a service record.
fn example_batch(calls: &[(Port, Call, &str)]) -> Result<(), String> {
    let records = calls.iter().filter_map(|(port, call, _)| Direct::from(*port, call).record());
    let input: Vec<u8> = records.flat_map(|(kind, body)| [vec![kind], body].concat()).collect();
    let whole = Progress { records: 10, read: input.len() as u64, written: 1_070 };
    for (port, stop, progress) in [(library::SERVICE, 0, whole), (library::HOST, MALFORMED, Progress::default())] {
        let (given, went, _) = Player::new().batch(port, &input, 2_000)?;
        if (given, went) != (stop, progress) {
            return Err(format!("the example as a batch at port {port}: stop {given}, {went:?}"));
        }
    }
    Ok(())
}

/// A host's READ of a block of zeros.
const ZEROS: &str = "1 0 0 0 0 0 0 0 0 0";

fn alloc(hint: u16, count: u8) -> Call {
    alloc_at(0, hint, count)
}

fn alloc_at(reference: u16, hint: u16, count: u8) -> Call {
    Call::Alloc { reference, credential: Credential::Nothing, hint, count }
}

fn read(block: u16, credential: Credential, interval: u32) -> Call {
    Call::Read { block, credential, interval }
}

fn create(source: u16, destination: u16) -> Call {
    let (source_credential, destination_credential) = (Credential::Nothing, Credential::Nothing);
    Call::Create { source, source_credential, destination, destination_credential }
}

fn delete(source: u16, destination: u16) -> Call {
    Call::Delete { source, credential: Credential::Nothing, destination }
}

fn delete_tree(source: u16, destination: u16) -> Call {
    delete_tree_by(source, Credential::Nothing, destination)
}

fn delete_tree_by(source: u16, credential: Credential, destination: u16) -> Call {
    Call::DeleteTree { source, credential, destination }
}

fn key_read(block: u16, credential: Credential, key: Option<Key>) -> Call {
    Call::KeyRead { block, credential, key }
}

fn key_write(block: u16, credential: Credential, key: Option<Key>) -> Call {
    Call::KeyWrite { block, credential, key }
}

fn sweep(most: u32) -> Call {
    Call::Sweep { most }
}

/// Request 2026-02: "A block between the two calls may have one key, and then is not sealed", whichever call left it so.
/// Block 1 has a pointer from the root, so that without presented keys it is hidden if and only if it is sealed.
fn one_key_alone() -> Result<(), String> {
    let (read, write) = (Some(KEYS[4]), Some(KEYS[7]));
    let reading = |key| key_read(1, Credential::Nothing, key);
    let writing = |key| key_write(1, Credential::Nothing, key);
    let mut player = Player::new();
    player.play(SERVICE, alloc(NO_HINT, 1))?;
    let calls = [
        (reading(read), false),
        (writing(write), true),
        (reading(None), false),
        (reading(read), true),
        (writing(None), false),
        (reading(None), false),
        (writing(write), false),
        (reading(read), true),
    ];
    for (i, (call, sealed)) in calls.into_iter().enumerate() {
        player.play(SERVICE, call)?;
        if player.model.hidden(&[])[1] != sealed {
            return Err(format!("after change {} of its keys block 1 is sealed: {}", i + 1, !sealed));
        }
    }
    Ok(())
}

/// Request 2026-05: "CREATE on an existing pointer adds one and uses no new place, so 11 doesn't arise then. DELETE takes
/// one", and 9 is judged on the sum.
fn multiplicity_rows() -> Vec<Row> {
    let made_twice = vec![
        (SERVICE, alloc(NO_HINT, 1), "131 0 1"),
        (SERVICE, alloc_at(1, NO_HINT, 1), "131 0 2"),
        (SERVICE, create(0, 1), "132 0"),
        (SERVICE, delete(0, 1), "133 0 0"),
        (SERVICE, delete(0, 1), "133 9"),
        (SERVICE, delete(1, 2), "133 0 1"),
        (SERVICE, delete(0, 1), "133 0 1"),
        (SERVICE, delete(0, 1), "133 3"),
        (HOST, Call::Free, "9 0 13"),
    ];
    // The pointer from 2 is there twice, that from 0 once: in whichever order they go, the third one frees.
    let two_sources = vec![
        (SERVICE, alloc(NO_HINT, 2), "131 0 1 2"),
        (SERVICE, create(2, 1), "132 0"),
        (SERVICE, create(2, 1), "132 0"),
        (SERVICE, delete(2, 1), "133 0 0"),
        (SERVICE, delete(0, 1), "133 0 0"),
        (SERVICE, delete(0, 1), "133 8"),
        (SERVICE, delete(2, 1), "133 0 1"),
        (HOST, Call::Free, "9 0 13"),
    ];
    // Block 2 keeps block 1, which the root points to twice, once and not at all.
    let by_reference = vec![
        (SERVICE, alloc(NO_HINT, 2), "131 0 1 2"),
        (SERVICE, create(2, 1), "132 0"),
        (SERVICE, create(0, 1), "132 0"),
        (HOST, read(0, Credential::Nothing, 10), ZEROS),
        (HOST, read(1, Credential::Reference(0), 0), ZEROS),
        (SERVICE, delete(0, 1), "133 0 0"),
        (HOST, read(1, Credential::Reference(0), 0), ZEROS),
        (SERVICE, delete(0, 1), "133 0 0"),
        (HOST, read(1, Credential::Reference(0), 0), "1 5"),
    ];
    vec![
        ("2026-05, made twice and taken twice", made_twice),
        ("2026-05, two sources", two_sources),
        ("2026-05, a reference", by_reference),
        ("2026-05, a full table", full_table()),
    ]
}

/// All 32 places: 15 pointers from 0, 14 from 1 and 3 from 2.
fn full_table() -> Vec<(Port, Call, &'static str)> {
    let mut calls = vec![(SERVICE, alloc(NO_HINT, 15), "131 0 1 2 3 4 5 6 7 8 9 10 11 12 13 14 15")];
    calls.extend((2..=15).map(|b| (SERVICE, create(1, b), "132 0")));
    calls.extend((3..=5).map(|b| (SERVICE, create(2, b), "132 0")));
    calls.extend([
        (SERVICE, create(2, 6), "132 11"),
        (SERVICE, create(2, 5), "132 0"),
        (SERVICE, create(1, 15), "132 0"),
        (SERVICE, create(0, 1), "132 0"),
        (SERVICE, create(2, 2), "132 7"),
        (SERVICE, delete(2, 5), "133 0 0"),
        (SERVICE, create(2, 6), "132 11"),
        (SERVICE, delete(2, 5), "133 0 0"),
        (SERVICE, create(2, 6), "132 0"),
    ]);
    calls
}

/// One pointer, from 0 to 1, of multiplicity 65,534: it is made once more and not twice, and taken one by one.
fn highest_multiplicity() -> Result<(), String> {
    let mut player = Player::new();
    player.model.flags[1] = ALLOCATED;
    player.model.draw_pointers(vec![(word(0, 1), HIGHEST_MULTIPLICITY - 1)]);
    player = Player::of(player.model);
    let (make, take) = (create(0, 1), delete(0, 1));
    let calls = [(&make, 0, 65_535), (&make, 7, 65_535), (&take, 0, 65_534), (&take, 0, 65_533), (&make, 0, 65_534)];
    for (call, answer, times) in calls {
        player.call(call, (answer, 0))?;
        player.holds(times, times as u32)?;
    }
    Ok(())
}

/// Calls alone make a pointer so often that the next is refused, beside one from another block, and take all away again.
fn made_by_calls() -> Result<(), String> {
    let most = HIGHEST_MULTIPLICITY as usize;
    let mut player = Player::new();
    player.play(SERVICE, alloc(NO_HINT, 2))?;
    player.play(SERVICE, create(2, 1))?;
    let made = player.repeat(&create(0, 1), most)?;
    if made != [vec![0; most - 1], vec![CANNOT_POINT as u8]].concat() {
        return Err("the pointer was not made 65,535 times and then refused".to_string());
    }
    player.holds(HIGHEST_MULTIPLICITY, 65_536)?;
    let taken = player.repeat(&delete(0, 1), most + 1)?;
    if taken != [vec![0; 9 * most], vec![NO_POINTER as u8]].concat() {
        return Err("the pointer was not taken 65,535 times, and no more".to_string());
    }
    player.holds(0, 1)?;
    player.call(&delete(2, 1), (0, 1))
}

/// As many pointers to a block as a card can have: 65,535 from each of 4,095 others. The root points to these.
fn highest_count() -> Result<(), String> {
    let most = 4_095 * HIGHEST_MULTIPLICITY as u32;
    let mut card = blank(4_096, 16_384);
    card.info = vec![4_096, 1, 512, 0, 0, 0];
    card.flags.fill(ALLOCATED);
    let from_root = (2..4_096).map(|b| (word(0, b), 1));
    let to_one = (0..4_096).filter(|&b| b != 1).map(|b| (word(b, 1), HIGHEST_MULTIPLICITY));
    card.draw_pointers(from_root.chain(to_one).collect());
    let mut player = Player::of(card);
    let (make, take) = (create(4_095, 1), delete(4_095, 1));
    for (call, answer, count) in [(&make, 7, most), (&take, 0, most - 1), (&make, 0, most)] {
        player.call(call, (answer, 0))?;
        player.holds(HIGHEST_MULTIPLICITY, count)?;
    }
    Ok(())
}

/// Request 2026-07: "the destination is freed if nothing points to it. Then each allocated non-root block whose every
/// pointer comes from freed blocks is freed too, and their pointers go. Result: how many were freed."
fn tree_rows() -> Vec<Row> {
    let chain = vec![
        (SERVICE, alloc(NO_HINT, 1), "131 0 1"),
        (SERVICE, alloc_at(1, NO_HINT, 1), "131 0 2"),
        (SERVICE, alloc_at(2, NO_HINT, 1), "131 0 3"),
        (SERVICE, delete(0, 1), "133 9"),
        (SERVICE, delete_tree(0, 1), "142 0 3"),
        (HOST, Call::Free, "9 0 12"),
        (SERVICE, delete_tree(0, 1), "142 3"),
        (HOST, Call::Audit, "11 0"),
        (HOST, sweep(4), "SWEEP 0 3"),
        (HOST, Call::Free, "9 0 15"),
    ];
    let diamond = vec![
        (SERVICE, alloc(NO_HINT, 1), "131 0 1"),
        (SERVICE, alloc_at(1, NO_HINT, 2), "131 0 2 3"),
        (SERVICE, alloc_at(2, NO_HINT, 1), "131 0 4"),
        (SERVICE, create(3, 4), "132 0"),
        (SERVICE, delete_tree(1, 3), "142 0 1"),
        (SERVICE, alloc_at(1, NO_HINT, 1), "131 0 5"),
        (SERVICE, create(5, 4), "132 0"),
        (SERVICE, delete_tree(0, 1), "142 0 4"),
        (HOST, Call::Free, "9 0 10"),
    ];
    // Blocks 1 and 2 point to each other alone once the pointer from the root has gone.
    let each_other = vec![
        (SERVICE, alloc(NO_HINT, 1), "131 0 1"),
        (SERVICE, alloc_at(1, NO_HINT, 1), "131 0 2"),
        (SERVICE, create(2, 1), "132 0"),
        (SERVICE, delete_tree(0, 1), "142 0 0"),
        (HOST, Call::Free, "9 0 13"),
        (SERVICE, delete_tree(0, 1), "142 8"),
        (SERVICE, delete_tree(1, 2), "142 0 2"),
        (HOST, Call::Free, "9 0 13"),
    ];
    // Block 3 below the ring of 1 and 2 goes with neither, but with the pointer to it.
    let ring = vec![
        (SERVICE, alloc(NO_HINT, 1), "131 0 1"),
        (SERVICE, alloc_at(1, NO_HINT, 2), "131 0 2 3"),
        (SERVICE, create(2, 1), "132 0"),
        (SERVICE, delete_tree(0, 1), "142 0 0"),
        (SERVICE, delete_tree(1, 3), "142 0 1"),
        (SERVICE, read(1, Credential::Nothing, 0), "129 0 0 0 0 0 0 0 0 0"),
        (SERVICE, read(2, Credential::Nothing, 0), "129 0 0 0 0 0 0 0 0 0"),
        (HOST, Call::Free, "9 0 12"),
        (HOST, Call::Audit, "11 0"),
    ];
    // The root points to block 3, which keeps block 4 below it.
    let from_outside = vec![
        (SERVICE, alloc(NO_HINT, 1), "131 0 1"),
        (SERVICE, alloc_at(1, NO_HINT, 2), "131 0 2 3"),
        (SERVICE, alloc_at(3, NO_HINT, 1), "131 0 4"),
        (SERVICE, create(2, 4), "132 0"),
        (SERVICE, create(0, 3), "132 0"),
        (SERVICE, delete_tree(0, 1), "142 0 2"),
        (HOST, Call::Free, "9 0 11"),
        (SERVICE, delete(3, 4), "133 0 1"),
        (SERVICE, delete(0, 3), "133 0 1"),
    ];
    // The pointer goes wholly, whether its destination stays or not.
    let several_times = vec![
        (SERVICE, alloc(NO_HINT, 2), "131 0 1 2"),
        (SERVICE, create(0, 1), "132 0"),
        (SERVICE, create(0, 1), "132 0"),
        (SERVICE, create(2, 1), "132 0"),
        (SERVICE, delete_tree(0, 1), "142 0 0"),
        (SERVICE, delete(0, 1), "133 8"),
        (SERVICE, create(2, 1), "132 0"),
        (SERVICE, delete_tree(2, 1), "142 0 1"),
        (HOST, Call::Free, "9 0 13"),
    ];
    // Block 3 has three pointers from block 1, which is freed, and two from the root, which stay.
    let counts_fall = vec![
        (SERVICE, alloc(NO_HINT, 1), "131 0 1"),
        (SERVICE, alloc_at(1, NO_HINT, 2), "131 0 2 3"),
        (SERVICE, create(1, 3), "132 0"),
        (SERVICE, create(1, 3), "132 0"),
        (SERVICE, create(0, 3), "132 0"),
        (SERVICE, create(0, 3), "132 0"),
        (SERVICE, delete_tree(0, 1), "142 0 2"),
        (SERVICE, delete(0, 3), "133 0 0"),
        (SERVICE, delete(0, 3), "133 0 1"),
        (HOST, Call::Free, "9 0 12"),
    ];
    vec![
        ("2026-07, a chain", chain),
        ("2026-07, a diamond", diamond),
        ("2026-07, only each other", each_other),
        ("2026-07, a ring", ring),
        ("2026-07, a pointer from outside", from_outside),
        ("2026-07, a pointer made several times", several_times),
        ("2026-07, counts of what stays", counts_fall),
        ("2026-07, the order of refusals", tree_refusals()),
    ]
}

/// Each refusal with those after it holding too: 3 source, 3 destination, 6, 5, 8, 15. Block 1 has a read key and a write
/// key and points to block 2, which points to block 3 with a write key.
fn tree_refusals() -> Vec<(Port, Call, &'static str)> {
    let (reader, writer, below) = (KEYS[4], KEYS[5], KEYS[7]);
    let by = Credential::Key;
    let nothing = Credential::Nothing;
    vec![
        (SERVICE, alloc(NO_HINT, 1), "131 0 1"),
        (SERVICE, alloc_at(1, NO_HINT, 1), "131 0 2"),
        (SERVICE, alloc_at(2, NO_HINT, 1), "131 0 3"),
        (SERVICE, key_read(1, nothing, Some(reader)), "134 0"),
        (SERVICE, key_write(1, nothing, Some(writer)), "141 0"),
        (SERVICE, key_write(3, nothing, Some(below)), "141 0"),
        (HOST, delete_tree(16, 16), "14 3"),
        (HOST, delete_tree(0, 4), "14 3"),
        (HOST, delete_tree(0, 2), "14 6"),
        (HOST, delete_tree_by(1, by(reader), 1), "14 5"),
        (HOST, delete_tree_by(1, by(writer), 1), "14 8"),
        (HOST, delete_tree_by(1, by(writer), 0), "14 8"),
        (HOST, delete_tree_by(1, by(writer), 3), "14 8"),
        (HOST, delete_tree_by(1, by(writer), 2), "14 15"),
        (HOST, delete_tree_by(1, by(below), 2), "14 5"),
        (SERVICE, delete_tree(16, 16), "142 3"),
        (SERVICE, delete_tree(0, 4), "142 3"),
        (SERVICE, delete_tree(0, 2), "142 8"),
        (SERVICE, delete_tree(1, 2), "142 15"),
        // The destination's own write key, also for its holder.
        (SERVICE, delete_tree(0, 1), "142 15"),
        (HOST, renew_writing(1, writer), "7 0"),
        (HOST, delete_tree_by(2, Credential::Reference(1), 3), "14 15"),
        (SERVICE, key_write(3, nothing, None), "141 0"),
        (SERVICE, key_write(2, nothing, Some(writer)), "141 0"),
        (HOST, delete_tree_by(1, by(writer), 2), "14 15"),
        // A read key alone does not count.
        (SERVICE, key_write(2, nothing, None), "141 0"),
        (SERVICE, key_read(3, nothing, Some(below)), "134 0"),
        (HOST, delete_tree_by(1, by(writer), 2), "14 0 2"),
        (HOST, Call::Free, "9 0 12"),
    ]
}

fn renew_writing(block: u16, key: Key) -> Call {
    Call::Renew { mode: 1, block, key, interval: 10 }
}

/// Block 1 below the root points to 2 and 3, these to 4, and 4 twice to 5, to which the root points too. All have windows
/// and contents, and read keys; block 4 may have a write key.
fn tree_card(keyed: bool) -> Card {
    let mut card = blank(16, 32);
    card.info = vec![16, 1, 512, 0, 100, 0];
    card.flags[..6].fill(ALLOCATED | READ_KEY);
    card.keys.chunks_mut(4).take(6).for_each(|words| words[..2].copy_from_slice(&[7, 8]));
    card.windows[..12].fill(150);
    card.contents.iter_mut().enumerate().for_each(|(i, byte)| *byte = (i / 512 + 1) as u8);
    if keyed {
        card.flags[4] |= WRITE_KEY;
        card.keys[18..20].copy_from_slice(&[9, 10]);
    }
    let pointers = [(0, 1, 3), (1, 2, 1), (1, 3, 2), (2, 4, 65_535), (3, 4, 1), (4, 5, 2), (0, 5, 3)];
    card.draw_pointers(pointers.map(|(s, d, times)| (word(s, d), times)).to_vec());
    card
}

/// A write key deep in the tree: refused 15, and record and tables are as they were. Without it four blocks are freed, and
/// of the tables just their rows, their pointers and the counts change. Then SWEEP makes them free and changes nothing but
/// their flags and contents.
fn tree_by_tables() -> Result<(), String> {
    let protected = tree_card(true);
    let mut player = Player::of(protected.clone());
    player.call(&delete_tree(0, 1), (HAS_WRITE_KEY, 0))?;
    if player.tables.card() != protected {
        return Err("a DELETE_TREE that is refused 15 has changed the card".to_string());
    }
    let mut left = tree_card(false);
    let mut player = Player::of(left.clone());
    player.call(&delete_tree(0, 1), (0, 4))?;
    left.flags[1..5].fill(WAITING);
    left.keys[4..20].fill(0);
    left.windows[2..10].fill(0);
    left.draw_pointers(vec![(word(0, 5), 3)]);
    if player.tables.card() != left {
        return Err("a DELETE_TREE has left another card than the one drawn".to_string());
    }
    player.call(&sweep(4), (0, 4))?;
    left.flags[1..5].fill(0);
    left.contents[512..5 * 512].fill(0);
    match player.tables.card() == left {
        true => Ok(()),
        false => Err("a SWEEP has left another card than the one drawn".to_string()),
    }
}

/// Trees of all blocks of the largest card but the root: rows in both directions, so that each block is found after the
/// one before, and one block that points to all others, each of which points to the next three. Where the last of these
/// point to the first, just that one block is freed. What is freed waits, and SWEEP overwrites all of it.
fn largest_trees() -> Result<(), String> {
    let n = 4_096;
    let upward: Vec<u32> = (1..n).map(|b| word(b - 1, b)).collect();
    let downward: Vec<u32> = (1..n).map(|b| if b == n - 1 { word(0, b) } else { word(b + 1, b) }).collect();
    let from_one = [word(0, 1)].into_iter().chain((2..n).map(|b| word(1, b)));
    let next_three = (2..n).flat_map(|b| (b + 1..=b + 3).map(move |d| (b, d)));
    let open: Vec<u32> =
        from_one.clone().chain(next_three.clone().filter(|&(_, d)| d < n).map(|(b, d)| word(b, d))).collect();
    let closed: Vec<u32> =
        from_one.chain(next_three.map(|(b, d)| word(b, if d < n { d } else { d - n + 2 }))).collect();
    let trees = [(1, upward, 4_095), (4_095, downward, 4_095), (1, open, 4_095), (1, closed, 1)];
    for (destination, pointers, freed) in trees {
        let mut card = blank(n, 16_384);
        card.info = vec![n as u64, 1, 512, 0, 0, 0];
        card.flags.fill(ALLOCATED);
        card.draw_pointers(pointers.into_iter().map(|p| (p, HIGHEST_MULTIPLICITY)).collect());
        card.contents.fill(0xEE);
        let mut player = Player::of(card);
        player.call(&delete_tree(0, destination), (0, freed))?;
        player.call(&sweep(freed as u32 - 1), (0, freed - 1))?;
        player.call(&sweep(u32::MAX), (0, 1))?;
        player.call(&Call::Free, (0, freed))?;
        let zeros = player.tables.contents.values().chunks(512).filter(|block| block.iter().all(|&byte| byte == 0));
        if zeros.count() as u64 != freed {
            return Err("a SWEEP has not overwritten just the blocks that were freed".to_string());
        }
    }
    Ok(())
}

/// Request 2026-09: "A freed block now waits, flag 8 alone, and is not free for ALLOC, 10, 14 or FREE. SWEEP(n) fills the n
/// lowest waiting blocks with zeros, or all if fewer wait, and makes them free. Result: the number swept."
fn waiting_rows() -> Vec<Row> {
    let nothing = Credential::Nothing;
    let contig = |hint, count| Call::AllocContig { reference: 0, credential: nothing, hint, count };
    // Neither free for FREE and ALLOC, by hint and as the last one, nor allocated for a call that names it.
    let neither = vec![
        (SERVICE, alloc(NO_HINT, 3), "131 0 1 2 3"),
        (SERVICE, delete(0, 2), "133 0 1"),
        (HOST, Call::Free, "9 0 12"),
        (HOST, Call::Audit, "11 0"),
        (SERVICE, read(2, nothing, 0), "129 3"),
        (HOST, Call::Force { block: 2 }, "8 3"),
        (SERVICE, create(1, 2), "132 3"),
        (SERVICE, alloc_at(2, NO_HINT, 1), "131 3"),
        (SERVICE, alloc(2, 1), "131 0 4"),
        (SERVICE, alloc(NO_HINT, 12), "131 10"),
        (SERVICE, alloc(NO_HINT, 11), "131 0 5 6 7 8 9 10 11 12 13 14 15"),
        (SERVICE, alloc(NO_HINT, 1), "131 10"),
        (HOST, sweep(1), "SWEEP 0 1"),
        (HOST, Call::Free, "9 0 1"),
        (SERVICE, alloc(NO_HINT, 1), "131 0 2"),
    ];
    let mut runs = vec![(SERVICE, alloc(NO_HINT, 15), "131 0 1 2 3 4 5 6 7 8 9 10 11 12 13 14 15")];
    runs.extend((5..=7).map(|b| (SERVICE, delete(0, b), "133 0 1")));
    // 5 and 7 are free, and 6 between them waits.
    runs.extend([
        (SERVICE, contig(NO_HINT, 1), "140 10"),
        (HOST, sweep(3), "SWEEP 0 3"),
        (SERVICE, alloc(6, 1), "131 0 6"),
        (SERVICE, delete(0, 6), "133 0 1"),
        (SERVICE, contig(NO_HINT, 2), "140 14"),
        (SERVICE, contig(6, 3), "140 10"),
        (HOST, sweep(1), "SWEEP 0 1"),
        (SERVICE, contig(NO_HINT, 3), "140 0 5 6 7"),
    ]);
    // The lowest, all if fewer wait, and none where none is asked for or none waits.
    let lowest = vec![
        (SERVICE, alloc(NO_HINT, 1), "131 0 1"),
        (SERVICE, alloc_at(1, NO_HINT, 3), "131 0 2 3 4"),
        (HOST, sweep(5), "SWEEP 0 0"),
        (SERVICE, delete_tree(0, 1), "142 0 4"),
        (HOST, sweep(0), "SWEEP 0 0"),
        (HOST, Call::Free, "9 0 11"),
        (HOST, sweep(3), "SWEEP 0 3"),
        (SERVICE, contig(NO_HINT, 3), "140 0 1 2 3"),
        (HOST, sweep(u32::MAX), "SWEEP 0 1"),
        (HOST, Call::Free, "9 0 12"),
        (HOST, sweep(u32::MAX), "SWEEP 0 0"),
    ];
    vec![
        ("2026-09, neither free nor allocated", neither),
        ("2026-09, runs", runs),
        ("2026-09, the lowest first", lowest),
    ]
}

/// A card of 16 blocks, all of them holding their number; these wait, and the others but the root are free.
fn waiting_card(waiting: &[usize]) -> Card {
    let mut card = Player::new().model;
    waiting.iter().for_each(|&b| card.flags[b] = WAITING);
    card.contents.iter_mut().enumerate().for_each(|(i, byte)| *byte = (i / 512 + 1) as u8);
    card
}

/// The tables after SWEEP: of the waiting blocks the lowest are free and hold zeros, and all else is as it was. Then FORMAT,
/// by which those that are left are free too, and hold what they held.
fn swept_by_tables() -> Result<(), String> {
    let waiting = [1, 2, 5, 9, 15];
    for most in [0, 1, 2, 3, 4, 5, 6, 256, 65_536, u32::MAX] {
        let swept = waiting.len().min(most as usize);
        let mut left = waiting_card(&waiting);
        let mut player = Player::of(left.clone());
        player.call(&sweep(most), (0, swept as u64))?;
        for &b in &waiting[..swept] {
            left.flags[b] = 0;
            left.contents[512 * b..512 * (b + 1)].fill(0);
        }
        if player.tables.card() != left {
            return Err(format!("SWEEP {most} has left another card than the one drawn"));
        }
        player.call(&Call::Free, (0, (10 + swept) as u64))?;
        player.format();
        left.flags[1..].fill(0);
        left.contents[..512].fill(0);
        if player.tables.card() != left {
            return Err(format!("FORMAT after SWEEP {most} has left another card than the one drawn"));
        }
    }
    Ok(())
}

/// "AUDIT allows flag 8 with keys, count and windows 0": not with anything else. SWEEP is refused 1 and 2, and nothing else.
fn sweeps_refused() -> Result<(), String> {
    let damages: [fn(&mut Card); 8] = [
        |card| card.flags[5] = WAITING | ALLOCATED,
        |card| card.flags[5] = WAITING | READ_KEY,
        |card| card.flags[5] = WAITING | WRITE_KEY,
        |card| card.flags[5] = WAITING | 16,
        |card| card.keys[23] = 1,
        |card| card.counts[5] = 1,
        |card| card.windows[11] = 1,
        |card| card.flags[0] = WAITING,
    ];
    for damage in damages {
        let mut card = waiting_card(&[5]);
        damage(&mut card);
        let mut player = Player::of(card);
        for call in [Call::Audit, sweep(0), sweep(1), sweep(u32::MAX), Call::Free, alloc(NO_HINT, 1)] {
            player.call(&call, (UNSOUND, 0))?;
        }
    }
    let mut short = waiting_card(&[5]);
    short.info.truncate(RECORD - 1);
    let mut player = Player::of(short);
    player.call(&sweep(0), (SHAPE, 0))?;
    player.call(&sweep(1), (SHAPE, 0))
}

/// A block that waits is paid no rent for.
fn no_rent_while_waiting() -> Result<(), String> {
    let day = Call::Tick { seconds: 86_400 };
    let mut player = Player::new();
    player.play(SERVICE, alloc(NO_HINT, 3))?;
    player.play(SERVICE, delete(0, 2))?;
    player.call(&day, (0, 86_400))?;
    player.call(&Call::Rent { price: 1_000 }, (0, 2))?;
    player.call(&sweep(1), (0, 1))?;
    player.call(&day, (0, 172_800))?;
    player.call(&Call::Rent { price: 1_000 }, (0, 4))
}

/// Request 2026-08: "total × price divided by 86,400,000, rounded to the nearest, a half upward".
const RENTS: [(u64, u32, u64); 16] = [
    (43_200, 1_000, 1),
    (43_199, 1_000, 0),
    (43_201, 1_000, 1),
    (86_399, 1_000, 1),
    (86_400, 1_000, 1),
    (129_599, 1_000, 1),
    (129_600, 1_000, 2),
    (21_600, 2_000, 1),
    (21_599, 2_000, 0),
    (64_800, 2_000, 2),
    (43_200_000, 1, 1),
    (43_199_999, 1, 0),
    (43_200, 999, 0),
    (0, 2_000, 0),
    (4_503_599_627_366_400, 0, 0),
    (4_503_599_627_366_400, 2_000, 104_249_991_374),
];

/// A fresh card of 16 blocks with this time and total.
fn rented_card(time: u64, total: u64) -> Card {
    let mut card = Player::new().model;
    (card.info[4], card.info[5]) = (time, total);
    card
}

/// The cents of totals, "AUDIT refuses 2 for a total above T × 4,096", and "Refused: 16, price above 2,000; after 2."
fn rents() -> Result<(), String> {
    let rent = |price| Call::Rent { price };
    let latest = TIME_END - 1;
    for (total, price, cents) in RENTS {
        // The largest T, and the least at which the total is sound: far above T times the 16 blocks.
        for time in [latest, total.div_ceil(4_096)] {
            let mut player = Player::of(rented_card(time, total));
            player.call(&Call::Audit, (0, 0))?;
            player.call(&rent(price), (0, cents))?;
            player.call(&rent(2_001), (PRICE_TOO_HIGH, 0))?;
            player.call(&rent(u32::MAX), (PRICE_TOO_HIGH, 0))?;
        }
    }
    for time in [0, 1, 11, 1_000_000, latest] {
        let mut player = Player::of(rented_card(time, 4_096 * time + 1));
        for call in [Call::Audit, rent(0), rent(2_000), rent(2_001), Call::Tick { seconds: 0 }] {
            player.call(&call, (UNSOUND, 0))?;
        }
    }
    let mut short = rented_card(0, 1);
    short.info.truncate(RECORD - 1);
    Player::of(short).call(&rent(2_001), (SHAPE, 0))
}

/// "Each TICK of n adds n × the allocated non-root blocks to a new total in the card's record, 0 after FORMAT."
fn total_of_ticks() -> Result<(), String> {
    let tick = |seconds| Call::Tick { seconds };
    let nothing = Credential::Nothing;
    let mut player = Player::new();
    let steps = [
        // Without such a block, whatever passes.
        (tick(1_000), 0),
        (alloc(NO_HINT, 3), 0),
        (tick(10), 30),
        (tick(0), 30),
        // A block with keys is one too, and one to which many point.
        (key_read(1, nothing, Some(KEYS[4])), 30),
        (key_write(2, nothing, Some(KEYS[5])), 30),
        (create(1, 3), 30),
        (tick(1), 33),
        // Nothing for a second that is refused.
        (tick(TIME_END), 33),
        (tick(u64::MAX), 33),
        (delete(1, 3), 33),
        (delete(0, 3), 33),
        (tick(100), 233),
        (delete_tree(0, 1), 233),
        (tick(100), 333),
    ];
    for (i, (call, total)) in steps.into_iter().enumerate() {
        player.play(SERVICE, call)?;
        if player.model.total() != total {
            return Err(format!("after call {} the total is {}, not {total}", i + 1, player.model.total()));
        }
    }
    // One block: 43,199 in all, then a second more. FORMAT takes the total away.
    player.play(HOST, tick(42_866))?;
    player.call(&Call::Rent { price: 1_000 }, (0, 0))?;
    player.play(HOST, tick(1))?;
    player.call(&Call::Rent { price: 1_000 }, (0, 1))?;
    player.format();
    player.call(&Call::Rent { price: 2_000 }, (0, 0))
}

/// All the time there is on the largest card with one root and all its blocks allocated: from T 0 on, and from T 1 on with
/// the highest total.
fn largest_total() -> Result<(), String> {
    let n = 4_096;
    let mut card = blank(n, 16_384);
    card.info = vec![n as u64, 1, 512, 0, 0, 0];
    card.flags.fill(ALLOCATED);
    card.draw_pointers((1..n).map(|b| (word(0, b), 1)).collect());
    for (time, total) in [(0, 0), (1, 4_096)] {
        (card.info[4], card.info[5]) = (time, total);
        let mut player = Player::of(card.clone());
        player.call(&Call::Tick { seconds: TIME_END - 1 - time }, (0, TIME_END - 1))?;
        let expected = total + (TIME_END - 1 - time) * 4_095;
        if player.model.total() != expected {
            return Err(format!("the total is {}, not {expected}", player.model.total()));
        }
        player.call(&Call::Audit, (0, 0))?;
    }
    Ok(())
}

pub fn trials() -> Result<usize, String> {
    use Credential::{Nothing, Reference};
    let contig = |hint, count| Call::AllocContig { reference: 0, credential: Nothing, hint, count };
    let tick = |seconds| Call::Tick { seconds };
    let write = |block, credential| Call::Write { block, credential, interval: 0, data: vec![0; 512] };
    let fill = |block, interval| Call::Write { block, credential: Nothing, interval, data: vec![0; 512] };
    let renew = |mode, key, interval| Call::Renew { mode, block: 1, key, interval };
    let key = Some(KEYS[4]);
    let [reader, writer, other] = [KEYS[4], KEYS[5], KEYS[7]];
    // Block 1 has both keys and points to block 2, and both its windows are open.
    let both_keys = [
        (SERVICE, alloc(NO_HINT, 1), "131 0 1"),
        (SERVICE, alloc_at(1, NO_HINT, 1), "131 0 2"),
        (SERVICE, key_read(1, Nothing, Some(reader)), "134 0"),
        (SERVICE, key_write(1, Nothing, Some(writer)), "141 0"),
        (HOST, renew(0, reader, 10), "7 0"),
        (HOST, renew(1, writer, 10), "7 0"),
    ];
    let closed = [(HOST, read(2, Reference(1), 0), "1 5"), (HOST, write(2, Reference(1)), "2 5")];
    let by = Credential::Key;
    let mut rows: Vec<Row> = vec![
        (
            "the example",
            vec![
                (SERVICE, alloc(NO_HINT, 2), "131 0 1 2"),
                (SERVICE, key_read(1, Nothing, key), "134 0"),
                (HOST, read(1, Nothing, 0), "1 5"),
                (HOST, Call::Free, "9 0 13"),
                (HOST, read(0, Nothing, 10), ZEROS),
                (HOST, read(2, Reference(0), 0), ZEROS),
                (HOST, tick(10), "10 0 10"),
                (HOST, read(2, Reference(0), 0), "1 5"),
                (SERVICE, delete(0, 2), "133 0 1"),
                (HOST, Call::Free, "9 0 13"),
            ],
        ),
        ("T1", vec![(HOST, Call::Free, "9 0 15")]),
        ("T2", vec![(SERVICE, alloc(8, 3), "131 0 8 7 9")]),
        ("T3", vec![(SERVICE, alloc(15, 2), "131 0 15 14")]),
        ("T4", vec![(SERVICE, alloc(NO_HINT, 15), "131 0 1 2 3 4 5 6 7 8 9 10 11 12 13 14 15")]),
        ("T5", vec![(SERVICE, alloc(NO_HINT, 16), "131 10")]),
        ("T6", vec![(SERVICE, alloc(NO_HINT, 0), "131 4"), (SERVICE, alloc(NO_HINT, 65), "131 4")]),
        ("T7", vec![(HOST, read(0, Nothing, 86_400), ZEROS), (HOST, read(0, Nothing, 86_401), "1 4")]),
        (
            "T8",
            vec![
                (SERVICE, alloc(NO_HINT, 1), "131 0 1"),
                (HOST, read(0, Nothing, 10), ZEROS),
                (HOST, tick(9), "10 0 9"),
                (HOST, read(1, Reference(0), 0), ZEROS),
                (HOST, tick(1), "10 0 10"),
                (HOST, read(1, Reference(0), 0), "1 5"),
            ],
        ),
        ("T9", vec![(SERVICE, alloc(NO_HINT, 1), "131 0 1"), (SERVICE, create(1, 1), "132 7")]),
        (
            "T10",
            vec![
                (SERVICE, alloc(NO_HINT, 1), "131 0 1"),
                (SERVICE, alloc_at(1, NO_HINT, 1), "131 0 2"),
                (SERVICE, delete(0, 1), "133 9"),
            ],
        ),
        ("T11", vec![(HOST, tick(1_099_511_627_775), "10 0 1099511627775"), (HOST, tick(1), "10 12")]),
        (
            "T12",
            vec![
                (SERVICE, alloc(NO_HINT, 2), "131 0 1 2"),
                (SERVICE, Call::Write { block: 2, credential: Nothing, interval: 0, data: vec![7; 512] }, "130 0"),
                (SERVICE, delete(0, 2), "133 0 1"),
                (SERVICE, sweep(1), "SWEEP 0 1"),
                (SERVICE, alloc(2, 1), "131 0 2"),
                (SERVICE, read(2, Nothing, 0), "129 0 0 0 0 0 0 0 0 0"),
            ],
        ),
        ("2026-01, hint 8", vec![(SERVICE, contig(8, 3), "140 0 8 9 10")]),
        ("2026-01, hint 15", vec![(SERVICE, contig(15, 2), "140 0 14 15")]),
        // 14 blocks are free, of which 7 adjoin at most.
        (
            "2026-01, block 8 taken",
            vec![
                (SERVICE, alloc(8, 1), "131 0 8"),
                (SERVICE, contig(NO_HINT, 15), "140 10"),
                (SERVICE, contig(8, 8), "140 14"),
                (SERVICE, contig(NO_HINT, 8), "140 14"),
                (SERVICE, contig(NO_HINT, 7), "140 0 1 2 3 4 5 6 7"),
            ],
        ),
        // Blocks 7 and 9 are as near to 8, and the runs from 5 and from 9 on to 7.
        (
            "2026-01, ties",
            vec![
                (SERVICE, alloc(8, 1), "131 0 8"),
                (SERVICE, contig(8, 1), "140 0 7"),
                (SERVICE, contig(7, 2), "140 0 5 6"),
                (SERVICE, contig(7, 2), "140 0 9 10"),
                (HOST, contig(7, 2), "12 6"),
                (HOST, Call::Free, "9 0 9"),
            ],
        ),
        (
            "2026-01, contents",
            vec![
                (SERVICE, alloc(NO_HINT, 2), "131 0 1 2"),
                (SERVICE, Call::Write { block: 2, credential: Nothing, interval: 0, data: vec![7; 512] }, "130 0"),
                (SERVICE, delete(0, 2), "133 0 1"),
                (SERVICE, sweep(1), "SWEEP 0 1"),
                (SERVICE, contig(NO_HINT, 2), "140 0 2 3"),
                (SERVICE, read(2, Nothing, 0), "129 0 0 0 0 0 0 0 0 0"),
            ],
        ),
        (
            "2026-02, a new read key",
            [
                &both_keys[..],
                &[(HOST, key_read(1, by(reader), Some(other)), "6 5")],
                &[(HOST, read(2, Reference(1), 0), ZEROS), (HOST, write(2, Reference(1)), "2 0")],
                &[(HOST, key_read(1, by(writer), Some(other)), "6 0")],
                &closed,
                &[(HOST, read(1, by(reader), 0), "1 5"), (HOST, read(1, by(other), 0), ZEROS)],
                &[(HOST, read(1, by(writer), 0), ZEROS), (HOST, write(1, by(writer)), "2 0")],
            ]
            .concat(),
        ),
        (
            "2026-02, a new write key",
            [
                &both_keys[..],
                &[(HOST, key_write(1, by(reader), Some(other)), "13 5")],
                &[(HOST, read(2, Reference(1), 0), ZEROS), (HOST, write(2, Reference(1)), "2 0")],
                &[(HOST, key_write(1, by(writer), Some(other)), "13 0")],
                &closed,
                &[(HOST, read(1, by(writer), 0), "1 5"), (HOST, write(1, by(writer)), "2 5")],
                &[(HOST, read(1, by(reader), 0), ZEROS), (HOST, write(1, by(other)), "2 0")],
            ]
            .concat(),
        ),
        (
            "2026-02, the same read key",
            [&both_keys[..], &[(SERVICE, key_read(1, Nothing, Some(reader)), "134 0")], &closed].concat(),
        ),
        (
            "2026-02, the same write key",
            [&both_keys[..], &[(SERVICE, key_write(1, Nothing, Some(writer)), "141 0")], &closed].concat(),
        ),
        ("2026-02, no read key", [&both_keys[..], &[(HOST, key_read(1, by(writer), None), "6 0")], &closed].concat()),
        (
            "2026-02, no write key",
            [&both_keys[..], &[(HOST, key_write(1, by(writer), None), "13 0")], &closed].concat(),
        ),
        (
            "2026-04, a shorter READ",
            vec![
                (SERVICE, alloc(NO_HINT, 1), "131 0 1"),
                (HOST, read(0, Nothing, 10), ZEROS),
                (HOST, read(0, Nothing, 5), ZEROS),
                (HOST, tick(9), "10 0 9"),
                (HOST, read(1, Reference(0), 0), ZEROS),
                (HOST, tick(1), "10 0 10"),
                (HOST, read(1, Reference(0), 0), "1 5"),
            ],
        ),
        // The read window, which ends later, does not count.
        (
            "2026-04, a shorter WRITE",
            vec![
                (SERVICE, alloc(NO_HINT, 1), "131 0 1"),
                (HOST, read(0, Nothing, 20), ZEROS),
                (HOST, fill(0, 10), "2 0"),
                (HOST, fill(0, 5), "2 0"),
                (HOST, tick(9), "10 0 9"),
                (HOST, write(1, Reference(0)), "2 0"),
                (HOST, tick(1), "10 0 10"),
                (HOST, write(1, Reference(0)), "2 5"),
            ],
        ),
        (
            "2026-04, a shorter RENEW",
            [
                &both_keys[..],
                &[(HOST, renew(0, reader, 5), "7 0"), (HOST, renew(1, writer, 5), "7 0"), (HOST, tick(9), "10 0 9")],
                &[(HOST, read(2, Reference(1), 0), ZEROS), (HOST, write(2, Reference(1)), "2 0")],
                &[(HOST, tick(1), "10 0 10")],
                &closed,
            ]
            .concat(),
        ),
    ];
    rows.extend(multiplicity_rows());
    rows.extend(tree_rows());
    rows.extend(waiting_rows());
    example_batch(&rows[0].1)?;
    one_key_alone()?;
    highest_multiplicity()?;
    made_by_calls()?;
    highest_count()?;
    tree_by_tables()?;
    largest_trees()?;
    rents()?;
    total_of_ticks()?;
    largest_total()?;
    swept_by_tables()?;
    sweeps_refused()?;
    no_rent_while_waiting()?;
    for (name, calls) in &rows {
        let mut player = Player::new();
        for (i, (port, call, expected)) in calls.iter().enumerate() {
            let line = player.play_row(*port, call).map_err(|d| format!("{name}, record {}: {d}", i + 1))?;
            if line != *expected {
                return Err(format!("{name}, record {}: got '{line}', the documents have '{expected}'", i + 1));
            }
        }
    }
    Ok(rows.len())
}
