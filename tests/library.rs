//! The library's C interface as Rust sees it: lent tables with guards around them, and every call with raw operands.

use crate::model::{credential_of, new_key_of, port_of, Buffers, Call, Card, Credential, Key, Port, Progress};

/// The ports by their numbers. A wire of another number is none.
pub const HOST: u8 = 0;
pub const SERVICE: u8 = 1;

/// Declares functions that all begin with the record and the seven tables.
macro_rules! library {
    ($($name:ident($($operand:ident: $kind:ty),*);)*) => {
        extern "C" {
            $(fn $name(
                info: *mut u64, info_len: usize,
                flags: *mut u8, flags_len: usize,
                keys: *mut u64, keys_len: usize,
                counts: *mut u32, counts_len: usize,
                pointers: *mut u32, pointers_len: usize,
                multiplicities: *mut u16, multiplicities_len: usize,
                windows: *mut u64, windows_len: usize,
                contents: *mut u8, contents_len: usize,
                $($operand: $kind),*
            ) -> u32;)*
        }
    };
}

library! {
    negvask_format(blocks: u64, roots: u64, bytes: u64);
    negvask_audit();
    negvask_read(port: u8, block: u16, credential: *const u8, credential_len: usize, interval: u32,
                 out: *mut u8, out_len: usize);
    negvask_write(port: u8, block: u16, credential: *const u8, credential_len: usize, interval: u32,
                  data: *const u8, data_len: usize);
    negvask_alloc(port: u8, block: u16, credential: *const u8, credential_len: usize, hint: u16, count: u8,
                  places: *mut u16, places_len: usize);
    negvask_alloc_contig(port: u8, block: u16, credential: *const u8, credential_len: usize, hint: u16, count: u8,
                         places: *mut u16, places_len: usize);
    negvask_create(port: u8, source: u16, credential: *const u8, credential_len: usize,
                   destination: u16, second: *const u8, second_len: usize);
    negvask_delete(port: u8, source: u16, credential: *const u8, credential_len: usize, destination: u16,
                   value: *mut u64);
    negvask_delete_tree(port: u8, source: u16, credential: *const u8, credential_len: usize, destination: u16,
                        value: *mut u64);
    negvask_key_read(port: u8, block: u16, credential: *const u8, credential_len: usize,
                     key: *const u8, key_len: usize);
    negvask_key_write(port: u8, block: u16, credential: *const u8, credential_len: usize,
                      key: *const u8, key_len: usize);
    negvask_renew(mode: u8, block: u16, key: *const u8, key_len: usize, interval: u32);
    negvask_force(block: u16);
    negvask_count_free(value: *mut u64);
    negvask_tick(seconds: u64, value: *mut u64);
    negvask_rent(price: u32, cents: *mut u64);
    negvask_sweep(most: u32, swept: *mut u64);
    negvask_serve(port: u8, kind: u8, body: *const u8, body_len: usize, out: *mut u8, out_len: usize,
                  places: *mut u16, places_len: usize, value: *mut u64);
    negvask_batch(port: u8, input: *const u8, input_len: usize, answers: *mut u8, answers_len: usize,
                  records: *mut u64, read: *mut u64, written: *mut u64);
    negvask_reach(given: *const u64, given_len: usize, places: *mut u16, places_len: usize, value: *mut u64);
    negvask_unlocking(block: u16, given: *const u64, given_len: usize, places: *mut u16, places_len: usize,
                      value: *mut u64);
}

const GUARDS: usize = 16;

/// Lent memory with guard elements on both sides, so that a write outside of it is seen.
pub struct Lent<T> {
    memory: Vec<T>,
    guard: T,
}

impl<T: Copy + PartialEq> Lent<T> {
    pub fn new(values: &[T], guard: T) -> Self {
        let mut lent = Lent { memory: Vec::new(), guard };
        lent.load(values);
        lent
    }
    pub fn load(&mut self, values: &[T]) {
        self.memory.clear();
        self.memory.reserve(values.len() + 2 * GUARDS);
        self.memory.extend([self.guard; GUARDS]);
        self.memory.extend_from_slice(values);
        self.memory.extend([self.guard; GUARDS]);
    }
    pub fn values(&self) -> &[T] {
        &self.memory[GUARDS..self.memory.len() - GUARDS]
    }
    pub fn pointer(&mut self) -> *mut T {
        self.memory[GUARDS..].as_mut_ptr()
    }
    pub fn length(&self) -> usize {
        self.memory.len() - 2 * GUARDS
    }
    pub fn guards_kept(&self) -> bool {
        let end = self.memory.len() - GUARDS;
        self.memory[..GUARDS].iter().chain(&self.memory[end..]).all(|&v| v == self.guard)
    }
}

/// The record and tables as lent to the library.
pub struct Tables {
    pub info: Lent<u64>,
    pub flags: Lent<u8>,
    pub keys: Lent<u64>,
    pub counts: Lent<u32>,
    pub pointers: Lent<u32>,
    pub multiplicities: Lent<u16>,
    pub windows: Lent<u64>,
    pub contents: Lent<u8>,
}

/// Calls a function of the library with the record, the tables and the operands.
macro_rules! with_tables {
    ($name:ident, $t:expr $(, $operand:expr)*) => {
        unsafe {
            $name(
                $t.info.pointer(), $t.info.length(),
                $t.flags.pointer(), $t.flags.length(),
                $t.keys.pointer(), $t.keys.length(),
                $t.counts.pointer(), $t.counts.length(),
                $t.pointers.pointer(), $t.pointers.length(),
                $t.multiplicities.pointer(), $t.multiplicities.length(),
                $t.windows.pointer(), $t.windows.length(),
                $t.contents.pointer(), $t.contents.length(),
                $($operand),*
            )
        }
    };
}

/// A credential or a new key as the C interface passes it: bytes, which need not be well formed nor 17.
pub type Raw = Vec<u8>;

/// A call of the C interface.
#[derive(Clone, Debug, PartialEq)]
pub enum Direct {
    Format { blocks: u64, roots: u64, bytes: u64 },
    Read { port: u8, block: u16, credential: Raw, interval: u32 },
    Write { port: u8, block: u16, credential: Raw, interval: u32, data: Vec<u8> },
    Alloc { port: u8, reference: u16, credential: Raw, hint: u16, count: u8 },
    AllocContig { port: u8, reference: u16, credential: Raw, hint: u16, count: u8 },
    Create { port: u8, source: u16, source_credential: Raw, destination: u16, destination_credential: Raw },
    Delete { port: u8, source: u16, credential: Raw, destination: u16 },
    DeleteTree { port: u8, source: u16, credential: Raw, destination: u16 },
    KeyRead { port: u8, block: u16, credential: Raw, key: Raw },
    KeyWrite { port: u8, block: u16, credential: Raw, key: Raw },
    Renew { mode: u8, block: u16, key: Raw, interval: u32 },
    Force { block: u16 },
    Free,
    Tick { seconds: u64 },
    Audit,
    Rent { price: u32 },
    Sweep { most: u32 },
}

/// The buffers as lent to the library.
pub struct LentBuffers {
    pub out: Lent<u8>,
    pub places: Lent<u16>,
    pub value: Lent<u64>,
}

impl LentBuffers {
    pub fn new(buffers: &Buffers) -> Self {
        LentBuffers {
            out: Lent::new(&buffers.out, 0xA5),
            places: Lent::new(&buffers.places, 0xA5A5),
            value: Lent::new(&[buffers.value], 0xA5A5_A5A5_A5A5_A5A5),
        }
    }

    /// What the buffers hold.
    pub fn buffers(&self) -> Buffers {
        Buffers {
            out: self.out.values().to_vec(),
            places: self.places.values().to_vec(),
            value: self.value.values()[0],
        }
    }

    /// The first place where the buffers are not as the model has them.
    pub fn difference(&self, model: &Buffers) -> Option<String> {
        differs("out", &self.out, &model.out)
            .or_else(|| differs("places", &self.places, &model.places))
            .or_else(|| differs("value", &self.value, &[model.value]))
    }
}

/// Input, answers and the three numbers of a batch as lent to the library.
pub struct LentBatch {
    pub input: Lent<u8>,
    pub answers: Lent<u8>,
    pub records: Lent<u64>,
    pub read: Lent<u64>,
    pub written: Lent<u64>,
}

impl LentBatch {
    pub fn new(input: &[u8], answers: &[u8], numbers: Progress) -> Self {
        let number = |value| Lent::new(&[value], 0xA5A5_A5A5_A5A5_A5A5);
        LentBatch {
            input: Lent::new(input, 0xA5),
            answers: Lent::new(answers, 0xA5),
            records: number(numbers.records),
            read: number(numbers.read),
            written: number(numbers.written),
        }
    }

    /// What the three numbers say.
    pub fn progress(&self) -> Progress {
        let number = |lent: &Lent<u64>| lent.values()[0];
        Progress { records: number(&self.records), read: number(&self.read), written: number(&self.written) }
    }

    /// The first place where they are not as the model has them.
    pub fn difference(&self, input: &[u8], answers: &[u8], numbers: Progress) -> Option<String> {
        differs("records", &self.records, &[numbers.records])
            .or_else(|| differs("read", &self.read, &[numbers.read]))
            .or_else(|| differs("written", &self.written, &[numbers.written]))
            .or_else(|| differs("answers", &self.answers, answers))
            .or_else(|| differs("input", &self.input, input))
    }
}

pub fn differs<T: Copy + PartialEq + std::fmt::Debug>(name: &str, library: &Lent<T>, model: &[T]) -> Option<String> {
    if !library.guards_kept() {
        return Some(format!("memory beside {name} was written to"));
    }
    let values = library.values();
    if values == model {
        return None;
    }
    let at = values.iter().zip(model).position(|(a, b)| a != b)?;
    Some(format!("{name}[{at}]: library {:?}, model {:?}", values[at], model[at]))
}

impl Tables {
    pub fn new(card: &Card) -> Self {
        Tables {
            info: Lent::new(&card.info, 0xA5A5_A5A5_A5A5_A5A5),
            flags: Lent::new(&card.flags, 0xA5),
            keys: Lent::new(&card.keys, 0xA5A5_A5A5_A5A5_A5A5),
            counts: Lent::new(&card.counts, 0xA5A5_A5A5),
            pointers: Lent::new(&card.pointers, 0xA5A5_A5A5),
            multiplicities: Lent::new(&card.multiplicities, 0xA5A5),
            windows: Lent::new(&card.windows, 0xA5A5_A5A5_A5A5_A5A5),
            contents: Lent::new(&card.contents, 0xA5),
        }
    }

    pub fn load(&mut self, card: &Card) {
        self.info.load(&card.info);
        self.flags.load(&card.flags);
        self.keys.load(&card.keys);
        self.counts.load(&card.counts);
        self.pointers.load(&card.pointers);
        self.multiplicities.load(&card.multiplicities);
        self.windows.load(&card.windows);
        self.contents.load(&card.contents);
    }

    /// The first place where record or tables, but for contents, are not as the model has them.
    pub fn difference_but_contents(&self, model: &Card) -> Option<String> {
        differs("info", &self.info, &model.info)
            .or_else(|| differs("flags", &self.flags, &model.flags))
            .or_else(|| differs("keys", &self.keys, &model.keys))
            .or_else(|| differs("counts", &self.counts, &model.counts))
            .or_else(|| differs("pointers", &self.pointers, &model.pointers))
            .or_else(|| differs("multiplicities", &self.multiplicities, &model.multiplicities))
            .or_else(|| differs("windows", &self.windows, &model.windows))
    }

    pub fn difference(&self, model: &Card) -> Option<String> {
        self.difference_but_contents(model).or_else(|| differs("contents", &self.contents, &model.contents))
    }

    /// What the record and the tables hold.
    pub fn card(&self) -> Card {
        Card {
            info: self.info.values().to_vec(),
            flags: self.flags.values().to_vec(),
            keys: self.keys.values().to_vec(),
            counts: self.counts.values().to_vec(),
            pointers: self.pointers.values().to_vec(),
            multiplicities: self.multiplicities.values().to_vec(),
            windows: self.windows.values().to_vec(),
            contents: self.contents.values().to_vec(),
        }
    }

    /// One call of the C interface.
    pub fn call(&mut self, call: &Direct, lent: &mut LentBuffers) -> u32 {
        match call {
            Direct::Format { blocks, roots, bytes } => with_tables!(negvask_format, self, *blocks, *roots, *bytes),
            Direct::Read { port, block, credential: c, interval } => with_tables!(
                negvask_read,
                self,
                *port,
                *block,
                c.as_ptr(),
                c.len(),
                *interval,
                lent.out.pointer(),
                lent.out.length()
            ),
            Direct::Write { port, block, credential: c, interval, data } => with_tables!(
                negvask_write,
                self,
                *port,
                *block,
                c.as_ptr(),
                c.len(),
                *interval,
                data.as_ptr(),
                data.len()
            ),
            Direct::Alloc { port, reference, credential: c, hint, count } => with_tables!(
                negvask_alloc,
                self,
                *port,
                *reference,
                c.as_ptr(),
                c.len(),
                *hint,
                *count,
                lent.places.pointer(),
                lent.places.length()
            ),
            Direct::AllocContig { port, reference, credential: c, hint, count } => with_tables!(
                negvask_alloc_contig,
                self,
                *port,
                *reference,
                c.as_ptr(),
                c.len(),
                *hint,
                *count,
                lent.places.pointer(),
                lent.places.length()
            ),
            Direct::Create { port, source, source_credential: c, destination, destination_credential: d } => {
                with_tables!(
                    negvask_create,
                    self,
                    *port,
                    *source,
                    c.as_ptr(),
                    c.len(),
                    *destination,
                    d.as_ptr(),
                    d.len()
                )
            }
            Direct::Delete { port, source, credential: c, destination } => with_tables!(
                negvask_delete,
                self,
                *port,
                *source,
                c.as_ptr(),
                c.len(),
                *destination,
                lent.value.pointer()
            ),
            Direct::DeleteTree { port, source, credential: c, destination } => with_tables!(
                negvask_delete_tree,
                self,
                *port,
                *source,
                c.as_ptr(),
                c.len(),
                *destination,
                lent.value.pointer()
            ),
            Direct::KeyRead { port, block, credential: c, key } => {
                with_tables!(negvask_key_read, self, *port, *block, c.as_ptr(), c.len(), key.as_ptr(), key.len())
            }
            Direct::KeyWrite { port, block, credential: c, key } => {
                with_tables!(negvask_key_write, self, *port, *block, c.as_ptr(), c.len(), key.as_ptr(), key.len())
            }
            Direct::Renew { mode, block, key, interval } => {
                with_tables!(negvask_renew, self, *mode, *block, key.as_ptr(), key.len(), *interval)
            }
            Direct::Force { block } => with_tables!(negvask_force, self, *block),
            Direct::Free => with_tables!(negvask_count_free, self, lent.value.pointer()),
            Direct::Tick { seconds } => with_tables!(negvask_tick, self, *seconds, lent.value.pointer()),
            Direct::Audit => with_tables!(negvask_audit, self),
            Direct::Rent { price } => with_tables!(negvask_rent, self, *price, lent.value.pointer()),
            Direct::Sweep { most } => with_tables!(negvask_sweep, self, *most, lent.value.pointer()),
        }
    }

    /// One call record on the wire of a port.
    pub fn serve(&mut self, wire: u8, kind: u8, body: &[u8], lent: &mut LentBuffers) -> u32 {
        with_tables!(
            negvask_serve,
            self,
            wire,
            kind,
            body.as_ptr(),
            body.len(),
            lent.out.pointer(),
            lent.out.length(),
            lent.places.pointer(),
            lent.places.length(),
            lent.value.pointer()
        )
    }

    /// The records of an input on the wire of a port, with one audit.
    pub fn batch(&mut self, wire: u8, lent: &mut LentBatch) -> u32 {
        with_tables!(
            negvask_batch,
            self,
            wire,
            lent.input.pointer(),
            lent.input.length(),
            lent.answers.pointer(),
            lent.answers.length(),
            lent.records.pointer(),
            lent.read.pointer(),
            lent.written.pointer()
        )
    }

    /// The blocks within reach of keys, or those that unlock a chosen one.
    pub fn report(&mut self, chosen: Option<u16>, given: &mut Lent<u64>, lent: &mut LentBuffers) -> u32 {
        let (words, length) = (given.pointer(), given.length());
        let (places, room, value) = (lent.places.pointer(), lent.places.length(), lent.value.pointer());
        match chosen {
            None => with_tables!(negvask_reach, self, words, length, places, room, value),
            Some(block) => with_tables!(negvask_unlocking, self, block, words, length, places, room, value),
        }
    }
}

// ---- Raw operands and what they mean ----

pub fn credential_bytes(credential: Credential) -> Raw {
    match credential {
        Credential::Nothing => bytes_of(0, 0, 0),
        Credential::Reference(block) => bytes_of(1, (block as u64) << 48, 0),
        Credential::Key(k) => bytes_of(2, k.high, k.low),
    }
}

pub fn new_key_bytes(key: Option<Key>) -> Raw {
    match key {
        None => bytes_of(0, 0, 0),
        Some(k) => bytes_of(1, k.high, k.low),
    }
}

fn bytes_of(first: u8, high: u64, low: u64) -> Raw {
    [&[first][..], &high.to_be_bytes(), &low.to_be_bytes()].concat()
}

/// RENEW takes a credential that is a key.
fn plain_key(raw: &Raw) -> Option<Key> {
    match credential_of(raw)? {
        Credential::Key(key) => Some(key),
        _ => None,
    }
}

impl Direct {
    pub fn from(port: Port, call: &Call) -> Self {
        let port = port as u8;
        match call.clone() {
            Call::Read { block, credential, interval } => {
                Direct::Read { port, block, credential: credential_bytes(credential), interval }
            }
            Call::Write { block, credential, interval, data } => {
                Direct::Write { port, block, credential: credential_bytes(credential), interval, data }
            }
            Call::Alloc { reference, credential, hint, count } => {
                Direct::Alloc { port, reference, credential: credential_bytes(credential), hint, count }
            }
            Call::AllocContig { reference, credential, hint, count } => {
                Direct::AllocContig { port, reference, credential: credential_bytes(credential), hint, count }
            }
            Call::Create { source, source_credential, destination, destination_credential } => Direct::Create {
                port,
                source,
                source_credential: credential_bytes(source_credential),
                destination,
                destination_credential: credential_bytes(destination_credential),
            },
            Call::Delete { source, credential, destination } => {
                Direct::Delete { port, source, credential: credential_bytes(credential), destination }
            }
            Call::DeleteTree { source, credential, destination } => {
                Direct::DeleteTree { port, source, credential: credential_bytes(credential), destination }
            }
            Call::KeyRead { block, credential, key } => {
                Direct::KeyRead { port, block, credential: credential_bytes(credential), key: new_key_bytes(key) }
            }
            Call::KeyWrite { block, credential, key } => {
                Direct::KeyWrite { port, block, credential: credential_bytes(credential), key: new_key_bytes(key) }
            }
            Call::Renew { mode, block, key, interval } => {
                Direct::Renew { mode, block, key: credential_bytes(Credential::Key(key)), interval }
            }
            Call::Force { block } => Direct::Force { block },
            Call::Free => Direct::Free,
            Call::Tick { seconds } => Direct::Tick { seconds },
            Call::Audit => Direct::Audit,
            Call::Rent { price } => Direct::Rent { price },
            Call::Sweep { most } => Direct::Sweep { most },
        }
    }

    /// The call that the raw operands stand for; None where the interface refuses them 13. FORMAT is not among them.
    pub fn plain(&self) -> Option<(Port, Call)> {
        Some(match self {
            Direct::Format { .. } => return None,
            Direct::Read { port, block, credential, interval } => (
                port_of(*port)?,
                Call::Read { block: *block, credential: credential_of(credential)?, interval: *interval },
            ),
            Direct::Write { port, block, credential, interval, data } => (
                port_of(*port)?,
                Call::Write {
                    block: *block,
                    credential: credential_of(credential)?,
                    interval: *interval,
                    data: data.clone(),
                },
            ),
            Direct::Alloc { port, reference, credential, hint, count } => (
                port_of(*port)?,
                Call::Alloc {
                    reference: *reference,
                    credential: credential_of(credential)?,
                    hint: *hint,
                    count: *count,
                },
            ),
            Direct::AllocContig { port, reference, credential, hint, count } => (
                port_of(*port)?,
                Call::AllocContig {
                    reference: *reference,
                    credential: credential_of(credential)?,
                    hint: *hint,
                    count: *count,
                },
            ),
            Direct::Create { port, source, source_credential, destination, destination_credential } => (
                port_of(*port)?,
                Call::Create {
                    source: *source,
                    source_credential: credential_of(source_credential)?,
                    destination: *destination,
                    destination_credential: credential_of(destination_credential)?,
                },
            ),
            Direct::Delete { port, source, credential, destination } => (
                port_of(*port)?,
                Call::Delete { source: *source, credential: credential_of(credential)?, destination: *destination },
            ),
            Direct::DeleteTree { port, source, credential, destination } => (
                port_of(*port)?,
                Call::DeleteTree { source: *source, credential: credential_of(credential)?, destination: *destination },
            ),
            Direct::KeyRead { port, block, credential, key } => (
                port_of(*port)?,
                Call::KeyRead { block: *block, credential: credential_of(credential)?, key: new_key_of(key)? },
            ),
            Direct::KeyWrite { port, block, credential, key } => (
                port_of(*port)?,
                Call::KeyWrite { block: *block, credential: credential_of(credential)?, key: new_key_of(key)? },
            ),
            Direct::Renew { mode, block, key, interval } => {
                (Port::Host, Call::Renew { mode: *mode, block: *block, key: plain_key(key)?, interval: *interval })
            }
            Direct::Force { block } => (Port::Host, Call::Force { block: *block }),
            Direct::Free => (Port::Host, Call::Free),
            Direct::Tick { seconds } => (Port::Host, Call::Tick { seconds: *seconds }),
            Direct::Audit => (Port::Host, Call::Audit),
            Direct::Rent { price } => (Port::Host, Call::Rent { price: *price }),
            Direct::Sweep { most } => (Port::Host, Call::Sweep { most: *most }),
        })
    }

    /// The same call as a record, ill formed where the call is; None where no record has the form.
    pub fn record(&self) -> Option<(u8, Vec<u8>)> {
        let mut body = Vec::new();
        let (port, kind) = match self {
            Direct::Format { .. } | Direct::Rent { .. } | Direct::Sweep { .. } => return None,
            Direct::Read { port, block, credential, interval } => {
                body.extend(block.to_be_bytes());
                put_bytes(&mut body, credential)?;
                body.extend(interval.to_be_bytes());
                (*port, 1)
            }
            Direct::Write { port, block, credential, interval, data } => {
                if data.len() != 512 {
                    return None;
                }
                body.extend(block.to_be_bytes());
                put_bytes(&mut body, credential)?;
                body.extend(interval.to_be_bytes());
                body.extend(data);
                (*port, 2)
            }
            Direct::Alloc { port, reference, credential, hint, count } => {
                body.extend(reference.to_be_bytes());
                put_bytes(&mut body, credential)?;
                body.extend(hint.to_be_bytes());
                body.push(*count);
                (*port, 3)
            }
            Direct::AllocContig { port, reference, credential, hint, count } => {
                body.extend(reference.to_be_bytes());
                put_bytes(&mut body, credential)?;
                body.extend(hint.to_be_bytes());
                body.push(*count);
                (*port, 12)
            }
            Direct::Create { port, source, source_credential, destination, destination_credential } => {
                body.extend(source.to_be_bytes());
                put_bytes(&mut body, source_credential)?;
                body.extend(destination.to_be_bytes());
                put_bytes(&mut body, destination_credential)?;
                (*port, 4)
            }
            Direct::Delete { port, source, credential, destination } => {
                body.extend(source.to_be_bytes());
                put_bytes(&mut body, credential)?;
                body.extend(destination.to_be_bytes());
                (*port, 5)
            }
            Direct::DeleteTree { port, source, credential, destination } => {
                body.extend(source.to_be_bytes());
                put_bytes(&mut body, credential)?;
                body.extend(destination.to_be_bytes());
                (*port, 14)
            }
            Direct::KeyRead { port, block, credential, key } => {
                body.extend(block.to_be_bytes());
                put_bytes(&mut body, credential)?;
                put_bytes(&mut body, key)?;
                (*port, 6)
            }
            Direct::KeyWrite { port, block, credential, key } => {
                body.extend(block.to_be_bytes());
                put_bytes(&mut body, credential)?;
                put_bytes(&mut body, key)?;
                (*port, 13)
            }
            Direct::Renew { mode, block, key, interval } => {
                body.push(*mode);
                body.extend(block.to_be_bytes());
                plain_key(key)?;
                body.extend(&key[1..]);
                body.extend(interval.to_be_bytes());
                (0, 7)
            }
            Direct::Force { block } => {
                body.extend(block.to_be_bytes());
                (0, 8)
            }
            Direct::Free => (0, 9),
            Direct::Tick { seconds } => {
                body.extend(seconds.to_be_bytes());
                (0, 10)
            }
            Direct::Audit => (0, 11),
        };
        match port {
            0 => Some((kind, body)),
            1 => Some((kind + 128, body)),
            _ => None,
        }
    }
}

/// Other bytes than 17 would move all that follows.
fn put_bytes(body: &mut Vec<u8>, raw: &Raw) -> Option<()> {
    body.extend(raw);
    (raw.len() == 17).then_some(())
}
