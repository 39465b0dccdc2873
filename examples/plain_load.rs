//! A server without proofs, to compare `pcp load` with (`examples/load_ratio.py`). It takes the same
//! words, CONFIG JOURNALS START NUMBER COUNT, makes the same MAP requests, serves them, and leaves
//! the same summary and the same journals. Its configuration is that of `examples/first.toml`.
//!
//! Left out against a whole server: PEER, the options PREFER_FAILURE, FILTER and PORT_SET (so each
//! lease has one port), reading a configuration, and the recovery of a journal that isn't blank.

use std::cmp::max;
use std::collections::{BTreeMap, BTreeSet, HashMap, VecDeque};
use std::fs::{File, OpenOptions};
use std::io::{self, ErrorKind, Write};
use std::os::unix::fs::FileExt;
use std::path::Path;
use std::process::ExitCode;

const MOMENTS: u64 = 1 << 40;
const MOST_REQUESTS: u64 = 1_000_000;
const MOST_LEASES: usize = 32_768;
const REST: u64 = 120;
const LONGEST_MESSAGE: usize = 1100;
const HEADER: usize = 24;
const MAP_DATA: usize = 36;

// ---- SHA-256 and ChaCha8

const ROUND_WORDS: [u32; 64] = [
    0x428a2f98, 0x71374491, 0xb5c0fbcf, 0xe9b5dba5, 0x3956c25b, 0x59f111f1, 0x923f82a4, 0xab1c5ed5,
    0xd807aa98, 0x12835b01, 0x243185be, 0x550c7dc3, 0x72be5d74, 0x80deb1fe, 0x9bdc06a7, 0xc19bf174,
    0xe49b69c1, 0xefbe4786, 0x0fc19dc6, 0x240ca1cc, 0x2de92c6f, 0x4a7484aa, 0x5cb0a9dc, 0x76f988da,
    0x983e5152, 0xa831c66d, 0xb00327c8, 0xbf597fc7, 0xc6e00bf3, 0xd5a79147, 0x06ca6351, 0x14292967,
    0x27b70a85, 0x2e1b2138, 0x4d2c6dfc, 0x53380d13, 0x650a7354, 0x766a0abb, 0x81c2c92e, 0x92722c85,
    0xa2bfe8a1, 0xa81a664b, 0xc24b8b70, 0xc76c51a3, 0xd192e819, 0xd6990624, 0xf40e3585, 0x106aa070,
    0x19a4c116, 0x1e376c08, 0x2748774c, 0x34b0bcb5, 0x391c0cb3, 0x4ed8aa4a, 0x5b9cca4f, 0x682e6ff3,
    0x748f82ee, 0x78a5636f, 0x84c87814, 0x8cc70208, 0x90befffa, 0xa4506ceb, 0xbef9a3f7, 0xc67178f2,
];

struct Sha256 {
    state: [u32; 8],
    block: [u8; 64],
    filled: usize,
    length: u64,
}

impl Sha256 {
    fn new() -> Sha256 {
        let state = [
            0x6a09e667, 0xbb67ae85, 0x3c6ef372, 0xa54ff53a, 0x510e527f, 0x9b05688c, 0x1f83d9ab,
            0x5be0cd19,
        ];
        Sha256 {
            state,
            block: [0; 64],
            filled: 0,
            length: 0,
        }
    }

    fn update(&mut self, mut octets: &[u8]) {
        self.length += octets.len() as u64;
        while !octets.is_empty() {
            let taken = octets.len().min(64 - self.filled);
            self.block[self.filled..self.filled + taken].copy_from_slice(&octets[..taken]);
            self.filled += taken;
            octets = &octets[taken..];
            if self.filled == 64 {
                compress(&mut self.state, &self.block);
                self.filled = 0;
            }
        }
    }

    fn finish(mut self) -> [u8; 32] {
        let bits = self.length * 8;
        self.update(&[0x80]);
        let zeros = (64 + 56 - self.filled) % 64;
        self.update(&[0; 64][..zeros]);
        self.update(&bits.to_be_bytes());
        let mut digest = [0; 32];
        for (octets, word) in digest.chunks_exact_mut(4).zip(self.state) {
            octets.copy_from_slice(&word.to_be_bytes());
        }
        digest
    }
}

fn compress(state: &mut [u32; 8], block: &[u8; 64]) {
    let mut words = [0u32; 64];
    for (word, octets) in words.iter_mut().zip(block.chunks_exact(4)) {
        *word = u32::from_be_bytes(octets.try_into().unwrap());
    }
    for i in 16..64 {
        let (x, y) = (words[i - 15], words[i - 2]);
        let s0 = x.rotate_right(7) ^ x.rotate_right(18) ^ (x >> 3);
        let s1 = y.rotate_right(17) ^ y.rotate_right(19) ^ (y >> 10);
        words[i] = words[i - 16]
            .wrapping_add(s0)
            .wrapping_add(words[i - 7])
            .wrapping_add(s1);
    }
    let [mut a, mut b, mut c, mut d, mut e, mut f, mut g, mut h] = *state;
    for i in 0..64 {
        let s1 = e.rotate_right(6) ^ e.rotate_right(11) ^ e.rotate_right(25);
        let choice = (e & f) ^ (!e & g);
        let t1 = h
            .wrapping_add(s1)
            .wrapping_add(choice)
            .wrapping_add(ROUND_WORDS[i])
            .wrapping_add(words[i]);
        let s0 = a.rotate_right(2) ^ a.rotate_right(13) ^ a.rotate_right(22);
        let majority = (a & b) ^ (a & c) ^ (b & c);
        let t2 = s0.wrapping_add(majority);
        (h, g, f, e) = (g, f, e, d.wrapping_add(t1));
        (d, c, b, a) = (c, b, a, t1.wrapping_add(t2));
    }
    for (word, added) in state.iter_mut().zip([a, b, c, d, e, f, g, h]) {
        *word = word.wrapping_add(added);
    }
}

/// ChaCha with 8 rounds, a counter of 64 bits and stream 0.
struct ChaCha8 {
    key: [u32; 8],
    counter: u64,
    block: [u32; 16],
    used: usize,
}

impl ChaCha8 {
    fn new(number: u64) -> ChaCha8 {
        let key = [number as u32, (number >> 32) as u32, 0, 0, 0, 0, 0, 0];
        ChaCha8 {
            key,
            counter: 0,
            block: [0; 16],
            used: 16,
        }
    }

    fn next_word(&mut self) -> u32 {
        if self.used == 16 {
            self.fill();
        }
        let word = self.block[self.used];
        self.used += 1;
        word
    }

    fn fill(&mut self) {
        let [a, b, c, d, e, f, g, h] = self.key;
        let (low, high) = (self.counter as u32, (self.counter >> 32) as u32);
        let begin = [
            0x61707865, 0x3320646e, 0x79622d32, 0x6b206574, a, b, c, d, e, f, g, h, low, high, 0, 0,
        ];
        let mut x = begin;
        for _ in 0..4 {
            quarter(&mut x, 0, 4, 8, 12);
            quarter(&mut x, 1, 5, 9, 13);
            quarter(&mut x, 2, 6, 10, 14);
            quarter(&mut x, 3, 7, 11, 15);
            quarter(&mut x, 0, 5, 10, 15);
            quarter(&mut x, 1, 6, 11, 12);
            quarter(&mut x, 2, 7, 8, 13);
            quarter(&mut x, 3, 4, 9, 14);
        }
        for (word, added) in x.iter_mut().zip(begin) {
            *word = word.wrapping_add(added);
        }
        self.block = x;
        self.counter = self.counter.wrapping_add(1);
        self.used = 0;
    }
}

fn quarter(x: &mut [u32; 16], a: usize, b: usize, c: usize, d: usize) {
    x[a] = x[a].wrapping_add(x[b]);
    x[d] = (x[d] ^ x[a]).rotate_left(16);
    x[c] = x[c].wrapping_add(x[d]);
    x[b] = (x[b] ^ x[c]).rotate_left(12);
    x[a] = x[a].wrapping_add(x[b]);
    x[d] = (x[d] ^ x[a]).rotate_left(8);
    x[c] = x[c].wrapping_add(x[d]);
    x[b] = (x[b] ^ x[c]).rotate_left(7);
}

// ---- Addresses, configuration and messages

/// An address of 16 octets as a number, the first octet highest.
#[derive(Clone, Copy, PartialEq, Eq, Hash)]
struct Address(u128);

impl Address {
    fn v4(a: u8, b: u8, c: u8, d: u8) -> Address {
        Address(0xffff_0000_0000 | u32::from_be_bytes([a, b, c, d]) as u128)
    }

    fn read(octets: &[u8]) -> Address {
        Address(u128::from_be_bytes(octets[..16].try_into().unwrap()))
    }

    fn octets(self) -> [u8; 16] {
        self.0.to_be_bytes()
    }
}

struct Prefix {
    address: Address,
    bits: u32,
}

impl Prefix {
    fn holds(&self, address: Address) -> bool {
        self.bits == 0 || (self.address.0 ^ address.0) >> (128 - self.bits) == 0
    }
}

#[derive(Clone, Copy)]
struct External {
    address: Address,
    low: u16,
    high: u16,
}

/// The configuration; subscribers are prefixes with the index of their external address.
struct Config {
    quota: u32,
    lifetime_min: u32,
    lifetime_max: u32,
    third_party: Vec<Prefix>,
    externals: Vec<External>,
    subscribers: Vec<(Prefix, usize)>,
}

impl Config {
    fn first() -> Config {
        let external = External {
            address: Address::v4(192, 0, 2, 1),
            low: 1024,
            high: 65535,
        };
        let subscribers = vec![(
            Prefix {
                address: Address::v4(10, 0, 0, 0),
                bits: 104,
            },
            0,
        )];
        let (third_party, externals) = (Vec::new(), vec![external]);
        Config {
            quota: 64,
            lifetime_min: 120,
            lifetime_max: 86400,
            third_party,
            externals,
            subscribers,
        }
    }

    fn place(&self, address: Address) -> Option<usize> {
        self.subscribers
            .iter()
            .find(|(prefix, _)| prefix.holds(address))
            .map(|(_, external)| *external)
    }
}

#[derive(Clone, Copy)]
enum Code {
    Success = 0,
    UnsuppVersion = 1,
    NotAuthorized = 2,
    MalformedRequest = 3,
    UnsuppOpcode = 4,
    UnsuppOption = 5,
    MalformedOption = 6,
    NoResources = 8,
    UnsuppProtocol = 9,
    UserExQuota = 10,
    AddressMismatch = 12,
}

impl Code {
    fn lifetime(self) -> u32 {
        match self {
            Code::Success => 0,
            Code::NoResources | Code::UserExQuota => 30,
            _ => 1800,
        }
    }
}

const TCP: u8 = 6;
const UDP: u8 = 17;

/// An internal endpoint; the protocol is TCP or UDP.
#[derive(Clone, Copy, PartialEq, Eq, Hash)]
struct Endpoint {
    address: Address,
    protocol: u8,
    port: u16,
}

struct MapAsk {
    endpoint: Endpoint,
    nonce: [u8; 12],
    lifetime: u32,
    suggested_port: u16,
    suggested_address: Address,
    third_party: Option<Address>,
}

enum Verdict {
    Silent,
    Refuse { code: Code, parsed: bool },
    Announce { place: usize },
    Map { place: usize, ask: MapAsk },
}

fn read_u16(octets: &[u8], at: usize) -> u16 {
    u16::from_be_bytes(octets[at..at + 2].try_into().unwrap())
}

/// Why a message isn't read as a request, or the THIRD_PARTY address of one that is.
fn read_head(source: Address, octets: &[u8]) -> Result<Option<Address>, Code> {
    if octets[0] != 2 {
        return Err(Code::UnsuppVersion);
    }
    if octets.len() > LONGEST_MESSAGE || octets.len() % 4 != 0 {
        return Err(Code::MalformedRequest);
    }
    if octets[1] > 1 {
        return Err(Code::UnsuppOpcode);
    }
    let map = octets[1] == 1;
    let end = if map { HEADER + MAP_DATA } else { HEADER };
    if octets.len() < end {
        return Err(Code::MalformedRequest);
    }
    if Address::read(&octets[8..]) != source {
        return Err(Code::AddressMismatch);
    }
    read_options(&octets[end..], map)
}

/// The ask of a MAP request whose head and options are read.
fn read_map(octets: &[u8], address: Address, third_party: Option<Address>) -> Result<MapAsk, Code> {
    let data = &octets[HEADER..HEADER + MAP_DATA];
    if !matches!(data[12], TCP | UDP) || read_u16(data, 16) == 0 {
        return Err(Code::UnsuppProtocol);
    }
    Ok(MapAsk {
        endpoint: Endpoint {
            address,
            protocol: data[12],
            port: read_u16(data, 16),
        },
        nonce: data[..12].try_into().unwrap(),
        lifetime: u32::from_be_bytes(octets[4..8].try_into().unwrap()),
        suggested_port: read_u16(data, 18),
        suggested_address: Address::read(&data[20..]),
        third_party,
    })
}

/// What becomes of a request whose head and options are read.
fn judge_parsed(
    config: &Config,
    source: Address,
    octets: &[u8],
    third_party: Option<Address>,
) -> Result<Verdict, Code> {
    match third_party {
        Some(_) if !config.third_party.iter().any(|prefix| prefix.holds(source)) => {
            return Err(Code::UnsuppOption)
        }
        Some(third) if third == source => return Err(Code::MalformedRequest),
        _ => {}
    }
    let address = third_party.unwrap_or(source);
    if octets[1] == 0 {
        let place = config.place(address).ok_or(Code::NotAuthorized)?;
        return Ok(Verdict::Announce { place });
    }
    let ask = read_map(octets, address, third_party)?;
    let place = config.place(address).ok_or(Code::NotAuthorized)?;
    Ok(Verdict::Map { place, ask })
}

fn judge(config: &Config, source: Address, octets: &[u8]) -> Verdict {
    if octets.len() < 2 || octets[1] & 0x80 != 0 || (octets[0] == 2 && octets.len() < HEADER) {
        return Verdict::Silent;
    }
    match read_head(source, octets) {
        Ok(third_party) => judge_parsed(config, source, octets, third_party)
            .unwrap_or_else(|code| Verdict::Refuse { code, parsed: true }),
        Err(code) => Verdict::Refuse {
            code,
            parsed: false,
        },
    }
}

/// Walks the options. Of the known ones there is THIRD_PARTY alone.
fn read_options(mut octets: &[u8], map: bool) -> Result<Option<Address>, Code> {
    let mut third_party = None;
    while !octets.is_empty() {
        // The length of a message is a multiple of 4, so an option's head is always there.
        let code = octets[0];
        let length = read_u16(octets, 2) as usize;
        let end = 4 + (length + 3) / 4 * 4;
        if end > octets.len() {
            return Err(Code::MalformedOption);
        }
        match code {
            1 if third_party.is_some() || length != 16 || !map => {
                return Err(Code::MalformedOption)
            }
            1 => third_party = Some(Address::read(&octets[4..])),
            128.. => {}
            _ => return Err(Code::UnsuppOption),
        }
        octets = &octets[end..];
    }
    Ok(third_party)
}

enum Answer {
    Announced,
    Mapped {
        lifetime: u32,
        port: u16,
        renewed: bool,
    },
    Gone {
        dropped: bool,
    },
    Refused {
        code: Code,
        lifetime: u32,
    },
}

fn refused(code: Code) -> Answer {
    let lifetime = code.lifetime();
    Answer::Refused { code, lifetime }
}

fn write_head(reply: &mut [u8], opcode: u8, code: Code, lifetime: u32, epoch: u32) {
    reply[..4].copy_from_slice(&[2, opcode | 0x80, 0, code as u8]);
    reply[4..8].copy_from_slice(&lifetime.to_be_bytes());
    reply[8..12].copy_from_slice(&epoch.to_be_bytes());
}

fn write_refusal(
    reply: &mut Vec<u8>,
    request: &[u8],
    code: Code,
    lifetime: u32,
    parsed: bool,
    epoch: u32,
) {
    reply.clear();
    reply.extend_from_slice(&request[..request.len().min(LONGEST_MESSAGE)]);
    reply.resize(max(HEADER, reply.len().next_multiple_of(4)), 0);
    write_head(reply, request[1], code, lifetime, epoch);
    if parsed {
        reply[12..24].fill(0);
    }
}

fn write_success(
    reply: &mut Vec<u8>,
    ask: &MapAsk,
    lifetime: u32,
    port: u16,
    address: Address,
    epoch: u32,
) {
    reply.clear();
    reply.resize(HEADER + MAP_DATA, 0);
    write_head(reply, 1, Code::Success, lifetime, epoch);
    let data = &mut reply[HEADER..];
    data[..12].copy_from_slice(&ask.nonce);
    data[12] = ask.endpoint.protocol;
    data[16..18].copy_from_slice(&ask.endpoint.port.to_be_bytes());
    data[18..20].copy_from_slice(&port.to_be_bytes());
    data[20..36].copy_from_slice(&address.octets());
    if let Some(third) = ask.third_party {
        reply.extend_from_slice(&[1, 0, 0, 16]);
        reply.extend_from_slice(&third.octets());
    }
}

// ---- The journal

/// Writers of the records, each at the end of a buffer.
mod record {
    use super::{Address, Endpoint, Lease};

    pub const START: u8 = 1;
    pub const MARK: u8 = 7;

    /// The head of a record, which is the whole of a Start and a Mark.
    pub fn head(out: &mut Vec<u8>, kind: u8, moment: u64) {
        out.push(kind);
        out.extend_from_slice(&moment.to_be_bytes());
    }

    pub fn map(out: &mut Vec<u8>, moment: u64, lease: &Lease) {
        head(out, 2, moment);
        endpoint(out, &lease.endpoint);
        out.extend_from_slice(&1u16.to_be_bytes());
        out.extend_from_slice(&lease.external.to_be_bytes());
        out.extend_from_slice(&lease.nonce);
        out.extend_from_slice(&lease.granted.to_be_bytes());
        out.extend_from_slice(&lease.expiry.to_be_bytes());
        out.push(0);
    }

    pub fn drop_map(out: &mut Vec<u8>, moment: u64, dropped: &Endpoint) {
        head(out, 4, moment);
        endpoint(out, dropped);
    }

    pub fn rest(out: &mut Vec<u8>, moment: u64, external: u16, had: &Endpoint, end: u64) {
        head(out, 8, moment);
        out.push(had.protocol);
        out.extend_from_slice(&external.to_be_bytes());
        out.extend_from_slice(&had.address.octets());
        out.extend_from_slice(&had.port.to_be_bytes());
        out.extend_from_slice(&end.to_be_bytes());
    }

    pub fn renumber(out: &mut Vec<u8>, moment: u64, address: Address) {
        head(out, 9, moment);
        out.extend_from_slice(&address.octets());
    }

    fn endpoint(out: &mut Vec<u8>, endpoint: &Endpoint) {
        out.extend_from_slice(&endpoint.address.octets());
        out.push(endpoint.protocol);
        out.extend_from_slice(&endpoint.port.to_be_bytes());
    }
}

const SIDE_HEADER: u64 = 14;
const LONG_SIDE: u64 = 1_048_576;
const FRAME_RECORDS: usize = 16;

/// The text of a side from place 1 on: header, open frames, and the closed gate; and of the frame
/// at the end, where its length stands and how many records it has.
struct SideText {
    octets: Vec<u8>,
    frame: usize,
    records: usize,
}

impl SideText {
    fn new(generation: u64) -> SideText {
        let mut octets = vec![0x50, 0x43, 0x50, 0x4a, 2];
        octets.extend_from_slice(&generation.to_be_bytes());
        SideText {
            octets,
            frame: 0,
            records: FRAME_RECORDS,
        }
    }

    /// Makes place for one record more: the buffer at whose end it is to be written.
    fn next(&mut self) -> &mut Vec<u8> {
        if self.records == FRAME_RECORDS {
            self.end_frame();
            self.octets.extend_from_slice(&[1, 0, 0, 0, 0]);
            self.frame = self.octets.len() - 4;
            self.records = 0;
        }
        self.records += 1;
        &mut self.octets
    }

    fn end_frame(&mut self) {
        if self.frame > 0 {
            let length = (self.octets.len() - self.frame - 4) as u32;
            self.octets[self.frame..self.frame + 4].copy_from_slice(&length.to_be_bytes());
        }
    }

    fn finish(mut self) -> Vec<u8> {
        self.end_frame();
        self.octets.push(0);
        self.octets
    }
}

struct Side {
    file: File,
    length: u64,
}

impl Side {
    /// Opens the file, or makes it, and keeps it for this process alone.
    fn open(folder: &Path, name: &str) -> io::Result<Side> {
        let path = folder.join(name);
        let mut options = OpenOptions::new();
        options.read(true).write(true);
        let file = match options.open(&path) {
            Err(error) if error.kind() == ErrorKind::NotFound => {
                let file = options.create_new(true).open(&path)?;
                File::open(folder)?.sync_all()?;
                file
            }
            opened => opened?,
        };
        file.try_lock()?;
        file.sync_all()?;
        let length = file.metadata()?.len();
        Ok(Side { file, length })
    }

    fn first_octet(&self) -> io::Result<Option<u8>> {
        let mut octet = [0];
        Ok(if self.file.read_at(&mut octet, 0)? == 1 {
            Some(octet[0])
        } else {
            None
        })
    }

    fn write(&mut self, at: u64, octets: &[u8]) -> io::Result<()> {
        self.file.write_all_at(octets, at)?;
        self.length = max(self.length, at + octets.len() as u64);
        self.file.sync_all()
    }

    /// Writes a whole side: shut it, write the text from place 1 on, open it.
    fn fill(&mut self, text: &[u8]) -> io::Result<()> {
        let place = if matches!(self.first_octet()?, None | Some(1)) {
            0
        } else {
            1
        };
        self.write(place, &[0])?;
        self.write(1, text)?;
        self.write(0, &[1])
    }
}

/// A pair of sides, of which `open` is the index of the open one and `gate` the place of its closed
/// gate.
struct Journal {
    sides: [Side; 2],
    open: usize,
    generation: u64,
    gate: u64,
    first_length: u64,
    frame: Vec<u8>,
}

impl Journal {
    /// Opens a pair of blank sides and makes a blank start.
    fn begin(folder: &Path, shard: usize, moment: u64) -> io::Result<Journal> {
        let mut a = Side::open(folder, &format!("{shard}a"))?;
        let b = Side::open(folder, &format!("{shard}b"))?;
        for side in [&a, &b] {
            if side.length > SIDE_HEADER && side.first_octet()? == Some(1) {
                return Err(io::Error::other("the journal isn't blank"));
            }
        }
        let mut text = SideText::new(0);
        record::head(text.next(), record::START, moment);
        let text = text.finish();
        a.fill(&text)?;
        let (gate, first_length) = (text.len() as u64, a.length);
        Ok(Journal {
            sides: [a, b],
            open: 0,
            generation: 0,
            gate,
            first_length,
            frame: Vec::new(),
        })
    }

    /// Appends one record in a frame of its own, which `write` puts at the end of a buffer.
    fn append(&mut self, write: impl FnOnce(&mut Vec<u8>)) -> io::Result<()> {
        self.frame.clear();
        self.frame.extend_from_slice(&[0; 4]);
        write(&mut self.frame);
        let length = (self.frame.len() - 4) as u32;
        self.frame[..4].copy_from_slice(&length.to_be_bytes());
        self.frame.push(0);
        let side = &mut self.sides[self.open];
        side.write(self.gate + 1, &self.frame)?;
        side.write(self.gate, &[1])?;
        self.gate += self.frame.len() as u64;
        Ok(())
    }

    fn is_long(&self) -> bool {
        let length = self.sides[self.open].length;
        length > LONG_SIDE && length > 2 * self.first_length && self.generation < u64::MAX
    }

    /// Writes the other side with the next generation and shuts this one.
    fn compact(&mut self, text: &[u8]) -> io::Result<()> {
        let old = self.open;
        self.open = 1 - old;
        self.generation += 1;
        self.sides[self.open].fill(text)?;
        self.sides[old].write(0, &[0])?;
        self.sides[old].file.set_len(1)?;
        self.sides[old].length = 1;
        self.sides[old].file.sync_all()?;
        self.gate = text.len() as u64;
        self.first_length = self.sides[self.open].length;
        Ok(())
    }
}

// ---- Leases

/// A lease; the serial numbers tell the order in which leases were granted.
struct Lease {
    endpoint: Endpoint,
    external: u16,
    nonce: [u8; 12],
    granted: u64,
    expiry: u64,
    serial: u64,
}

/// A set of ports that finds its least one: a bit for each port, and a bit for each word that isn't
/// zero.
#[derive(Clone)]
struct PortSet {
    words: Vec<u64>,
    filled: [u64; 16],
}

impl PortSet {
    fn new(low: u16, high: u16) -> PortSet {
        let mut set = PortSet {
            words: vec![0; 1024],
            filled: [0; 16],
        };
        for port in low..=high {
            set.insert(port);
        }
        set
    }

    fn insert(&mut self, port: u16) {
        let word = port as usize / 64;
        self.words[word] |= 1 << (port % 64);
        self.filled[word / 64] |= 1 << (word % 64);
    }

    fn remove(&mut self, port: u16) {
        let word = port as usize / 64;
        self.words[word] &= !(1 << (port % 64));
        if self.words[word] == 0 {
            self.filled[word / 64] &= !(1 << (word % 64));
        }
    }

    fn first(&self) -> Option<u16> {
        let (i, group) = self
            .filled
            .iter()
            .enumerate()
            .find(|(_, group)| **group != 0)?;
        let word = i * 64 + group.trailing_zeros() as usize;
        Some((word * 64) as u16 + self.words[word].trailing_zeros() as u16)
    }
}

/// The external ports of one protocol.
#[derive(Clone)]
struct Ports {
    /// The lease that owns a port.
    owners: Vec<Option<u32>>,
    /// The ports in the range that no lease owns and that don't rest.
    vacant: PortSet,
    /// The ports that rest, with the endpoint that had them and the moment when that ended.
    ends: BTreeMap<u16, (Endpoint, u64)>,
}

struct Shard {
    external: External,
    base: u64,
    moment: u64,
    /// The moment of the last record.
    last: u64,
    leases: Vec<Option<Lease>>,
    unused: Vec<u32>,
    next_serial: u64,
    by_endpoint: HashMap<Endpoint, u32>,
    owned: HashMap<Address, u32>,
    expiries: BTreeSet<(u64, u32)>,
    ports: [Ports; 2],
    /// The ends in the order of their moments; one whose port was taken again is skipped.
    rests: VecDeque<(u64, u8, u16)>,
    journal: Journal,
}

impl Shard {
    fn begin(external: External, folder: &Path, index: usize, moment: u64) -> io::Result<Shard> {
        let mut journal = Journal::begin(folder, index, moment)?;
        journal.append(|out| record::renumber(out, moment, external.address))?;
        let vacant = PortSet::new(external.low, external.high);
        let tcp = Ports {
            owners: vec![None; 65536],
            vacant,
            ends: BTreeMap::new(),
        };
        let udp = tcp.clone();
        let shard = Shard {
            external,
            base: moment,
            moment,
            last: moment,
            leases: Vec::new(),
            unused: Vec::new(),
            next_serial: 0,
            by_endpoint: HashMap::new(),
            owned: HashMap::new(),
            expiries: BTreeSet::new(),
            ports: [tcp, udp],
            rests: VecDeque::new(),
            journal,
        };
        Ok(shard)
    }

    /// Begins a batch: compacts the journal where that is due, and raises the moment handed in to
    /// the last one.
    fn enter(&mut self, now: u64) -> io::Result<u64> {
        if self.journal.is_long() {
            let text = self.snapshot();
            self.journal.compact(&text)?;
        }
        self.moment = max(self.moment, now);
        Ok(self.moment)
    }

    /// Takes out the leases and the ends that are over at `m`.
    fn expire(&mut self, m: u64) {
        while let Some(&(expiry, id)) = self.expiries.first().filter(|(expiry, _)| *expiry <= m) {
            self.take_out(id, expiry);
        }
        while let Some(&(end, protocol, port)) =
            self.rests.front().filter(|(end, ..)| end + REST <= m)
        {
            self.rests.pop_front();
            let ports = &mut self.ports[(protocol == UDP) as usize];
            if ports
                .ends
                .get(&port)
                .is_some_and(|(_, moment)| *moment == end)
            {
                ports.ends.remove(&port);
                if (self.external.low..=self.external.high).contains(&port) {
                    ports.vacant.insert(port);
                }
            }
        }
    }

    fn take_out(&mut self, id: u32, end: u64) {
        let lease = self.leases[id as usize].take().unwrap();
        self.unused.push(id);
        self.expiries.remove(&(lease.expiry, id));
        self.by_endpoint.remove(&lease.endpoint);
        let owned = self.owned.get_mut(&lease.endpoint.address).unwrap();
        *owned -= 1;
        if *owned == 0 {
            self.owned.remove(&lease.endpoint.address);
        }
        let ports = &mut self.ports[(lease.endpoint.protocol == UDP) as usize];
        ports.owners[lease.external as usize] = None;
        ports.ends.insert(lease.external, (lease.endpoint, end));
        self.rests
            .push_back((end, lease.endpoint.protocol, lease.external));
    }

    fn put(&mut self, lease: Lease) {
        let id = self.unused.pop().unwrap_or(self.leases.len() as u32);
        if id as usize == self.leases.len() {
            self.leases.push(None);
        }
        self.expiries.insert((lease.expiry, id));
        self.by_endpoint.insert(lease.endpoint, id);
        *self.owned.entry(lease.endpoint.address).or_insert(0) += 1;
        let ports = &mut self.ports[(lease.endpoint.protocol == UDP) as usize];
        ports.owners[lease.external as usize] = Some(id);
        ports.ends.remove(&lease.external);
        ports.vacant.remove(lease.external);
        self.leases[id as usize] = Some(lease);
    }

    /// The port for a new lease: the suggested one where it is open to the endpoint, else the least
    /// vacant one.
    fn pick(&self, endpoint: &Endpoint, suggested: u16) -> Option<u16> {
        let ports = &self.ports[(endpoint.protocol == UDP) as usize];
        let open = suggested != 0
            && (self.external.low..=self.external.high).contains(&suggested)
            && ports.owners[suggested as usize].is_none()
            && ports
                .ends
                .get(&suggested)
                .is_none_or(|(had, _)| had == endpoint);
        if open {
            Some(suggested)
        } else {
            ports.vacant.first()
        }
    }

    /// Answers a MAP request, once the journal has the record of what it changes.
    fn serve_map(&mut self, config: &Config, ask: &MapAsk, m: u64) -> io::Result<Answer> {
        self.expire(m);
        let lifetime = ask.lifetime.clamp(config.lifetime_min, config.lifetime_max);
        match self.by_endpoint.get(&ask.endpoint) {
            Some(&id) => {
                let lease = self.leases[id as usize].as_ref().unwrap();
                if lease.nonce != ask.nonce {
                    let lifetime = (lease.expiry - m).min(u32::MAX as u64) as u32;
                    let code = Code::NotAuthorized;
                    return Ok(Answer::Refused { code, lifetime });
                }
                if ask.lifetime == 0 {
                    self.delete(id, &ask.endpoint, m)
                } else {
                    self.renew(id, lifetime, m)
                }
            }
            None if ask.lifetime == 0 => Ok(Answer::Gone { dropped: false }),
            None => match self.choose(config, ask) {
                Ok(external) => self.grant(ask, external, lifetime, m),
                Err(code) => Ok(refused(code)),
            },
        }
    }

    fn delete(&mut self, id: u32, endpoint: &Endpoint, m: u64) -> io::Result<Answer> {
        self.journal
            .append(|out| record::drop_map(out, m, endpoint))?;
        self.last = m;
        self.take_out(id, m);
        Ok(Answer::Gone { dropped: true })
    }

    fn renew(&mut self, id: u32, lifetime: u32, m: u64) -> io::Result<Answer> {
        let lease = self.leases[id as usize].as_mut().unwrap();
        let before = lease.expiry;
        lease.expiry = m + lifetime as u64;
        self.journal.append(|out| record::map(out, m, lease))?;
        self.last = m;
        self.expiries.remove(&(before, id));
        self.expiries.insert((lease.expiry, id));
        Ok(Answer::Mapped {
            lifetime,
            port: lease.external,
            renewed: true,
        })
    }

    /// The port for a lease that is asked for, or why there is none.
    fn choose(&self, config: &Config, ask: &MapAsk) -> Result<u16, Code> {
        let owned = self.owned.get(&ask.endpoint.address);
        if owned.is_some_and(|owned| *owned >= config.quota) {
            return Err(Code::UserExQuota);
        }
        match self.pick(&ask.endpoint, ask.suggested_port) {
            Some(external) if self.by_endpoint.len() < MOST_LEASES => Ok(external),
            _ => Err(Code::NoResources),
        }
    }

    fn grant(&mut self, ask: &MapAsk, port: u16, lifetime: u32, m: u64) -> io::Result<Answer> {
        let lease = Lease {
            endpoint: ask.endpoint,
            external: port,
            nonce: ask.nonce,
            granted: m,
            expiry: m + lifetime as u64,
            serial: self.next_serial,
        };
        self.journal.append(|out| record::map(out, m, &lease))?;
        self.last = m;
        self.next_serial += 1;
        self.put(lease);
        Ok(Answer::Mapped {
            lifetime,
            port,
            renewed: false,
        })
    }

    /// The text of a side that stands for the state after the last record.
    fn snapshot(&self) -> Vec<u8> {
        let mut text = SideText::new(self.journal.generation + 1);
        record::head(text.next(), record::START, self.base);
        record::renumber(text.next(), self.base, self.external.address);
        record::head(text.next(), record::MARK, self.last);
        for ports in &self.ports {
            for (external, (endpoint, end)) in &ports.ends {
                record::rest(text.next(), self.last, *external, endpoint, *end);
            }
        }
        let mut leases: Vec<&Lease> = self.leases.iter().flatten().collect();
        leases.sort_unstable_by_key(|lease| lease.serial);
        for lease in leases {
            record::map(text.next(), self.last, lease);
        }
        text.finish()
    }
}

// ---- The server and its load

struct Datagram {
    source: Address,
    octets: Vec<u8>,
}

/// The server: its shards, and the greatest of their bases.
struct House {
    config: Config,
    shards: Vec<Shard>,
    base: u64,
}

/// The shard whose disk failed.
struct DiskFault(usize);

impl House {
    fn begin(config: Config, folder: &Path, moment: u64) -> Result<House, DiskFault> {
        let mut shards = Vec::new();
        for (i, external) in config.externals.iter().enumerate() {
            shards.push(Shard::begin(*external, folder, i, moment).map_err(|_| DiskFault(i))?);
        }
        let base = shards
            .iter()
            .map(|shard| shard.base)
            .max()
            .unwrap_or(moment);
        Ok(House {
            config,
            shards,
            base,
        })
    }

    /// Answers a datagram; None where there is no reply.
    fn serve(
        &mut self,
        datagram: &Datagram,
        now: u64,
        reply: &mut Vec<u8>,
    ) -> Result<Option<Answer>, DiskFault> {
        let request = &datagram.octets;
        let verdict = judge(&self.config, datagram.source, request);
        let place = match verdict {
            Verdict::Silent => return Ok(None),
            Verdict::Refuse { .. } => self.config.place(datagram.source).unwrap_or(0),
            Verdict::Announce { place } | Verdict::Map { place, .. } => place,
        };
        let shard = &mut self.shards[place];
        let m = shard.enter(now).map_err(|_| DiskFault(place))?;
        let epoch = m.saturating_sub(self.base).min(u32::MAX as u64) as u32;
        let answer = match verdict {
            Verdict::Silent => return Ok(None),
            Verdict::Refuse { code, parsed } => {
                write_refusal(reply, request, code, code.lifetime(), parsed, epoch);
                refused(code)
            }
            Verdict::Announce { .. } => {
                reply.clear();
                reply.resize(HEADER, 0);
                write_head(reply, 0, Code::Success, 0, epoch);
                Answer::Announced
            }
            Verdict::Map { ask, .. } => {
                let answer = shard
                    .serve_map(&self.config, &ask, m)
                    .map_err(|_| DiskFault(place))?;
                match answer {
                    Answer::Mapped { lifetime, port, .. } => {
                        write_success(reply, &ask, lifetime, port, shard.external.address, epoch)
                    }
                    Answer::Refused { code, lifetime } => {
                        write_refusal(reply, request, code, lifetime, true, epoch)
                    }
                    _ => write_success(
                        reply,
                        &ask,
                        0,
                        ask.suggested_port,
                        ask.suggested_address,
                        epoch,
                    ),
                }
                answer
            }
        };
        Ok(Some(answer))
    }
}

/// Writes the next generated request into the datagram.
fn next_request(words: &mut ChaCha8, datagram: &mut Datagram) {
    let [w0, w1, w2] = [words.next_word(), words.next_word(), words.next_word()];
    let v4 = [10, 0, (w0 / 256 % 4) as u8, (w0 % 256) as u8];
    let port = (1024 + w1 % 512) as u16;
    let lifetime: u32 = [0, 120, 3600, 86400][(w2 % 4) as usize];
    datagram.source = Address::v4(v4[0], v4[1], v4[2], v4[3]);
    let octets = &mut datagram.octets;
    octets.clear();
    octets.resize(HEADER + MAP_DATA, 0);
    octets[0] = 2;
    octets[1] = 1;
    octets[4..8].copy_from_slice(&lifetime.to_be_bytes());
    octets[8..24].copy_from_slice(&datagram.source.octets());
    octets[24..28].copy_from_slice(&v4);
    octets[28..30].copy_from_slice(&port.to_be_bytes());
    octets[36] = if w1 / 512 % 2 == 0 { 17 } else { 6 };
    octets[40..42].copy_from_slice(&port.to_be_bytes());
}

fn load(folder: &Path, start: u64, number: u64, count: u64) -> Result<String, DiskFault> {
    let mut house = House::begin(Config::first(), folder, start)?;
    let mut words = ChaCha8::new(number);
    let mut datagram = Datagram {
        source: Address(0),
        octets: Vec::new(),
    };
    let mut reply = Vec::new();
    let mut digest = Sha256::new();
    let (mut granted, mut renewed, mut deleted, mut absent, mut refused) = (0, 0, 0, 0, 0);
    let mut moment = start;
    for i in 0..count {
        moment = (start + i / 100).min(MOMENTS - 1);
        next_request(&mut words, &mut datagram);
        match house.serve(&datagram, moment, &mut reply)? {
            None => continue,
            Some(Answer::Mapped { renewed: false, .. }) => granted += 1,
            Some(Answer::Mapped { renewed: true, .. }) => renewed += 1,
            Some(Answer::Gone { dropped: true }) => deleted += 1,
            Some(Answer::Gone { dropped: false }) => absent += 1,
            Some(Answer::Refused { .. }) => refused += 1,
            Some(Answer::Announced) => {}
        }
        digest.update(&reply);
    }
    let (mut leases, mut owned) = (0, 0);
    for shard in &mut house.shards {
        shard.expire(moment);
        leases += shard.by_endpoint.len();
        owned += shard.owned.values().sum::<u32>();
    }
    let digest: String = digest
        .finish()
        .iter()
        .map(|octet| format!("{octet:02x}"))
        .collect();
    Ok(format!(
        "requests {count}\ngranted {granted}\nrenewed {renewed}\ndeleted {deleted}\nabsent {absent}\n\
         refused {refused}\nleases {leases}\nowned {owned}\ndigest {digest}\n"
    ))
}

/// A decimal number without leading zeros, at most `most`.
fn read_number(word: &str, most: u64) -> Option<u64> {
    let plain = word.bytes().all(|octet| octet.is_ascii_digit())
        && (word.len() == 1 || !word.starts_with('0'));
    word.parse().ok().filter(|number| plain && *number <= most)
}

fn main() -> ExitCode {
    let words: Vec<String> = std::env::args().skip(1).collect();
    let numbers = match &words[..] {
        [config, folder, start, number, count] if !config.is_empty() && !folder.is_empty() => {
            read_number(start, MOMENTS - 1)
                .zip(read_number(number, u64::MAX))
                .zip(read_number(count, MOST_REQUESTS))
        }
        _ => None,
    };
    let Some(((start, number), count)) = numbers else {
        eprintln!("pcp: words refused");
        return ExitCode::from(2);
    };
    let (status, text) = match load(Path::new(&words[1]), start, number, count) {
        Ok(summary) if io::stdout().write_all(summary.as_bytes()).is_ok() => {
            return ExitCode::SUCCESS
        }
        Ok(_) => (6, "write failed".to_string()),
        Err(DiskFault(shard)) => (7, format!("disk of shard {shard} failed")),
    };
    eprintln!("pcp: {text}");
    ExitCode::from(status)
}
