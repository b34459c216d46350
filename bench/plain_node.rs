//! The row `answered` of `bench/embedded_parts/node.c` as a careful plain Rust program, to measure beside it: a request is entered and put on a link, and
//! its approval is taken and answers it. Like the node it checks what it reads, knows repeated requests, and keeps every input and
//! output: their bytes stand one behind the other in one buffer, so that no step asks for memory of its own.
use std::collections::HashMap;
use std::hash::{BuildHasherDefault, Hasher};
use std::time::Instant;

/// Where an element stands in a message's bytes.
#[derive(Clone, Copy, Default)]
struct Place {
    begin: u16,
    end: u16,
}

/// The elements of a message: its bit map, and where each stands.
struct Places {
    map: u64,
    at: [Place; 65],
}

/// The length of an element, or None where two digits say it, and whether it has digits alone.
fn form(number: usize) -> Option<(Option<usize>, bool)> {
    Some(match number {
        2 | 32 | 33 => (None, true),
        3 | 11 => (Some(6), true),
        4 => (Some(12), true),
        7 => (Some(10), true),
        15 => (Some(4), true),
        39 => (Some(2), false),
        49 => (Some(3), false),
        _ => return None,
    })
}

fn hex_digit(byte: u8) -> Option<u64> {
    match byte {
        b'0'..=b'9' => Some((byte - b'0') as u64),
        b'A'..=b'F' => Some((byte - b'A' + 10) as u64),
        b'a'..=b'f' => Some((byte - b'a' + 10) as u64),
        _ => None,
    }
}

/// Finds the elements of a message, or None where the bytes are none.
fn read(bytes: &[u8], places: &mut Places) -> Option<()> {
    let mut map = 0;
    for byte in bytes.get(4..20)? {
        map = map << 4 | hex_digit(*byte)?;
    }
    let mut at = 20;
    let mut left = map;
    while left != 0 {
        let number = left.leading_zeros() as usize + 1;
        left &= !(1 << (64 - number));
        let (fixed, digits) = form(number)?;
        let len = match fixed {
            Some(len) => len,
            None => {
                let (a, b) = (*bytes.get(at)?, *bytes.get(at + 1)?);
                if !a.is_ascii_digit() || !b.is_ascii_digit() {
                    return None;
                }
                at += 2;
                ((a - b'0') * 10 + (b - b'0')) as usize
            }
        };
        let value = bytes.get(at..at + len)?;
        let fits = if digits { value.iter().all(|b| b.is_ascii_digit()) } else { value.iter().all(|b| (0x20..0x7F).contains(b)) };
        if !fits {
            return None;
        }
        places.at[number] = Place { begin: at as u16, end: (at + len) as u16 };
        at += len;
    }
    places.map = map;
    (at == bytes.len()).then_some(())
}

impl Places {
    fn get<'a>(&self, bytes: &'a [u8], number: usize) -> Option<&'a [u8]> {
        if self.map >> (64 - number) & 1 == 0 {
            return None;
        }
        let place = self.at[number];
        Some(&bytes[place.begin as usize..place.end as usize])
    }

    fn key(&self, bytes: &[u8]) -> Option<Key> {
        let acquirer = self.get(bytes, 32)?;
        let mut key = [b'0'; 27];
        key[11 - acquirer.len()..11].copy_from_slice(acquirer);
        key[11..17].copy_from_slice(self.get(bytes, 11)?);
        key[17..].copy_from_slice(self.get(bytes, 7)?);
        Some(key)
    }

    /// Writes a message of a type with these of its elements, and one that may be new, and returns where it stands.
    fn write(&self, bytes: &[u8], kind: &[u8; 4], carried: u64, number: usize, value: &[u8], out: &mut Vec<u8>) -> Span {
        let map = self.map & carried | 1 << (64 - number);
        let begin = out.len();
        out.extend_from_slice(kind);
        for i in 0..16 {
            out.push(b"0123456789ABCDEF"[(map >> (60 - 4 * i) & 15) as usize]);
        }
        let mut left = map;
        while left != 0 {
            let n = left.leading_zeros() as usize + 1;
            left &= !(1 << (64 - n));
            let piece = if n == number { value } else { self.get(bytes, n).unwrap_or(&[]) };
            if matches!(n, 2 | 32 | 33) {
                out.extend_from_slice(&[b'0' + piece.len() as u8 / 10, b'0' + piece.len() as u8 % 10]);
            }
            out.extend_from_slice(piece);
        }
        Span { begin, len: (out.len() - begin) as u32 }
    }
}

/// The bit map of these elements.
fn map_of(numbers: &[u32]) -> u64 {
    numbers.iter().fold(0, |map, n| map | 1 << (64 - n))
}

type Key = [u8; 27];

/// A fast hash with a fixed seed.
#[derive(Default)]
struct Fast(u64);

impl Hasher for Fast {
    fn finish(&self) -> u64 {
        self.0
    }

    fn write(&mut self, bytes: &[u8]) {
        for part in bytes.chunks(8) {
            let mut word = [0; 8];
            word[..part.len()].copy_from_slice(part);
            self.0 = (self.0.rotate_left(5) ^ u64::from_le_bytes(word)).wrapping_mul(0x517c_c1b7_2722_0a95);
        }
    }
}

/// Where a message stands in the buffer.
#[derive(Clone, Copy)]
struct Span {
    begin: usize,
    len: u32,
}

struct Request {
    message: Span,
    answer: Option<Span>,
}

#[allow(dead_code)]
enum Output {
    Put(u64, Span),
    Answer(Span),
    None,
}

#[allow(dead_code)]
struct Entry {
    input: Span,
    output: Output,
}

struct Node {
    bytes: Vec<u8>,
    history: Vec<Entry>,
    requests: Vec<Request>,
    keys: HashMap<Key, u32, BuildHasherDefault<Fast>>,
    pending: usize,
    serial: u64,
    places: Places,
    /// The elements of the request that is answered, and its bytes.
    again: Places,
    scratch: Vec<u8>,
    /// The elements that a forwarded request has, and those that an answer may have.
    forwarded: u64,
    answered: u64,
}

fn is_good_card(card: &[u8]) -> bool {
    let mut sum = 0u32;
    for (i, b) in card.iter().rev().enumerate() {
        let d = (b - b'0') as u32;
        sum += if i % 2 == 0 { d } else if d > 4 { 2 * d - 9 } else { 2 * d };
    }
    (8..=19).contains(&card.len()) && sum % 10 == 0
}

impl Node {
    fn keep(&mut self, bytes: &[u8]) -> Span {
        let begin = self.bytes.len();
        self.bytes.extend_from_slice(bytes);
        Span { begin, len: bytes.len() as u32 }
    }

    fn enter(&mut self, bytes: &[u8]) -> Option<()> {
        read(bytes, &mut self.places)?;
        let needed = self.forwarded & !map_of(&[15]);
        if &bytes[..4] != b"0100" || self.places.map & needed != needed || self.places.get(bytes, 32)? != b"400001" {
            return None;
        }
        let key = self.places.key(bytes)?;
        let input = self.keep(bytes);
        let output = match self.keys.get(&key) {
            Some(place) => match self.requests[*place as usize].answer {
                Some(answer) => Output::Answer(answer),
                None => Output::None,
            },
            None => self.open(key, bytes)?,
        };
        self.history.push(Entry { input, output });
        Some(())
    }

    fn open(&mut self, key: Key, bytes: &[u8]) -> Option<Output> {
        let card = self.places.get(bytes, 2)?;
        if !is_good_card(card) || card[0] != b'4' || self.pending >= 32_768 {
            return None;
        }
        let sent = self.places.write(bytes, b"0100", self.forwarded, 15, b"0314", &mut self.bytes);
        self.keys.insert(key, self.requests.len() as u32);
        self.requests.push(Request { message: sent, answer: None });
        self.pending += 1;
        self.serial += 1;
        Some(Output::Put(self.serial, sent))
    }

    fn take(&mut self, bytes: &[u8]) -> Option<()> {
        read(bytes, &mut self.places)?;
        let code = self.places.get(bytes, 39)?;
        let place = *self.keys.get(&self.places.key(bytes)?)? as usize;
        let input = self.keep(bytes);
        let mut output = Output::None;
        if &bytes[..4] == b"0110" && self.requests[place].answer.is_none() {
            let span = self.requests[place].message;
            self.scratch.clear();
            self.scratch.extend_from_slice(&self.bytes[span.begin..span.begin + span.len as usize]);
            read(&self.scratch, &mut self.again)?;
            let answer = self.again.write(&self.scratch, b"0110", self.answered, 39, code, &mut self.bytes);
            self.requests[place].answer = Some(answer);
            self.pending -= 1;
            output = Output::Answer(answer);
        }
        self.history.push(Entry { input, output });
        Some(())
    }
}

fn write_number(out: &mut [u8], mut number: u32) {
    for digit in out.iter_mut().rev() {
        *digit = b'0' + (number % 10) as u8;
        number /= 10;
    }
}

fn main() {
    let count: u32 = std::env::args().nth(1).and_then(|n| n.parse().ok()).unwrap_or(1_000);
    let card = "4111111111111111000000000000001000";
    let none = || Places { map: 0, at: [Place::default(); 65] };
    let mut node = Node {
        bytes: vec![],
        history: vec![],
        requests: vec![],
        keys: HashMap::default(),
        pending: 0,
        serial: 0,
        places: none(),
        again: none(),
        scratch: vec![],
        forwarded: map_of(&[2, 3, 4, 7, 11, 15, 32, 49]),
        answered: map_of(&[2, 3, 4, 7, 11, 15, 32, 33, 49]),
    };
    let mut request = format!("0100722000010000800016{card}0314091530{:06}06400001840", 0).into_bytes();
    let mut approval = format!("0110722200010200800016{card}0314091530{:06}03140640000100840", 0).into_bytes();
    let start = Instant::now();
    for i in 0..count {
        write_number(&mut request[66..72], i);
        write_number(&mut approval[66..72], i);
        node.enter(&request).expect("entered");
        node.take(&approval).expect("taken");
    }
    let micros = start.elapsed().as_micros().max(1);
    let answers = node.requests.iter().filter(|r| r.answer.is_some()).count();
    let steps = node.history.len() as u128;
    println!("answered: {steps} steps, {} puts, {answers} answers", node.serial);
    eprintln!("answered: {micros} us, {} steps a second", steps * 1_000_000 / micros);
}
