//! The job of `card_switch decode` as a plain Rust program, to measure beside it.
use std::io::{self, Read, Write};

#[derive(Clone, Copy, PartialEq)]
enum Class {
    Digits,
    Text,
}

#[derive(Clone, Copy)]
enum Form {
    None,
    Fixed(Class, usize),
    Ll(Class, usize),
    Lll(Class, usize),
    Binary,
}

use Class::*;
use Form::*;

const fn forms() -> [Form; 129] {
    let mut f = [None; 129];
    f[2] = Ll(Digits, 19);
    f[3] = Fixed(Digits, 6);
    let rows: [(usize, usize, Form); 30] = [
        (4, 6, Fixed(Digits, 12)), (7, 7, Fixed(Digits, 10)), (8, 10, Fixed(Digits, 8)), (11, 12, Fixed(Digits, 6)),
        (13, 18, Fixed(Digits, 4)), (19, 24, Fixed(Digits, 3)), (25, 26, Fixed(Digits, 2)), (27, 27, Fixed(Digits, 1)),
        (28, 31, Fixed(Text, 9)), (32, 33, Ll(Digits, 11)), (34, 34, Ll(Text, 28)), (35, 35, Ll(Text, 37)),
        (36, 36, Lll(Text, 104)), (37, 37, Fixed(Text, 12)), (38, 38, Fixed(Text, 6)), (39, 39, Fixed(Text, 2)),
        (40, 40, Fixed(Text, 3)), (41, 41, Fixed(Text, 8)), (42, 42, Fixed(Text, 15)), (43, 43, Fixed(Text, 40)),
        (44, 44, Ll(Text, 25)), (45, 45, Ll(Text, 76)), (46, 48, Lll(Text, 999)), (49, 51, Fixed(Text, 3)),
        (53, 53, Fixed(Digits, 16)), (54, 54, Lll(Text, 120)), (55, 63, Lll(Text, 999)), (70, 70, Fixed(Digits, 3)),
        (90, 90, Fixed(Digits, 42)), (95, 95, Fixed(Text, 42)),
    ];
    let mut i = 0;
    while i < rows.len() {
        let mut n = rows[i].0;
        while n <= rows[i].1 {
            f[n] = rows[i].2;
            n += 1;
        }
        i += 1;
    }
    f[52] = Binary;
    f[64] = Binary;
    f[128] = Binary;
    f[100] = Ll(Digits, 11);
    f[102] = Ll(Text, 28);
    f[103] = Ll(Text, 28);
    f
}

static FORMS: [Form; 129] = forms();

const TYPES: [&[u8]; 12] = [
    b"0100", b"0101", b"0110", b"0120", b"0121", b"0130", b"0400", b"0401", b"0410", b"0420", b"0421", b"0430",
];

enum Fault {
    Short,
    Type,
    BitMap,
    Element(u32),
    Length(u32),
    Character(u32),
    Trailing,
}

fn hex(b: u8) -> Option<u64> {
    (b as char).to_digit(16).map(u64::from)
}

fn map(bytes: &[u8]) -> Result<u64, Fault> {
    let mut n = 0u64;
    for b in bytes {
        n = n << 4 | hex(*b).ok_or(Fault::BitMap)?;
    }
    Ok(n)
}

fn are(class: Class, bytes: &[u8]) -> bool {
    match class {
        Digits => bytes.iter().all(u8::is_ascii_digit),
        Text => bytes.iter().all(|b| (0x20..=0x7e).contains(b)),
    }
}

fn take<'a>(rest: &mut &'a [u8], n: usize) -> Result<&'a [u8], Fault> {
    if rest.len() < n {
        return Err(Fault::Short);
    }
    let (front, back) = rest.split_at(n);
    *rest = back;
    Ok(front)
}

fn decode<'a>(bytes: &'a [u8], out: &mut Vec<(u8, &'a [u8])>) -> Result<&'a [u8], Fault> {
    out.clear();
    let mut rest = bytes;
    let kind = take(&mut rest, 4)?;
    if !TYPES.contains(&kind) {
        return Err(Fault::Type);
    }
    let first = map(take(&mut rest, 16)?)?;
    let second = if first >> 63 == 1 { map(take(&mut rest, 16)?)? } else { 0 };
    let mut bits = (first as u128) << 64 | second as u128;
    bits &= !(1u128 << 127);
    while bits != 0 {
        let n = bits.leading_zeros() + 1;
        bits &= !(1u128 << (128 - n));
        let (class, size, digits, most) = match FORMS[n as usize] {
            None => return Err(Fault::Element(n)),
            Fixed(class, size) => (class, size, 0, size),
            Ll(class, most) => (class, 0, 2, most),
            Lll(class, most) => (class, 0, 3, most),
            Binary => {
                let text = take(&mut rest, 16)?;
                if !text.iter().all(u8::is_ascii_hexdigit) {
                    return Err(Fault::Character(n));
                }
                out.push((n as u8, text));
                continue;
            }
        };
        let mut size = size;
        if digits > 0 {
            let text = take(&mut rest, digits)?;
            if !are(Digits, text) {
                return Err(Fault::Length(n));
            }
            size = text.iter().fold(0, |s, b| s * 10 + (b - b'0') as usize);
            if size > most {
                return Err(Fault::Length(n));
            }
        }
        let value = take(&mut rest, size)?;
        if !are(class, value) {
            return Err(Fault::Character(n));
        }
        out.push((n as u8, value));
    }
    if !rest.is_empty() {
        return Err(Fault::Trailing);
    }
    Ok(kind)
}

fn number(out: &mut Vec<u8>, mut n: u64) {
    let mut digits = [0u8; 20];
    let mut at = 20;
    loop {
        at -= 1;
        digits[at] = b'0' + (n % 10) as u8;
        n /= 10;
        if n == 0 {
            break;
        }
    }
    out.extend_from_slice(&digits[at..]);
}

fn main() -> io::Result<()> {
    let mut input = Vec::new();
    io::stdin().lock().read_to_end(&mut input)?;
    let mut stdout = io::stdout().lock();
    let mut out: Vec<u8> = Vec::with_capacity(1 << 17);
    let mut elements = Vec::new();
    let mut rest: &[u8] = &input;
    let mut count = 0u64;
    while !rest.is_empty() {
        let end = rest.iter().position(|b| *b == b'\n');
        let (mut line, later) = match end {
            Some(i) => (&rest[..i], &rest[i + 1..]),
            Option::None => (rest, &rest[rest.len()..]),
        };
        if end.is_some() && line.last() == Some(&b'\r') {
            line = &line[..line.len() - 1];
        }
        rest = later;
        count += 1;
        out.extend_from_slice(b"message ");
        number(&mut out, count);
        out.push(b'\n');
        match decode(line, &mut elements) {
            Ok(kind) => {
                out.extend_from_slice(b"type ");
                out.extend_from_slice(kind);
                out.push(b'\n');
                for (n, value) in &elements {
                    number(&mut out, *n as u64);
                    out.push(b' ');
                    let at = out.len();
                    out.extend_from_slice(value);
                    if let Binary = FORMS[*n as usize] {
                        out[at..].make_ascii_uppercase();
                    }
                    out.push(b'\n');
                }
            }
            Err(fault) => {
                out.extend_from_slice(b"fault message ");
                match fault {
                    Fault::Short => out.extend_from_slice(b"1 short"),
                    Fault::Type => out.extend_from_slice(b"2 type"),
                    Fault::BitMap => out.extend_from_slice(b"3 bit map"),
                    Fault::Element(n) => { out.extend_from_slice(b"4 element "); number(&mut out, n as u64) }
                    Fault::Length(n) => { out.extend_from_slice(b"5 length "); number(&mut out, n as u64) }
                    Fault::Character(n) => { out.extend_from_slice(b"6 character "); number(&mut out, n as u64) }
                    Fault::Trailing => out.extend_from_slice(b"7 trailing"),
                }
                out.push(b'\n');
            }
        }
        if out.len() >= 1 << 16 {
            stdout.write_all(&out)?;
            out.clear();
        }
    }
    stdout.write_all(&out)
}
