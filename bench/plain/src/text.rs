//! The statement text, streamed in chunks.

use crate::book::Posting;
use crate::split::{Input, REASONS, prefetch};
use std::fs::File;
use std::io::{self, Write};
use std::sync::atomic::{AtomicU8, Ordering::Relaxed};
use std::time::{Duration, Instant};

const CHUNK: usize = 256 * 1024;
/// More than any row: a usage text of 64 bytes doubled, and two numbers.
const SPARE: usize = 1024;

struct Out {
    buf: Vec<u8>,
    at: usize,
    file: File,
    write: Duration,
}

static PAIRS: [u8; 200] = {
    let mut t = [0; 200];
    let mut i = 0;
    while i < 100 {
        t[2 * i] = b'0' + (i / 10) as u8;
        t[2 * i + 1] = b'0' + (i % 10) as u8;
        i += 1;
    }
    t
};

impl Out {
    fn flush(&mut self) -> io::Result<()> {
        let t = Instant::now();
        self.file.write_all(&self.buf[..self.at])?;
        self.write += t.elapsed();
        self.at = 0;
        Ok(())
    }

    #[inline]
    fn room(&mut self) -> io::Result<()> {
        if self.at > CHUNK { self.flush() } else { Ok(()) }
    }

    #[inline]
    fn put(&mut self, t: &[u8]) {
        self.buf[self.at..self.at + t.len()].copy_from_slice(t);
        self.at += t.len();
    }

    #[inline]
    fn byte(&mut self, b: u8) {
        self.buf[self.at] = b;
        self.at += 1;
    }

    #[inline]
    fn amount(&mut self, n: i64) {
        if n < 0 {
            self.byte(b'-');
        }
        self.number(n.unsigned_abs());
    }

    #[inline]
    fn number(&mut self, mut n: u64) {
        let mut t = [0u8; 40];
        let mut i = 20;
        while n >= 100 {
            let r = (n % 100) as usize * 2;
            n /= 100;
            i -= 2;
            t[i..i + 2].copy_from_slice(&PAIRS[r..r + 2]);
        }
        if n >= 10 {
            i -= 2;
            t[i..i + 2].copy_from_slice(&PAIRS[n as usize * 2..][..2]);
        } else {
            i -= 1;
            t[i] = b'0' + n as u8;
        }
        self.fixed::<20>(t[i..].first_chunk().unwrap(), 20 - i);
    }

    fn total(&mut self, n: i128) {
        match i64::try_from(n) {
            Ok(n) => self.amount(n),
            Err(_) => self.put(n.to_string().as_bytes()),
        }
    }

    /// `text` as a quoted field.
    fn quoted(&mut self, text: &[u8]) {
        self.byte(b'"');
        for &b in text {
            if b == b'"' {
                self.byte(b);
            }
            self.byte(b);
        }
        self.byte(b'"');
    }

    /// The first `len` of `t`, moved as one block of fixed size.
    #[inline]
    fn fixed<const N: usize>(&mut self, t: &[u8; N], len: usize) {
        self.buf[self.at..self.at + N].copy_from_slice(t);
        self.at += len;
    }

    /// Fetches ahead what the row of a posting will need: its line record,
    /// or, with that at hand, its usage text.
    #[inline]
    fn ahead(input: &Input, list: &[Posting], i: usize) {
        let lines = &input.usage.lines;
        if let Some(p) = list.get(i + 32) {
            prefetch(&lines[p.line as usize]);
        }
        if let Some(p) = list.get(i + 16) {
            let text = input.usage.padded(&lines[p.line as usize]);
            prefetch(text);
            prefetch(&text[15]);
        }
    }

    /// The prefix, the usage of the posting's line, its amount.
    #[inline]
    fn row(&mut self, prefix: &Prefix, input: &Input, p: &Posting) -> io::Result<()> {
        self.room()?;
        let line = &input.usage.lines[p.line as usize];
        let usage = input.usage.padded(line);
        let len = input.usage.usage_len(line);
        if prefix.1 <= 32 {
            self.fixed::<32>(prefix.0.first_chunk().unwrap(), prefix.1);
        } else {
            self.fixed(&prefix.0, prefix.1);
        }
        if line.quote {
            self.quoted(&usage[..len]);
        } else if len <= 16 {
            self.fixed::<16>(usage.first_chunk().unwrap(), len);
        } else {
            self.fixed(usage, len);
        }
        self.byte(b',');
        self.amount(p.amount);
        self.byte(b'\n');
        Ok(())
    }
}

/// What a row begins with, and its length; filled up for a fixed-size move.
struct Prefix([u8; LONGEST], usize);

/// A kind, a name of 64 quotes and the commas have no more bytes.
const LONGEST: usize = 160;

impl Prefix {
    fn new(t: &[u8]) -> Prefix {
        let mut p = Prefix([0; LONGEST], t.len());
        p.0[..t.len()].copy_from_slice(t);
        p
    }
}

/// What amounts come to; those of a million items do not go beyond 64 bits.
fn sum<T>(items: &[T], amount: impl Fn(&T) -> i64) -> i128 {
    items.chunks(1_000_000).map(|some| some.iter().map(&amount).sum::<i64>() as i128).sum()
}

/// Writes the text to `file`; answers the time that the writes took.
pub fn text(
    input: &Input,
    reasons: &[AtomicU8],
    book: &[Vec<Posting>],
    file: File,
) -> io::Result<Duration> {
    let mut out = Out { buf: vec![0; CHUNK + SPARE], at: 0, file, write: Duration::ZERO };
    let total = |list: &[Posting]| sum(list, |p| p.amount);
    for (list, party) in book.iter().zip(&input.registry.parties).skip(1) {
        if list.is_empty() {
            continue;
        }
        let mut prefix = b"L,".to_vec();
        if party.iter().any(|b| matches!(b, b',' | b'"')) {
            prefix.push(b'"');
            for &b in party {
                if b == b'"' {
                    prefix.push(b);
                }
                prefix.push(b);
            }
            prefix.push(b'"');
        } else {
            prefix.extend_from_slice(party);
        }
        prefix.push(b',');
        let rows = Prefix::new(&prefix);
        for (i, p) in list.iter().enumerate() {
            Out::ahead(input, list, i);
            out.row(&rows, input, p)?;
        }
        prefix[0] = b'S';
        out.put(&prefix);
        out.number(list.len() as u64);
        out.byte(b',');
        out.total(total(list));
        out.byte(b'\n');
    }
    let prefixes = REASONS.map(|r| Prefix::new(&[b"M,", r, b","].concat()));
    for (i, p) in book[0].iter().enumerate() {
        Out::ahead(input, &book[0], i);
        let reason = reasons[p.line as usize].load(Relaxed);
        out.row(&prefixes[reason as usize], input, p)?;
    }
    out.put(b"T,,");
    out.number(book[0].len() as u64);
    out.byte(b',');
    out.total(total(&book[0]));
    out.put(b"\nR,,");
    out.number(input.usage.lines.len() as u64);
    out.byte(b',');
    out.total(sum(&input.usage.lines, |l| l.amount));
    out.byte(b'\n');
    out.flush()?;
    Ok(out.write)
}
