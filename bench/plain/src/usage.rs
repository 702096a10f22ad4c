//! The usage list. Texts stay where they are in the file's own buffer.

use crate::cwr::SHORT;
use crate::rows::{Fault, Field, MOST, Rows, code};

#[derive(Clone, Copy)]
pub struct Line {
    /// Below 0 in a reversal.
    pub amount: i64,
    usage_at: u32,
    work_at: u32,
    pub territory: u16,
    usage_len: u8,
    work_len: u8,
    pub right: u8,
    /// Whether the usage text must be quoted when it is written.
    pub quote: bool,
}

/// The longest usage text.
pub const TEXT: usize = 64;

pub struct Usage {
    buf: Vec<u8>,
    pub lines: Vec<Line>,
}

/// 0: not printable; 1: printable; 3: printable and needs quoting.
static KIND: [u8; 256] = {
    let mut t = [0; 256];
    let mut b = 0x20;
    while b <= 0x7e {
        t[b] = 1;
        b += 1;
    }
    t[b',' as usize] = 3;
    t[b'"' as usize] = 3;
    t
};

/// The and and or of the kinds of all bytes.
#[inline]
fn kinds(t: &[u8]) -> (u8, u8) {
    t.iter().fold((3, 0), |(a, o), &b| (a & KIND[b as usize], o | KIND[b as usize]))
}

#[inline]
pub fn amount(field: &[u8]) -> Option<i64> {
    match field.strip_prefix(b"-") {
        Some(digits) => size(digits).map(|n| -n),
        None => size(field),
    }
}

#[inline]
fn size(digits: &[u8]) -> Option<i64> {
    if digits.is_empty() {
        return None;
    }
    let mut n = 0i64;
    for &b in digits {
        let d = b.wrapping_sub(b'0');
        if d > 9 {
            return None;
        }
        // Held below 10^14, so that long texts do not run over.
        n = (n * 10 + d as i64).min(10_000_000_000_000);
    }
    (n <= 1_000_000_000_000).then_some(n)
}

impl Usage {
    /// Of at most so many lines.
    pub fn read(mut buf: Vec<u8>, most: u64) -> Result<Usage, Fault> {
        let mut lines = Vec::with_capacity((buf.len() / 24).min(1_000_000));
        let mut rows = Rows::new(&mut buf);
        if !rows.header(&["usage", "work", "territory", "right", "amount"]) {
            return Err(Fault(1, Some(0)));
        }
        let mut f = [Field::default(); MOST];
        while let Some(count) = rows.next(&mut f) {
            let row = lines.len() as u64 + 1;
            let at = |n| Fault(n, Some(row));
            if row > most {
                return Err(Fault(6, None));
            }
            if count != 5 {
                return Err(at(1));
            }
            let (u, w) = (rows.get(f[0]), rows.get(f[1]));
            if !(1..=64).contains(&u.len()) || !(1..=64).contains(&w.len()) {
                return Err(at(2));
            }
            let ((ua, uo), (wa, _)) = (kinds(u), kinds(w));
            if ua & wa & 1 == 0 {
                return Err(at(2));
            }
            let territory = code(rows.get(f[2])).ok_or(at(3))?;
            let right = match rows.get(f[3]) {
                b"P" => 0,
                b"M" => 1,
                b"S" => 2,
                _ => return Err(at(4)),
            };
            let amount = amount(rows.get(f[4])).ok_or(at(5))?;
            lines.push(Line {
                amount,
                usage_at: f[0].start as u32,
                work_at: f[1].start as u32,
                territory,
                usage_len: u.len() as u8,
                work_len: w.len() as u8,
                right,
                quote: uo & 2 != 0,
            });
        }
        // Room for fixed-size loads behind the last field.
        buf.extend_from_slice(&[0; TEXT]);
        Ok(Usage { buf, lines })
    }

    /// The work as `cwr::key` makes it, 0 (no work's key) where it is longer
    /// than any work number.
    #[inline]
    pub fn work_key(&self, l: &Line) -> u128 {
        if l.work_len as usize > SHORT {
            return 0;
        }
        let word = self.buf[l.work_at as usize..].first_chunk().unwrap();
        u128::from_be_bytes(*word) & (u128::MAX << (128 - 8 * l.work_len as u32))
    }

    /// The work as it stands in the list.
    pub fn work(&self, l: &Line) -> &[u8] {
        &self.buf[l.work_at as usize..][..l.work_len as usize]
    }

    /// The usage text and what follows it, `TEXT` bytes in all.
    #[inline]
    pub fn padded(&self, l: &Line) -> &[u8; TEXT] {
        self.buf[l.usage_at as usize..].first_chunk().unwrap()
    }

    #[inline]
    pub fn usage_len(&self, l: &Line) -> usize {
        l.usage_len as usize
    }
}
