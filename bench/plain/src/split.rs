//! Claims and portions of one line.

use crate::cwr::{Registry, Share, UNKNOWN};
use crate::tis::{NONE, Tis};
use crate::usage::Usage;
use std::collections::HashMap;
use std::sync::atomic::{AtomicU8, Ordering::Relaxed};

pub const WORK: u8 = 0;
pub const LAND: u8 = 1;
pub const OVER: u8 = 2;
pub const OPEN: u8 = 3;
pub const REASONS: [&[u8]; 4] = [b"WORK", b"LAND", b"OVER", b"OPEN"];

/// A hint only, and nothing without the feature `prefetch`.
#[inline(always)]
pub fn prefetch<T>(p: *const T) {
    #[cfg(all(feature = "prefetch", target_arch = "x86_64"))]
    unsafe {
        use std::arch::x86_64::{_MM_HINT_T0, _mm_prefetch};
        _mm_prefetch::<_MM_HINT_T0>(p.cast())
    }
    #[cfg(not(all(feature = "prefetch", target_arch = "x86_64")))]
    let _ = p;
}

pub struct Input<'a> {
    pub tis: &'a Tis,
    pub registry: &'a Registry,
    pub usage: &'a Usage,
}

#[derive(Clone, Copy, Default)]
struct Entry {
    account: u16,
    claim: u32,
    remainder: u32,
    portion: u64,
}

pub struct Scratch {
    list: Vec<Entry>,
    order: Vec<u32>,
    kept: HashMap<(u32, u16, u8), Kept>,
}

/// The claims on a work in a territory for a right: each account's, and what they come to.
struct Kept {
    claims: Box<[(u16, u32)]>,
    sum: u32,
}

/// A work of more share lines than this, which is one of several registrations, has its claims kept.
const FEW: usize = 256;

/// What claims come to at most if any of them counts, in hundredths of a per cent.
const MOST_CLAIMED: u32 = 10_006;

impl Scratch {
    pub fn new() -> Self {
        Scratch {
            list: Vec::with_capacity(257),
            order: Vec::with_capacity(257),
            kept: HashMap::new(),
        }
    }

    /// Lists the claims of a work's share lines in a territory, given by the rows that contain it,
    /// for a right, by rising account. Answers what they come to, or the first of their sums that is
    /// more than the most.
    #[inline(always)]
    fn claims(&mut self, shares: &[Share], above: &[u64], right: u8) -> u32 {
        let mut sum = 0;
        let mut decided = false;
        for e in shares {
            if e.first {
                decided = false;
            }
            if !decided && above[e.tis as usize / 64] >> (e.tis % 64) & 1 == 1 {
                decided = true;
                let claim = e.share[right as usize] as u32;
                if claim != 0 {
                    sum += claim;
                    if sum > MOST_CLAIMED {
                        return sum;
                    }
                    match self.list.last_mut() {
                        Some(l) if l.account == e.account => l.claim += claim,
                        _ => self.list.push(Entry { account: e.account, claim, ..Entry::default() }),
                    }
                }
            }
        }
        sum
    }

    /// The same of a work of many share lines, where a line has the territory's row: they are gone
    /// over once, however many usage lines there are.
    #[cold]
    fn many_claims(&mut self, work: u32, shares: &[Share], tis: &Tis, row: u16, right: u8) -> u32 {
        if let Some(kept) = self.kept.get(&(work, row, right)) {
            let entry = |&(account, claim)| Entry { account, claim, ..Entry::default() };
            self.list.extend(kept.claims.iter().map(entry));
            return kept.sum;
        }
        let sum = self.claims(shares, tis.above(row), right);
        let counted = if sum > MOST_CLAIMED { &[] } else { &self.list[..] };
        let claims = counted.iter().map(|e| (e.account, e.claim)).collect();
        self.kept.insert((work, row, right), Kept { claims, sum });
        sum
    }

    /// The method of largest remainder over the size of an amount: each entry has its quota rounded
    /// down, and the units that are left go one each to the largest remainders. Of equal remainders
    /// the one that stands first in the list wins: the entries stand in order of account, and the
    /// residue's, which stands last, loses every tie.
    #[inline]
    fn split(&mut self, amount: u64, base: u64) {
        let mut left = amount;
        if base == 10_000 {
            for e in &mut self.list {
                let p = amount * e.claim as u64;
                e.portion = p / 10_000;
                e.remainder = (p % 10_000) as u32;
                left -= e.portion;
            }
        } else {
            for e in &mut self.list {
                let p = amount * e.claim as u64;
                e.portion = p / base;
                e.remainder = (p % base) as u32;
                left -= e.portion;
            }
        }
        if left == 0 {
            return;
        }
        if self.list.len() <= 16 {
            for _ in 0..left {
                let mut best = 0;
                for i in 1..self.list.len() {
                    // not `>=`: of equal remainders the first keeps its place
                    if self.list[i].remainder > self.list[best].remainder {
                        best = i;
                    }
                }
                // A remainder above 0 goes to an entry at most once.
                self.list[best].portion += 1;
                self.list[best].remainder = 0;
            }
        } else {
            self.order.clear();
            self.order.extend(0..self.list.len() as u32);
            let list = &self.list;
            // the largest remainder first, and of equal ones the one that stands first
            self.order.sort_unstable_by_key(|&i| (u32::MAX - list[i as usize].remainder, i));
            for &i in &self.order[..left as usize] {
                self.list[i as usize].portion += 1;
            }
        }
    }
}

/// A line's registration is looked up for a whole block at once, so that the
/// cache misses of the lookups overlap.
pub const BLOCK: usize = 64;

impl Input<'_> {
    /// The postings of block b as (account, line, amount).
    #[inline(always)]
    pub fn block(
        &self,
        b: usize,
        reasons: &[AtomicU8],
        s: &mut Scratch,
        mut put: impl FnMut(u16, u32, i64),
    ) {
        let start = b * BLOCK;
        let end = self.usage.lines.len().min(start + BLOCK);
        let mut works = [UNKNOWN; BLOCK];
        for (w, line) in works.iter_mut().zip(&self.usage.lines[start..end]) {
            *w = self.registry.works.of(self.usage, line);
        }
        let mut shares: [&[Share]; BLOCK] = [&[]; BLOCK];
        for (s, &w) in shares.iter_mut().zip(&works) {
            if w != UNKNOWN {
                *s = self.registry.shares(w);
                prefetch(s.as_ptr());
            }
        }
        for i in start..end {
            let work = works[i - start];
            let reason = self.line(i, work, shares[i - start], s, |a, amount| put(a, i as u32, amount));
            reasons[i].store(reason, Relaxed);
        }
    }

    /// The non-zero portions of line i, by rising account, the residue's last. Answers its reason.
    #[inline(always)]
    fn line(
        &self,
        i: usize,
        work: u32,
        shares: &[Share],
        s: &mut Scratch,
        mut put: impl FnMut(u16, i64),
    ) -> u8 {
        let line = &self.usage.lines[i];
        s.list.clear();
        let mut sum = 0;
        let reason = match work {
            UNKNOWN => WORK,
            _ => match self.tis.row(line.territory) {
                NONE => LAND,
                row => {
                    sum = if shares.len() <= FEW {
                        s.claims(shares, self.tis.above(row), line.right)
                    } else {
                        s.many_claims(work, shares, self.tis, row, line.right)
                    };
                    if sum > MOST_CLAIMED { OVER } else { OPEN }
                }
            },
        };
        if line.amount == 0 {
            return reason;
        }
        if reason != OPEN || sum == 0 {
            put(0, line.amount);
            return reason;
        }
        let base = sum.max(10_000);
        s.list.push(Entry { account: 0, claim: base - sum, ..Entry::default() });
        s.split(line.amount.unsigned_abs(), base as u64);
        let sign = line.amount.signum();
        for e in &s.list {
            if e.portion != 0 {
                put(e.account, sign * e.portion as i64);
            }
        }
        reason
    }
}
