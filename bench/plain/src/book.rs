//! The postings of each account, gathered on one thread or on several.

use crate::linked::{self, Backoff, Receiver, Table, Took};
use crate::pool::{self, Pool};
use crate::signals::{ReaderSignals, Signals, Turn};
use crate::split::{BLOCK, Input, Scratch};
use std::mem::{replace, take};
use std::sync::OnceLock;
use std::sync::atomic::{AtomicU8, AtomicUsize, Ordering::Relaxed};
use std::sync::mpsc;
use std::thread;

#[derive(Clone, Copy)]
pub struct Posting {
    pub line: u32,
    pub amount: i64,
}

pub type Book = Vec<Vec<Posting>>;

/// How the book is filled.
#[derive(Clone, Copy)]
pub enum Mode {
    /// On one thread.
    One,
    /// Workers with a book each; these are merged at the end, with no queue between threads.
    Threads,
    /// Workers and readers, with a channel of the standard library for each reader and a message for each posting.
    Channels,
    /// The same with up to `BATCH` postings in a message.
    Batches,
    /// Workers and readers, with a linked queue for each account.
    Linked,
    /// The same with one table of nodes for all queues.
    Pool,
    /// The same again, and rings in which workers name to readers the accounts that got something.
    Rings,
    /// The same, and threads that wait sleep until they are woken.
    Parked,
}

impl Mode {
    pub fn of(word: &str) -> Option<Mode> {
        Some(match word {
            "one" => Mode::One,
            "threads" => Mode::Threads,
            "channels" => Mode::Channels,
            "batches" => Mode::Batches,
            "linked" => Mode::Linked,
            "pool" => Mode::Pool,
            "rings" => Mode::Rings,
            "parked" => Mode::Parked,
            _ => return None,
        })
    }
}

pub struct Plan {
    pub workers: usize,
    pub readers: usize,
    pub nodes: usize,
}

const BATCH: usize = 512;

/// What a worker posts to all accounts by.
trait Post {
    fn try_send(&mut self, account: usize, line: u64, amount: i64) -> bool;

    fn end(&mut self, account: usize);
}

impl Post for Vec<linked::Sender<'_>> {
    fn try_send(&mut self, account: usize, line: u64, amount: i64) -> bool {
        self[account].try_send(line, amount)
    }

    fn end(&mut self, account: usize) {
        self[account].end();
    }
}

impl Post for pool::Sender<'_> {
    fn try_send(&mut self, account: usize, line: u64, amount: i64) -> bool {
        pool::Sender::try_send(self, account, line, amount)
    }

    fn end(&mut self, account: usize) {
        pool::Sender::end(self, account);
    }
}

/// The usage lines, of which workers draw blocks, and the reason of each line.
pub struct Job<'a> {
    pub input: &'a Input<'a>,
    pub reasons: &'a [AtomicU8],
}

impl Job<'_> {
    pub fn fill(&self, mode: Mode, plan: &Plan) -> Book {
        match mode {
            Mode::One => self.part(&AtomicUsize::new(0)),
            Mode::Threads => self.threads(plan),
            Mode::Channels => self.channels(plan),
            Mode::Batches => self.batches(plan),
            Mode::Linked => self.linked(plan),
            Mode::Pool => self.pool(plan, None),
            Mode::Rings => self.pool(plan, Some(&Signals::open(plan.workers, plan.readers, plan.nodes, false))),
            Mode::Parked => self.pool(plan, Some(&Signals::open(plan.workers, plan.readers, plan.nodes, true))),
        }
    }

    fn accounts(&self) -> usize {
        self.input.registry.accounts()
    }

    /// Draws blocks until there is none left, and works each of their lines.
    #[inline(always)]
    fn work(&self, drawn: &AtomicUsize, mut put: impl FnMut(u16, Posting)) {
        let mut scratch = Scratch::new();
        loop {
            let block = drawn.fetch_add(1, Relaxed);
            if block >= self.reasons.len().div_ceil(BLOCK) {
                return;
            }
            self.input.block(block, self.reasons, &mut scratch, |account, line, amount| {
                put(account, Posting { line, amount });
            });
        }
    }

    fn part(&self, drawn: &AtomicUsize) -> Book {
        let mut book: Book = vec![Vec::new(); self.accounts()];
        self.work(drawn, |account, p| book[account as usize].push(p));
        book
    }

    fn threads(&self, plan: &Plan) -> Book {
        let drawn = AtomicUsize::new(0);
        let parts: Vec<Book> = thread::scope(|s| {
            let workers: Vec<_> =
                (0..plan.workers).map(|_| s.spawn(|| self.part(&drawn))).collect();
            workers.into_iter().map(|w| w.join().unwrap()).collect()
        });
        let book: Vec<OnceLock<Vec<Posting>>> =
            (0..self.accounts()).map(|_| OnceLock::new()).collect();
        let merged = AtomicUsize::new(0);
        thread::scope(|s| {
            for _ in 0..plan.workers {
                s.spawn(|| {
                    loop {
                        let account = merged.fetch_add(1, Relaxed);
                        if account >= book.len() {
                            return;
                        }
                        let mut list: Vec<Posting> =
                            parts.iter().flat_map(|part| &part[account]).copied().collect();
                        list.sort_by_key(|p| p.line);
                        let _ = book[account].set(list);
                    }
                });
            }
        });
        book.into_iter().map(|list| list.into_inner().unwrap()).collect()
    }

    fn channels(&self, plan: &Plan) -> Book {
        let drawn = &AtomicUsize::new(0);
        thread::scope(|s| {
            let (mut senders, mut readers) = (Vec::new(), Vec::new());
            for _ in 0..plan.readers {
                let (sender, receiver) = mpsc::channel::<(u16, Posting)>();
                senders.push(sender);
                readers.push(s.spawn(|| {
                    let mut book: Book = vec![Vec::new(); self.accounts()];
                    for (account, p) in receiver {
                        book[account as usize].push(p);
                    }
                    in_order(book)
                }));
            }
            for _ in 0..plan.workers {
                let senders = senders.clone();
                s.spawn(move || {
                    self.work(drawn, |account, p| {
                        senders[account as usize % senders.len()].send((account, p)).unwrap();
                    });
                });
            }
            drop(senders);
            joined(readers.into_iter().map(|r| r.join().unwrap()).collect())
        })
    }

    fn batches(&self, plan: &Plan) -> Book {
        let drawn = &AtomicUsize::new(0);
        thread::scope(|s| {
            let (mut senders, mut readers) = (Vec::new(), Vec::new());
            for _ in 0..plan.readers {
                let (sender, receiver) = mpsc::channel::<Vec<(u16, Posting)>>();
                senders.push(sender);
                readers.push(s.spawn(|| {
                    let mut book: Book = vec![Vec::new(); self.accounts()];
                    for (account, p) in receiver.into_iter().flatten() {
                        book[account as usize].push(p);
                    }
                    in_order(book)
                }));
            }
            for _ in 0..plan.workers {
                let senders = senders.clone();
                s.spawn(move || {
                    let mut open: Vec<_> =
                        senders.iter().map(|_| Vec::with_capacity(BATCH)).collect();
                    self.work(drawn, |account, p| {
                        let reader = account as usize % senders.len();
                        open[reader].push((account, p));
                        if open[reader].len() == BATCH {
                            let full = replace(&mut open[reader], Vec::with_capacity(BATCH));
                            senders[reader].send(full).unwrap();
                        }
                    });
                    for (rest, sender) in open.into_iter().zip(senders) {
                        sender.send(rest).unwrap();
                    }
                });
            }
            drop(senders);
            joined(readers.into_iter().map(|r| r.join().unwrap()).collect())
        })
    }

    fn linked(&self, plan: &Plan) -> Book {
        let table = &Table::open(self.accounts(), plan.workers, plan.nodes);
        let senders = |worker| -> Vec<_> { (0..self.accounts()).map(|a| table.sender(a, worker)).collect() };
        self.queues(plan, |a| table.receiver(a), senders, None)
    }

    fn pool(&self, plan: &Plan, signals: Option<&Signals>) -> Book {
        let pool = &Pool::open(self.accounts(), plan.workers, plan.nodes);
        self.queues(plan, |a| pool.receiver(a), |worker| pool.sender(worker), signals)
    }

    fn queues<'q, S: Post>(
        &self,
        plan: &Plan,
        receiver: impl Fn(usize) -> Receiver<'q> + Sync,
        sender: impl Fn(usize) -> S + Sync,
        signals: Option<&Signals>,
    ) -> Book {
        let drawn = &AtomicUsize::new(0);
        let (receiver, sender) = (&receiver, &sender);
        let (workers, readers) = (plan.workers, plan.readers);
        thread::scope(|s| {
            let list: Vec<_> = (0..readers)
                .map(|r| {
                    s.spawn(move || {
                        let own = (0..self.accounts()).skip(r).step_by(readers);
                        let own = own.map(|a| (a, receiver(a))).collect();
                        Serving::new(self.accounts(), own, plan).serve(signals.map(|signals| signals.reader(r)))
                    })
                })
                .collect();
            for worker in 0..workers {
                s.spawn(move || {
                    let mut sender = sender(worker);
                    let mut signals = signals.map(|signals| signals.worker(worker));
                    self.work(drawn, |account, p| {
                        let mut turn = Turn::new();
                        while !sender.try_send(account as usize, p.line as u64, p.amount) {
                            match &mut signals {
                                None => turn.wait(),
                                Some(signals) => signals.wait(&mut turn),
                            }
                        }
                        if let Some(signals) = &mut signals {
                            signals.tell(account as usize, &turn);
                        }
                    });
                    for account in 0..self.accounts() {
                        sender.end(account);
                    }
                    if let Some(signals) = &mut signals {
                        signals.end();
                    }
                });
            }
            joined(list.into_iter().map(|r| r.join().unwrap()).collect())
        })
    }
}

/// A reader at work: its mailboxes, what it took, and how many end marks are to come.
struct Serving<'q> {
    own: Vec<(usize, Receiver<'q>)>,
    readers: usize,
    book: Book,
    ends: usize,
}

impl<'q> Serving<'q> {
    fn new(accounts: usize, own: Vec<(usize, Receiver<'q>)>, plan: &Plan) -> Serving<'q> {
        let ends = own.len() * plan.workers;
        Serving { own, readers: plan.readers, book: vec![Vec::new(); accounts], ends }
    }

    /// Takes from a mailbox until it gives nothing. Whether it gave anything.
    #[inline]
    fn take_from(&mut self, place: usize) -> bool {
        let (account, receiver) = &mut self.own[place];
        let mut took = false;
        while let Took::Held(node) = receiver.take() {
            took = true;
            match receiver.read(node) {
                Some((line, amount)) => {
                    self.book[*account].push(Posting { line: line as u32, amount })
                }
                None => self.ends -= 1,
            }
            receiver.give_back(node);
        }
        took
    }

    /// Takes from each mailbox in turn. Whether any gave anything.
    fn take_from_all(&mut self) -> bool {
        let mut took = false;
        for place in 0..self.own.len() {
            took |= self.take_from(place);
        }
        took
    }

    /// Takes from each mailbox in turn, or where there are signals from those that workers name, up to the last end mark.
    fn serve(self, signals: Option<ReaderSignals>) -> Book {
        match signals {
            None => self.serve_in_turn(),
            Some(signals) => self.serve_named(signals),
        }
    }

    fn serve_in_turn(mut self) -> Book {
        let mut turn = Backoff::new();
        while self.ends > 0 {
            if self.take_from_all() { turn.reset() } else { turn.wait() }
        }
        in_order(self.book)
    }

    fn serve_named(mut self, mut signals: ReaderSignals) -> Book {
        while self.ends > 0 {
            let is_everywhere = signals.must_look_everywhere();
            let mut took = false;
            signals.answer(|account| took |= self.take_from(account / self.readers));
            if is_everywhere {
                took |= self.take_from_all();
            }
            if took { signals.stop_waiting() } else { signals.wait() }
        }
        in_order(self.book)
    }
}

/// Each list in order of line.
fn in_order(mut book: Book) -> Book {
    for list in &mut book {
        list.sort_by_key(|p| p.line);
    }
    book
}

/// The readers' lists, of which each account has those of one reader.
fn joined(mut parts: Vec<Book>) -> Book {
    let readers = parts.len();
    (0..parts[0].len()).map(|account| take(&mut parts[account % readers][account])).collect()
}
