//! What the threads of a pool tell each other: a worker tells the reader of a mailbox that something came into it, and a
//! thread that waits may sleep until another has made what it waits for. All of it is a hint. One that is lost costs time
//! alone, since a reader looks into all its mailboxes now and then, and a thread that sleeps wakes by itself. Every step is
//! sequentially consistent. Nothing here is proved.

use crate::linked::Backoff;
use std::sync::OnceLock;
use std::sync::atomic::{AtomicU64, AtomicUsize, Ordering::SeqCst};
use std::thread::{self, Thread};
use std::time::Duration;

/// How many words a ring has, how many hints a word has at most, and how many bits a hint and the tag of a word have.
const WORDS: u64 = 64;
const HINTS: u32 = 3;
const BITS: u32 = 16;

/// After so many words a worker wakes a reader that sleeps.
const WORDS_UNTIL_WAKING: u64 = 8;

/// How often a thread looks again at once before it sleeps, and after how many looks its pauses begin anew with the shortest.
const SPINS: u32 = 64;
const SPINS_OF_ROUND: u32 = 4;

/// How long a thread sleeps at most.
const LONGEST: Duration = Duration::from_millis(2);

/// After so many looks in vain a reader that does not sleep looks into all its mailboxes.
const LOOKS_IN_VAIN: u32 = 1024;

/// What a reader waits for: something from any worker.
const ANY: usize = 0;

/// The word of a thread that is awake.
const AWAKE: usize = 0;

/// A ring of words, which one worker writes and one reader reads. A word has up to three hints, each one more than the number
/// of an account, and a tag that says in which round it was written. The worker writes over what was not read, and the reader
/// sees that by the tag.
#[repr(align(64))]
struct Ring([AtomicU64; WORDS as usize]);

/// The tag of the word with a number, counted from 0: its round, counted from 1.
fn tag_of(number: u64) -> u64 {
    (number / WORDS + 1) << (HINTS * BITS)
}

impl Ring {
    fn new() -> Ring {
        Ring([const { AtomicU64::new(0) }; WORDS as usize])
    }

    fn write(&self, number: u64, hints: u64) {
        self.0[(number % WORDS) as usize].store(tag_of(number) | hints, SeqCst);
    }

    /// The word with a number, if it was written, and the number that the word in its place has now.
    fn read(&self, number: u64) -> Option<(u64, u64)> {
        let word = self.0[(number % WORDS) as usize].load(SeqCst);
        let rounds = word.wrapping_sub(tag_of(number)) >> (HINTS * BITS);
        (rounds < 1 << (BITS - 1)).then(|| (number + rounds * WORDS, word))
    }
}

/// The accounts that a word names, in the order in which they were put there.
fn accounts_of(word: u64) -> impl Iterator<Item = usize> {
    let hints = (0..HINTS).rev().map(move |k| word >> (k * BITS) & ((1 << BITS) - 1));
    hints.filter_map(|hint| (hint as usize).checked_sub(1))
}

/// Where one thread sleeps. It announces what it waits for, looks once more, and sleeps: so whoever makes it after that look sees
/// the announcement.
#[repr(align(64))]
struct Sleeper {
    /// One more than the number of what the thread waits for, or `AWAKE`.
    waits_for: AtomicUsize,
    thread: OnceLock<Thread>,
}

impl Sleeper {
    fn new() -> Sleeper {
        Sleeper { waits_for: AtomicUsize::new(AWAKE), thread: OnceLock::new() }
    }

    fn announce(&self, what: usize) {
        self.thread.get_or_init(thread::current);
        self.waits_for.store(what + 1, SeqCst);
    }

    fn withdraw(&self) {
        self.waits_for.store(AWAKE, SeqCst);
    }

    /// False: nobody has woken it.
    fn sleep(&self) -> bool {
        thread::park_timeout(LONGEST);
        self.waits_for.swap(AWAKE, SeqCst) == AWAKE
    }

    /// Wakes the thread if it waits for this.
    #[inline]
    fn wake(&self, what: usize) {
        if self.waits_for.load(SeqCst) == what + 1
            && self.waits_for.swap(AWAKE, SeqCst) == what + 1
            && let Some(thread) = self.thread.get()
        {
            thread.unpark();
        }
    }
}

/// One wait of a thread, turn by turn.
pub struct Turn {
    backoff: Backoff,
    count: u32,
    is_announced: bool,
}

impl Turn {
    pub fn new() -> Turn {
        Turn { backoff: Backoff::new(), count: 0, is_announced: false }
    }

    /// Spins for longer each time, and then yields.
    pub fn wait(&mut self) {
        self.count += 1;
        self.backoff.wait();
    }

    /// Spins, and then announces what it waits for and sleeps, in turn. False: it slept, and nobody has woken it.
    fn wait_asleep(&mut self, sleeper: &Sleeper, what: usize) -> bool {
        if self.count < SPINS {
            if self.count.is_multiple_of(SPINS_OF_ROUND) {
                self.backoff = Backoff::new();
            }
            self.wait();
            return true;
        }
        self.is_announced = !self.is_announced;
        if self.is_announced {
            sleeper.announce(what);
            return true;
        }
        sleeper.sleep()
    }

    /// The thread has what it waited for.
    fn end(&self, sleeper: &Sleeper) {
        if self.is_announced {
            sleeper.withdraw();
        }
    }
}

/// What the threads share.
pub struct Signals {
    /// The rings of each worker, one for each reader.
    rings: Vec<Vec<Ring>>,
    workers: Vec<Sleeper>,
    readers: Vec<Sleeper>,
    /// How many workers have sent all that they had.
    ended: AtomicUsize,
    /// After how many postings a worker uses a node again.
    nodes: usize,
    /// Whether a thread that waits sleeps; else it yields.
    is_sleepy: bool,
}

impl Signals {
    pub fn open(workers: usize, readers: usize, nodes: usize, is_sleepy: bool) -> Signals {
        Signals {
            rings: (0..workers).map(|_| (0..readers).map(|_| Ring::new()).collect()).collect(),
            workers: (0..workers).map(|_| Sleeper::new()).collect(),
            readers: (0..readers).map(|_| Sleeper::new()).collect(),
            ended: AtomicUsize::new(0),
            nodes,
            is_sleepy,
        }
    }

    pub fn worker(&self, number: usize) -> WorkerSignals<'_> {
        WorkerSignals {
            shared: self,
            number,
            begun: vec![Begun::default(); self.readers.len()],
            sent_to: vec![ANY; self.nodes],
            slot: 0,
        }
    }

    pub fn reader(&self, number: usize) -> ReaderSignals<'_> {
        ReaderSignals {
            shared: self,
            number,
            next: vec![0; self.workers.len()],
            has_missed: false,
            turn: Turn::new(),
        }
    }
}

/// The hints that a worker has for one reader.
#[derive(Clone, Default)]
struct Begun {
    /// The hints of the word that was begun, and how many they are.
    hints: u64,
    count: u32,
    /// How many words were written, and how many when the reader was last woken.
    words: u64,
    woken: u64,
}

/// What a worker tells the readers, and how it waits for them.
pub struct WorkerSignals<'a> {
    shared: &'a Signals,
    number: usize,
    begun: Vec<Begun>,
    /// The reader of the last posting that went by each node, and the node that comes next.
    sent_to: Vec<usize>,
    slot: usize,
}

impl WorkerSignals<'_> {
    /// Tells the reader of an account that a posting was sent there: soon, or before the worker waits or ends. `turn` is the
    /// wait for it.
    #[inline]
    pub fn tell(&mut self, account: usize, turn: &Turn) {
        turn.end(&self.shared.workers[self.number]);
        let reader = account % self.begun.len();
        self.sent_to[self.slot] = reader;
        self.slot += 1;
        if self.slot == self.sent_to.len() {
            self.slot = 0;
        }
        let begun = &mut self.begun[reader];
        begun.hints = begun.hints << BITS | (account as u64 + 1);
        begun.count += 1;
        if begun.count == HINTS {
            self.write(reader);
            if self.begun[reader].words - self.begun[reader].woken >= WORDS_UNTIL_WAKING {
                self.wake(reader);
            }
        }
    }

    /// Waits a turn for the node that comes next.
    pub fn wait(&mut self, turn: &mut Turn) {
        if turn.count == 0 {
            self.tell_all();
        }
        if self.shared.is_sleepy {
            turn.wait_asleep(&self.shared.workers[self.number], self.sent_to[self.slot]);
        } else {
            turn.wait();
        }
    }

    /// Tells every reader that this worker has sent all that it had, end marks included.
    pub fn end(&mut self) {
        self.tell_all();
        self.shared.ended.fetch_add(1, SeqCst);
        self.shared.readers.iter().for_each(|reader| reader.wake(ANY));
    }

    /// Tells every reader what it was not told yet.
    fn tell_all(&mut self) {
        for reader in 0..self.begun.len() {
            if self.begun[reader].count > 0 {
                self.write(reader);
            }
            if self.begun[reader].words != self.begun[reader].woken {
                self.wake(reader);
            }
        }
    }

    fn write(&mut self, reader: usize) {
        let begun = &mut self.begun[reader];
        self.shared.rings[self.number][reader].write(begun.words, begun.hints);
        begun.hints = 0;
        begun.count = 0;
        begun.words += 1;
    }

    fn wake(&mut self, reader: usize) {
        self.begun[reader].woken = self.begun[reader].words;
        self.shared.readers[reader].wake(ANY);
    }
}

/// What a reader is told by the workers, and how it waits for them.
pub struct ReaderSignals<'a> {
    shared: &'a Signals,
    number: usize,
    /// The number of the word that comes next from each worker.
    next: Vec<u64>,
    /// Whether a hint may have been lost.
    has_missed: bool,
    turn: Turn,
}

impl ReaderSignals<'_> {
    /// Whether the reader has to look into all its mailboxes: a hint may have been lost since this was last asked, or all workers
    /// have ended.
    pub fn must_look_everywhere(&mut self) -> bool {
        let has_missed = std::mem::take(&mut self.has_missed);
        has_missed || self.shared.ended.load(SeqCst) == self.shared.workers.len()
    }

    /// Goes to each account that a worker named.
    #[inline]
    pub fn answer(&mut self, mut go: impl FnMut(usize)) {
        for (rings, next) in self.shared.rings.iter().zip(&mut self.next) {
            for _ in 0..WORDS {
                let Some((number, word)) = rings[self.number].read(*next) else {
                    break;
                };
                self.has_missed |= number != *next;
                *next = number + 1;
                accounts_of(word).for_each(&mut go);
            }
        }
    }

    /// Waits a turn for something from any worker.
    pub fn wait(&mut self) {
        if self.shared.is_sleepy {
            self.has_missed |= !self.turn.wait_asleep(&self.shared.readers[self.number], ANY);
        } else {
            self.turn.wait();
            self.has_missed |= self.turn.count.is_multiple_of(LOOKS_IN_VAIN);
        }
    }

    /// Ends a wait: the reader has taken what it found, and the workers that wait for it have room.
    #[inline]
    pub fn stop_waiting(&mut self) {
        self.turn.end(&self.shared.readers[self.number]);
        self.turn = Turn::new();
        self.shared.workers.iter().for_each(|worker| worker.wake(self.number));
    }
}
