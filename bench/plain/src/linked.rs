//! Vyukov's intrusive queue of many producers and one consumer, one for each account, over a table of nodes
//! that are used again: each sender has a ring of nodes in each mailbox, a count of turns says whether
//! a node was given back, and one more node of a sender is kept for its end mark. Every step is sequentially consistent. Nothing
//! here is proved.

use std::sync::atomic::{AtomicU64, Ordering::SeqCst};

#[derive(Default)]
#[repr(C, align(32))]
pub struct Node {
    /// The number of the next node, from 1; 0 is none.
    pub next: AtomicU64,
    pub turn: AtomicU64,
    /// The number of the line, from 1; 0 is an end mark.
    pub line: AtomicU64,
    pub amount: AtomicU64,
}

#[repr(align(64))]
pub struct Head(pub AtomicU64);

pub struct Table {
    senders: usize,
    ring: usize,
    heads: Box<[Head]>,
    nodes: Box<[Node]>,
}

impl Table {
    pub fn open(mailboxes: usize, senders: usize, ring: usize) -> Table {
        let each = senders * (ring + 1) + 1;
        Table {
            senders,
            ring,
            heads: (0..mailboxes).map(|_| Head(AtomicU64::new(each as u64))).collect(),
            nodes: (0..mailboxes * each).map(|_| Node::default()).collect(),
        }
    }

    fn of(&self, mailbox: usize) -> (&AtomicU64, &[Node]) {
        let each = self.senders * (self.ring + 1) + 1;
        (&self.heads[mailbox].0, &self.nodes[mailbox * each..][..each])
    }

    pub fn sender(&self, mailbox: usize, number: usize) -> Sender<'_> {
        let (head, nodes) = self.of(mailbox);
        Sender { head, nodes, first: number * (self.ring + 1), ring: self.ring, slot: 0, turn: 0 }
    }

    pub fn receiver(&self, mailbox: usize) -> Receiver<'_> {
        let (head, nodes) = self.of(mailbox);
        let stub = nodes.len() - 1;
        Receiver { head, nodes, stub, tail: stub }
    }
}

pub struct Sender<'a> {
    head: &'a AtomicU64,
    nodes: &'a [Node],
    first: usize,
    ring: usize,
    slot: usize,
    turn: u64,
}

impl Sender<'_> {
    #[inline]
    fn push(&self, node: usize, line: u64, amount: i64) {
        self.nodes[node].line.store(line, SeqCst);
        self.nodes[node].amount.store(amount as u64, SeqCst);
        link(self.head, self.nodes, node);
    }

    /// False where the node has not been given back.
    #[inline]
    pub fn try_send(&mut self, line: u64, amount: i64) -> bool {
        let node = self.first + self.slot;
        if self.nodes[node].turn.load(SeqCst) != self.turn {
            return false;
        }
        self.push(node, line + 1, amount);
        self.slot += 1;
        if self.slot == self.ring {
            self.slot = 0;
            self.turn += 1;
        }
        true
    }

    pub fn end(&mut self) {
        self.push(self.first + self.ring, 0, 0);
    }
}

/// Puts a node in behind the others.
#[inline]
pub fn link(head: &AtomicU64, nodes: &[Node], node: usize) {
    nodes[node].next.store(0, SeqCst);
    let before = head.swap(node as u64 + 1, SeqCst);
    nodes[before as usize - 1].next.store(node as u64 + 1, SeqCst);
}

pub enum Took {
    Held(usize),
    Empty,
    Busy,
}

pub struct Receiver<'a> {
    pub head: &'a AtomicU64,
    pub nodes: &'a [Node],
    pub stub: usize,
    pub tail: usize,
}

impl Receiver<'_> {
    #[inline]
    fn next(&self) -> usize {
        self.nodes[self.tail].next.load(SeqCst) as usize
    }

    #[inline]
    fn is_last(&self) -> bool {
        self.head.load(SeqCst) == self.tail as u64 + 1
    }

    #[inline]
    fn pass(&mut self, next: usize) -> Took {
        let held = self.tail;
        self.tail = next - 1;
        Took::Held(held)
    }

    #[inline]
    pub fn take(&mut self) -> Took {
        let mut next = self.next();
        if self.tail == self.stub {
            if next == 0 {
                return if self.is_last() { Took::Empty } else { Took::Busy };
            }
            self.tail = next - 1;
            next = self.next();
        }
        if next != 0 {
            return self.pass(next);
        }
        if !self.is_last() {
            return Took::Busy;
        }
        link(self.head, self.nodes, self.stub);
        match self.next() {
            0 => Took::Busy,
            next => self.pass(next),
        }
    }

    /// The line and the amount of a held node; none is an end mark.
    #[inline]
    pub fn read(&self, node: usize) -> Option<(u64, i64)> {
        let line = self.nodes[node].line.load(SeqCst).checked_sub(1)?;
        Some((line, self.nodes[node].amount.load(SeqCst) as i64))
    }

    #[inline]
    pub fn give_back(&self, node: usize) {
        self.nodes[node].turn.fetch_add(1, SeqCst);
    }
}

/// A waiting turn, as `Backoff::snooze` of the crate crossbeam has it: it spins for longer each time, and then yields.
pub struct Backoff(u32);

impl Backoff {
    pub fn new() -> Backoff {
        Backoff(0)
    }

    pub fn reset(&mut self) {
        self.0 = 0;
    }

    pub fn wait(&mut self) {
        if self.0 <= 6 {
            for _ in 0..1 << self.0 {
                std::hint::spin_loop();
            }
        } else {
            std::thread::yield_now();
        }
        if self.0 <= 10 {
            self.0 += 1;
        }
    }
}
