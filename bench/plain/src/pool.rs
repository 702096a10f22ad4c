//! Several mailboxes over one table of nodes: a sender uses one ring in turn for its posts to all of them. Nothing here is
//! proved.

use crate::linked::{Head, Node, Receiver, link};
use std::sync::atomic::{AtomicU64, Ordering::SeqCst};

pub struct Pool {
    senders: usize,
    ring: usize,
    heads: Box<[Head]>,
    nodes: Box<[Node]>,
}

impl Pool {
    pub fn open(mailboxes: usize, senders: usize, ring: usize) -> Pool {
        let stubs = senders * (ring + mailboxes);
        Pool {
            senders,
            ring,
            heads: (0..mailboxes).map(|mailbox| Head(AtomicU64::new((stubs + mailbox) as u64 + 1))).collect(),
            nodes: (0..stubs + mailboxes).map(|_| Node::default()).collect(),
        }
    }

    pub fn sender(&self, number: usize) -> Sender<'_> {
        Sender { pool: self, first: number * (self.ring + self.heads.len()), slot: 0, turn: 0 }
    }

    pub fn receiver(&self, mailbox: usize) -> Receiver<'_> {
        let stub = self.senders * (self.ring + self.heads.len()) + mailbox;
        Receiver { head: &self.heads[mailbox].0, nodes: &self.nodes, stub, tail: stub }
    }
}

pub struct Sender<'a> {
    pool: &'a Pool,
    first: usize,
    slot: usize,
    turn: u64,
}

impl Sender<'_> {
    #[inline]
    fn push(&self, mailbox: usize, node: usize, line: u64, amount: i64) {
        let nodes = &self.pool.nodes;
        nodes[node].line.store(line, SeqCst);
        nodes[node].amount.store(amount as u64, SeqCst);
        link(&self.pool.heads[mailbox].0, nodes, node);
    }

    /// False where the node has not been given back.
    #[inline]
    pub fn try_send(&mut self, mailbox: usize, line: u64, amount: i64) -> bool {
        let node = self.first + self.slot;
        if self.pool.nodes[node].turn.load(SeqCst) != self.turn {
            return false;
        }
        self.push(mailbox, node, line + 1, amount);
        self.slot += 1;
        if self.slot == self.pool.ring {
            self.slot = 0;
            self.turn += 1;
        }
        true
    }

    pub fn end(&mut self, mailbox: usize) {
        self.push(mailbox, self.first + self.pool.ring + mailbox, 0, 0);
    }
}
