//! Posts through one mailbox of linked nodes between threads, or through a pool of them, as `mail_bench` does: each line of
//! the input is `SENDERS NODES POSTS` or `pool SENDERS READERS MAILBOXES NODES POSTS`, and is answered with how many posts
//! came and what their amounts come to.

mod linked;
mod pool;

use linked::{Backoff, Receiver, Sender, Table, Took};
use pool::Pool;
use std::io::BufRead;
use std::process::ExitCode;
use std::thread;

fn send_all(mut sender: Sender, posts: u64) {
    for line in 0..posts {
        let mut turn = Backoff::new();
        while !sender.try_send(line, line as i64 + 1) {
            turn.wait();
        }
    }
    sender.end();
}

/// What came: how many posts, what their amounts come to, and how many end marks.
#[derive(Default)]
struct Came {
    posts: u64,
    total: i64,
    ended: usize,
}

impl Came {
    /// Takes an item, reads it and gives it back. False where there is none.
    #[inline]
    fn take_from(&mut self, receiver: &mut Receiver) -> bool {
        let Took::Held(node) = receiver.take() else { return false };
        match receiver.read(node) {
            Some((_, amount)) => {
                self.posts += 1;
                self.total += amount;
            }
            None => self.ended += 1,
        }
        receiver.give_back(node);
        true
    }
}

fn take_all(mut receiver: Receiver, senders: usize) -> Came {
    let mut came = Came::default();
    let mut turn = Backoff::new();
    while came.ended < senders {
        if came.take_from(&mut receiver) { turn.reset() } else { turn.wait() }
    }
    came
}

/// How many items a reader takes of a mailbox before it goes on to the next.
const MOST_ITEMS: usize = 64;

fn send_around(mut sender: pool::Sender, mailboxes: usize, posts: u64) {
    for line in 0..posts {
        let mut turn = Backoff::new();
        while !sender.try_send(line as usize % mailboxes, line, line as i64 + 1) {
            turn.wait();
        }
    }
    for mailbox in 0..mailboxes {
        sender.end(mailbox);
    }
}

fn take_around(mut receivers: Vec<Receiver>, senders: usize) -> Came {
    let mut came = Came::default();
    let mut turn = Backoff::new();
    while came.ended < senders * receivers.len() {
        let mut took = false;
        for receiver in &mut receivers {
            for _ in 0..MOST_ITEMS {
                if !came.take_from(receiver) {
                    break;
                }
                took = true;
            }
        }
        if took { turn.reset() } else { turn.wait() }
    }
    came
}

fn one_mailbox(senders: usize, nodes: usize, posts: u64) -> Came {
    let table = Table::open(1, senders, nodes);
    thread::scope(|scope| {
        for number in 0..senders {
            let sender = table.sender(0, number);
            scope.spawn(move || send_all(sender, posts));
        }
        take_all(table.receiver(0), senders)
    })
}

fn a_pool(senders: usize, readers: usize, mailboxes: usize, nodes: usize, posts: u64) -> Came {
    let pool = Pool::open(mailboxes, senders, nodes);
    thread::scope(|scope| {
        for number in 0..senders {
            let sender = pool.sender(number);
            scope.spawn(move || send_around(sender, mailboxes, posts));
        }
        let readers: Vec<_> = (0..readers)
            .map(|reader| {
                let receivers = (reader..mailboxes).step_by(readers).map(|mailbox| pool.receiver(mailbox)).collect();
                scope.spawn(move || take_around(receivers, senders))
            })
            .collect();
        readers.into_iter().map(|reader| reader.join().unwrap()).fold(Came::default(), |a, b| Came {
            posts: a.posts + b.posts,
            total: a.total + b.total,
            ended: a.ended + b.ended,
        })
    })
}

fn main() -> ExitCode {
    for line in std::io::stdin().lock().lines() {
        let Ok(line) = line else { return ExitCode::FAILURE };
        let (is_pool, words) = match line.strip_prefix("pool ") {
            Some(words) => (true, words),
            None => (false, line.as_str()),
        };
        let numbers: Vec<u64> = words.split(' ').filter_map(|word| word.parse().ok()).collect();
        let came = match (is_pool, &numbers[..]) {
            (false, &[senders @ 1..=2, nodes @ 1..=64, posts @ 0..=1_000_000]) => one_mailbox(senders as usize, nodes as usize, posts),
            (true, &[senders @ 1..=2, readers @ 1..=2, mailboxes @ 1..=16_384, nodes @ 1..=64, posts @ 0..=1_000_000]) => {
                a_pool(senders as usize, readers as usize, mailboxes as usize, nodes as usize, posts)
            }
            _ => return ExitCode::FAILURE,
        };
        println!("{line}: {} posts, {}", came.posts, came.total);
    }
    ExitCode::SUCCESS
}
