//! Members in threads, who take turns at the lock: each asks, pumps its mailbox until it is inside, passes and leaves.
use crate::automata::{Requester, ToClient, ToVoter, Voter};
use crate::coterie::{members, Coterie};
use crate::plan::Plan;
use std::collections::VecDeque;
use std::fmt::Write;
use std::sync::atomic::{AtomicU64, AtomicUsize, Ordering};
use std::sync::{Condvar, Mutex};
use std::thread;
use std::time::{Duration, Instant};

/// Empty looks in a row after which a member yields its thread before each further one.
const EMPTY_BEFORE_YIELD: u64 = 16;
/// Empty looks in a row after which a member sleeps before some of the further ones.
const EMPTY_BEFORE_SLEEP: u64 = 500;
/// Empty looks in a row after which a member reminds, and counts anew.
const EMPTY_BEFORE_REMINDER: u64 = 1_000;
/// A member that may sleep sleeps before one of this many looks, until it has reminded.
const LOOKS_FOR_SLEEP: u64 = 32;
/// After this many reminders a member that may sleep sleeps before each look.
const REMINDERS_TO_SLEEP: u64 = 5;
/// The longest sleep before a look, in milliseconds.
const LONGEST_SLEEP: u64 = 1;
/// Microseconds after which a yield was long: other programs want the processors.
const KEPT_WAITING: u128 = 500;
/// How many sleeps follow after a long yield.
const SLEEPS: u64 = 100;
const LIMIT: u64 = 1 << 40;

/// A mailbox, and whether its client's thread sleeps.
struct Postbox {
    slot: Mutex<(VecDeque<ToClient>, bool)>,
    bell: Condvar,
}

impl Postbox {
    fn new() -> Postbox {
        Postbox { slot: Mutex::new((VecDeque::new(), false)), bell: Condvar::new() }
    }

    fn put(&self, message: ToClient) {
        let mut slot = self.slot.lock().unwrap();
        slot.0.push_back(message);
        let sleeps = std::mem::replace(&mut slot.1, false);
        drop(slot);
        if sleeps {
            self.bell.notify_one();
        }
    }

    fn take(&self) -> Option<ToClient> {
        self.slot.lock().unwrap().0.pop_front()
    }

    /// Sleeps until a message comes or the time is over.
    fn sleep(&self, time: Duration) {
        let mut slot = self.slot.lock().unwrap();
        if slot.0.is_empty() {
            slot.1 = true;
            slot = self.bell.wait_timeout(slot, time).unwrap().0;
            slot.1 = false;
        }
    }
}

/// What a member knows when it waits: how many looks in a row found nothing, how many more times it sleeps in place of yielding,
/// and how many times it reminded since its request began.
struct Patience {
    empty: u64,
    sleeps: u64,
    reminders: u64,
}

struct Lock {
    voters: Vec<Mutex<Voter>>,
    /// For each voter a lock that is held from a message to it until the replies are posted.
    lines: Vec<Mutex<()>>,
    mailboxes: Vec<Postbox>,
    quorums: Vec<Vec<u8>>,
    places: Vec<usize>,
    tickets: AtomicUsize,
    register: AtomicU64,
}

struct Member {
    client: u8,
    requester: Requester,
    out: Vec<ToVoter>,
    replies: Vec<ToClient>,
    draws: Vec<(usize, usize)>,
    passes: Vec<u64>,
}

impl Lock {
    fn deliver(&self, replies: &[ToClient]) {
        for reply in replies {
            self.mailboxes[reply.client as usize].put(*reply);
        }
    }

    fn send(&self, messages: &[ToVoter], replies: &mut Vec<ToClient>) {
        for message in messages {
            let _line = self.lines[message.voter as usize].lock().unwrap();
            self.voters[message.voter as usize].lock().unwrap().take(message, replies);
            self.deliver(replies);
        }
    }

    fn remind(&self, voter: u8, replies: &mut Vec<ToClient>) {
        let _line = self.lines[voter as usize].lock().unwrap();
        self.voters[voter as usize].lock().unwrap().remind(replies);
        self.deliver(replies);
    }
}

impl Member {
    /// Whether it entered; `None` if the mailbox is empty.
    fn pump(&mut self, lock: &Lock) -> Option<bool> {
        let message = lock.mailboxes[self.client as usize].take()?;
        let entered = self.requester.take(&message, &mut self.out);
        lock.send(&self.out, &mut self.replies);
        Some(entered)
    }

    /// Yields, or sleeps until a message comes or a millisecond is over.
    fn rest(&self, lock: &Lock, patience: &mut Patience) {
        if patience.sleeps > 0 || patience.empty > EMPTY_BEFORE_SLEEP {
            if patience.empty % (LOOKS_FOR_SLEEP >> patience.reminders.min(REMINDERS_TO_SLEEP)) == 0 {
                patience.sleeps = patience.sleeps.saturating_sub(1);
                lock.mailboxes[self.client as usize].sleep(Duration::from_millis(LONGEST_SLEEP));
            }
            return;
        }
        let before = Instant::now();
        thread::yield_now();
        if before.elapsed().as_micros() > KEPT_WAITING {
            patience.sleeps = SLEEPS;
        }
    }

    /// What a member does before its next look: nothing, or it rests, or it reminds.
    fn wait(&mut self, lock: &Lock, quorum: &[u8], patience: &mut Patience) {
        if patience.empty >= EMPTY_BEFORE_REMINDER {
            patience.empty = 0;
            patience.reminders += 1;
            self.requester.remind(&mut self.out);
            lock.send(&self.out, &mut self.replies);
            for voter in quorum {
                lock.remind(*voter, &mut self.replies);
            }
        } else if patience.empty > EMPTY_BEFORE_YIELD {
            self.rest(lock, patience);
        }
    }

    fn enter(&mut self, lock: &Lock, quorum: &[u8], turns: &mut u64, patience: &mut Patience) -> bool {
        patience.empty = 0;
        patience.reminders = 0;
        while *turns > 0 {
            *turns -= 1;
            self.wait(lock, quorum, patience);
            match self.pump(lock) {
                Some(true) => {
                    patience.empty = 0;
                    return true;
                }
                Some(false) => patience.empty = 0,
                None => patience.empty += 1,
            }
        }
        false
    }

    fn serve(&mut self, lock: &Lock, passes: u64, mut turns: u64) {
        let mut patience = Patience { empty: 0, sleeps: 0, reminders: 0 };
        for _ in 0..passes {
            let ticket = lock.tickets.fetch_add(1, Ordering::Relaxed);
            let number = lock.places[ticket % lock.places.len()];
            self.draws.push((ticket, number));
            let quorum = &lock.quorums[number];
            self.requester.ask(quorum, &mut self.out);
            lock.send(&self.out, &mut self.replies);
            if !self.enter(lock, quorum, &mut turns, &mut patience) {
                self.requester.give_up(&mut self.out);
                lock.send(&self.out, &mut self.replies);
                return;
            }
            // two steps, as only the client inside counts
            let read = lock.register.load(Ordering::Relaxed);
            self.passes.push(read);
            lock.register.store(read + 1, Ordering::Relaxed);
            self.requester.leave(&mut self.out);
            lock.send(&self.out, &mut self.replies);
        }
    }
}

/// What a run did: draws by ticket, passes by number, and the register.
pub struct Record {
    draws: Vec<(usize, u8, usize)>,
    passes: Vec<(u64, u8)>,
    pub register: u64,
}

/// The record of a run.
pub fn run(coterie: &Coterie, plan: &Plan, clients: u8, passes: u64, turns: u64) -> Record {
    let lock = Lock {
        voters: (0..coterie.names.len()).map(|voter| Mutex::new(Voter::new(voter as u8, LIMIT))).collect(),
        lines: coterie.names.iter().map(|_| Mutex::new(())).collect(),
        mailboxes: (0..clients).map(|_| Postbox::new()).collect(),
        quorums: coterie.quorums.iter().map(|quorum| members(*quorum).map(|voter| voter as u8).collect()).collect(),
        places: plan.places(),
        tickets: AtomicUsize::new(0),
        register: AtomicU64::new(0),
    };
    let mut members: Vec<Member> = (0..clients)
        .map(|client| Member {
            client,
            requester: Requester::new(client, LIMIT),
            out: Vec::new(),
            replies: Vec::new(),
            draws: Vec::new(),
            passes: Vec::new(),
        })
        .collect();
    thread::scope(|scope| {
        for member in &mut members {
            scope.spawn(|| member.serve(&lock, passes, turns));
        }
    });
    let mut draws: Vec<_> = members.iter().flat_map(|m| m.draws.iter().map(|d| (d.0, m.client, d.1))).collect();
    let mut passed: Vec<_> = members.iter().flat_map(|m| m.passes.iter().map(|n| (*n, m.client))).collect();
    draws.sort_unstable();
    passed.sort_unstable();
    Record { draws, passes: passed, register: lock.register.load(Ordering::Relaxed) }
}

/// The text of a record.
pub fn text_of(record: &Record) -> String {
    let mut text = String::from("quorum-record 1\n");
    for (ticket, client, quorum) in &record.draws {
        let _ = writeln!(text, "draw {client} {ticket} {quorum}");
    }
    for (number, client) in &record.passes {
        let _ = writeln!(text, "pass {client} {number}");
    }
    let _ = writeln!(text, "register {}", record.register);
    text
}
