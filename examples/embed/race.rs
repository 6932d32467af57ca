//! The race of two clients for three voters, as race.c plays it, from plain Rust.
//!
//!     rustc --edition 2021 race.rs -L native=../../build -l static=qlock && ./race
use std::collections::VecDeque;
use std::process::exit;

const STATE: usize = 1104;
const GRANTS: usize = 512;
const GUARD: usize = 520;
const OUT: usize = 4864;
const MAX_STAMP: u64 = 1 << 62;
const DONE: i32 = 0;

extern "C" {
    fn qlock_voter_new(id: u8, limit: u64, state: *mut u8, n: usize) -> i32;
    fn qlock_voter_take(
        state: *mut u8,
        n: usize,
        line: *const u8,
        len: usize,
        out: *mut u8,
        room: usize,
        written: *mut usize,
    ) -> i32;
    fn qlock_voter_held(
        state: *const u8,
        n: usize,
        client: *mut u64,
        stamp: *mut u64,
        grant: *mut u64,
    ) -> i32;
    fn qlock_client_new(id: u8, limit: u64, state: *mut u8, n: usize) -> i32;
    fn qlock_client_ask(
        state: *mut u8,
        n: usize,
        quorum: u64,
        out: *mut u8,
        room: usize,
        written: *mut usize,
    ) -> i32;
    fn qlock_client_take(
        state: *mut u8,
        n: usize,
        line: *const u8,
        len: usize,
        out: *mut u8,
        room: usize,
        written: *mut usize,
        entered: *mut i32,
    ) -> i32;
    fn qlock_client_leave(
        state: *mut u8,
        n: usize,
        out: *mut u8,
        room: usize,
        written: *mut usize,
    ) -> i32;
    fn qlock_client_shows(
        state: *const u8,
        n: usize,
        phase: *mut i32,
        stamp: *mut u64,
        quorum: *mut u64,
    ) -> i32;
    fn qlock_client_pass(state: *const u8, n: usize, grants: *mut u8, len: usize) -> i32;
    fn qlock_fence_new(state: *mut u8, n: usize) -> i32;
    fn qlock_fence_admit(state: *mut u8, n: usize, grants: *const u8, len: usize, turn: *mut u64) -> i32;
}

fn must(result: i32, call: &str) {
    if result != DONE {
        eprintln!("{call} returned {result}");
        exit(1);
    }
}

/// A voter or a client: its state, and what was saved of it.
#[derive(Clone, Copy)]
struct Node {
    state: [u8; STATE],
    saved: [u8; STATE],
}

impl Node {
    fn voter(id: u8) -> Node {
        let mut state = [0; STATE];
        // SAFETY: the pointer is to as many bytes as the length says, which nothing else uses. So it is below.
        must(unsafe { qlock_voter_new(id, MAX_STAMP, state.as_mut_ptr(), STATE) }, "qlock_voter_new");
        Node { state, saved: state }
    }

    fn client(id: u8) -> Node {
        let mut state = [0; STATE];
        must(unsafe { qlock_client_new(id, MAX_STAMP, state.as_mut_ptr(), STATE) }, "qlock_client_new");
        Node { state, saved: state }
    }
}

struct Race {
    voters: [Node; 3],
    clients: [Node; 2],
    guard: [u8; GUARD],
    first_pass: [u8; GRANTS],
    network: VecDeque<String>,
}

impl Race {
    fn new() -> Race {
        let mut guard = [0; GUARD];
        must(unsafe { qlock_fence_new(guard.as_mut_ptr(), GUARD) }, "qlock_fence_new");
        Race {
            voters: [Node::voter(0), Node::voter(1), Node::voter(2)],
            clients: [Node::client(0), Node::client(1)],
            guard,
            first_pass: [0; GRANTS],
            network: VecDeque::new(),
        }
    }

    /// Sends the lines that a call wrote.
    fn send(&mut self, out: &[u8]) {
        let text = std::str::from_utf8(out).expect("lines are ASCII");
        self.network.extend(text.lines().map(String::from));
    }

    fn admit(&mut self, grants: &[u8; GRANTS]) -> i32 {
        let mut turn = 0;
        unsafe { qlock_fence_admit(self.guard.as_mut_ptr(), GUARD, grants.as_ptr(), GRANTS, &mut turn) }
    }

    fn enter(&mut self, c: usize) {
        let mut grants = [0; GRANTS];
        let state = &self.clients[c].state;
        must(
            unsafe { qlock_client_pass(state.as_ptr(), STATE, grants.as_mut_ptr(), GRANTS) },
            "qlock_client_pass",
        );
        let result = self.admit(&grants);
        println!("client {c} is inside, and the guard returns {result}");
        if c == 0 {
            self.first_pass = grants;
        }
    }

    fn voter_takes(&mut self, v: usize, line: &str) {
        println!("voter {v} takes: {line}");
        let (mut out, mut written) = ([0; OUT], 0);
        let node = &mut self.voters[v];
        must(
            unsafe {
                qlock_voter_take(
                    node.state.as_mut_ptr(),
                    STATE,
                    line.as_ptr(),
                    line.len(),
                    out.as_mut_ptr(),
                    OUT,
                    &mut written,
                )
            },
            "qlock_voter_take",
        );
        node.saved = node.state;
        self.send(&out[..written]);
    }

    fn client_takes(&mut self, c: usize, line: &str) {
        println!("client {c} takes: {line}");
        let (mut out, mut written, mut entered) = ([0; OUT], 0, 0);
        let node = &mut self.clients[c];
        must(
            unsafe {
                qlock_client_take(
                    node.state.as_mut_ptr(),
                    STATE,
                    line.as_ptr(),
                    line.len(),
                    out.as_mut_ptr(),
                    OUT,
                    &mut written,
                    &mut entered,
                )
            },
            "qlock_client_take",
        );
        node.saved = node.state;
        self.send(&out[..written]);
        if entered == 1 {
            self.enter(c);
        }
    }

    /// Delivers the messages until none is on the way.
    fn deliver(&mut self) {
        while let Some(line) = self.network.pop_front() {
            let words: Vec<&str> = line.split(' ').collect();
            let to = words[2].parse().expect("a line names its receiver");
            match words[0] {
                "request" | "release" | "relinquish" => self.voter_takes(to, &line),
                _ => self.client_takes(to, &line),
            }
        }
    }

    fn ask(&mut self, c: usize, quorum: u64) {
        println!("client {c} asks the quorum {quorum}");
        let (mut out, mut written) = ([0; OUT], 0);
        let node = &mut self.clients[c];
        must(
            unsafe {
                qlock_client_ask(
                    node.state.as_mut_ptr(),
                    STATE,
                    quorum,
                    out.as_mut_ptr(),
                    OUT,
                    &mut written,
                )
            },
            "qlock_client_ask",
        );
        node.saved = node.state;
        self.send(&out[..written]);
    }

    fn leave(&mut self, c: usize) {
        println!("client {c} leaves");
        let (mut out, mut written) = ([0; OUT], 0);
        let node = &mut self.clients[c];
        must(
            unsafe {
                qlock_client_leave(
                    node.state.as_mut_ptr(),
                    STATE,
                    out.as_mut_ptr(),
                    OUT,
                    &mut written,
                )
            },
            "qlock_client_leave",
        );
        node.saved = node.state;
        self.send(&out[..written]);
    }

    fn kill_and_restore(&mut self, v: usize) {
        let (mut client, mut stamp, mut grant) = (0, 0, 0);
        self.voters[v].state = [0; STATE];
        self.voters[v].state = self.voters[v].saved;
        let state = &self.voters[v].state;
        must(
            unsafe {
                qlock_voter_held(state.as_ptr(), STATE, &mut client, &mut stamp, &mut grant)
            },
            "qlock_voter_held",
        );
        println!("voter {v} was killed, and is back: grant {grant} of client {client}, stamp {stamp}");
    }

    fn show(&self, c: usize) {
        let (mut phase, mut stamp, mut quorum) = (0, 0, 0);
        let state = &self.clients[c].state;
        must(
            unsafe {
                qlock_client_shows(state.as_ptr(), STATE, &mut phase, &mut stamp, &mut quorum)
            },
            "qlock_client_shows",
        );
        println!("client {c}: phase {phase}, stamp {stamp}, quorum {quorum}");
    }
}

fn main() {
    let mut race = Race::new();
    race.ask(0, 3);
    race.ask(1, 6);
    race.deliver();
    race.show(0);
    race.show(1);
    race.kill_and_restore(1);
    race.leave(0);
    race.deliver();
    race.show(0);
    race.show(1);
    let old = race.first_pass;
    println!("client 0 shows its old pass, and the guard returns {}", race.admit(&old));
    race.leave(1);
    race.deliver();
    race.show(1);
}
