//! Two clients take turns at the lock of one voter, 11 steps a round.
use crate::automata::*;

struct Lock {
    voter: Voter,
    clients: [Requester; 2],
    answers: Vec<ToVoter>,
    steps: u64,
    entered: u64,
}

impl Lock {
    fn tell_client(&mut self, message: &ToClient) {
        if message.voter == 0 && message.client < 2 {
            let entered = self.clients[message.client as usize].take(message, &mut self.answers);
            self.steps += 1;
            self.entered += u64::from(entered);
        }
    }

    fn tell_voter(&mut self, message: &ToVoter, replies: &mut Vec<ToClient>) {
        if message.voter == 0 && message.client < 2 && self.voter.take(message, replies) {
            self.steps += 1;
            for reply in replies.iter() {
                self.tell_client(reply);
            }
        }
    }

    fn send(&mut self, called: bool, sent: &[ToVoter], replies: &mut Vec<ToClient>) {
        if called {
            self.steps += 1;
            for message in sent {
                self.tell_voter(message, replies);
            }
        }
    }

    fn round(&mut self, quorum: &[u8], out: &mut Vec<ToVoter>, replies: &mut Vec<ToClient>) {
        for client in 0..2 {
            let called = self.clients[client].ask(quorum, out);
            self.send(called, out, replies);
        }
        for client in 0..2 {
            let called = self.clients[client].leave(out);
            self.send(called, out, replies);
        }
    }
}

/// Says how many steps so many rounds have, and how often a client entered.
pub fn run(rounds: u32) -> String {
    let limit = 1 << 40;
    let mut lock = Lock {
        voter: Voter::new(0, limit),
        clients: [Requester::new(0, limit), Requester::new(1, limit)],
        answers: Vec::new(),
        steps: 0,
        entered: 0,
    };
    let mut out = Vec::new();
    let mut replies = Vec::new();
    for _ in 0..rounds {
        lock.round(&[0], &mut out, &mut replies);
    }
    format!("steps {} entered {}\n", lock.steps, lock.entered)
}
