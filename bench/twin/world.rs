//! Scripts of a world: `world CLIENTS LIMIT`, and then a step in each line.
use crate::automata::{ClientBody, Requester, ToClient, ToVoter, Voter, VoterBody};
use crate::coterie::{members, Coterie};
use crate::plan::Plan;
use crate::text::{number_line, Text};

#[derive(Clone, Copy)]
enum Message {
    ToVoter(ToVoter),
    ToClient(ToClient),
}

#[derive(Clone, Copy)]
enum Step {
    Ask,
    Deliver,
    Leave,
    GiveUp,
    RemindVoter,
    RemindClient,
}

impl Step {
    /// The step that a line begins with, and the rest of the text.
    fn read(text: &[u8]) -> Option<(Step, &[u8])> {
        const WORDS: [(&[u8], Step); 6] = [
            (b"deliver ", Step::Deliver),
            (b"ask ", Step::Ask),
            (b"leave ", Step::Leave),
            (b"give-up ", Step::GiveUp),
            (b"remind-voter ", Step::RemindVoter),
            (b"remind-client ", Step::RemindClient),
        ];
        WORDS.iter().find_map(|(word, step)| Some((*step, text.strip_prefix(*word)?)))
    }
}

struct World {
    clients: Vec<Requester>,
    voters: Vec<Voter>,
    sent: Vec<Message>,
    quorums: Vec<Vec<u8>>,
    places: Vec<usize>,
    /// The place of the next ticket.
    place: usize,
    out: Vec<ToVoter>,
    replies: Vec<ToClient>,
    text: Text,
}

impl World {
    fn line(&mut self, message: Message) {
        let text = &mut self.text;
        let number = self.sent.len() as u64;
        match message {
            Message::ToVoter(ToVoter { client, voter, body }) => {
                let (word, last) = match body {
                    VoterBody::Request { stamp } => (" request", stamp),
                    VoterBody::Relinquish { grant } => (" relinquish", grant),
                    VoterBody::Release { stamp } => (" release", stamp),
                };
                text.start("m", number);
                text.line(word, &[client.into(), voter.into(), last]);
            }
            Message::ToClient(ToClient { voter, client, seen, body }) => {
                text.start("m", number);
                let (voter, client) = (voter.into(), client.into());
                match body {
                    ClientBody::Locked { stamp, grant } => text.line(" locked", &[voter, client, stamp, grant, seen]),
                    ClientBody::Fail { stamp } => text.line(" fail", &[voter, client, stamp, seen]),
                    ClientBody::Inquire { grant } => text.line(" inquire", &[voter, client, grant, seen]),
                }
            }
        }
        self.sent.push(message);
    }

    /// Sends what a client's step left in `out`.
    fn tell(&mut self, fault: Option<&str>) {
        if let Some(fault) = fault {
            self.text.word("! ");
            self.text.line(fault, &[]);
            return;
        }
        for i in 0..self.out.len() {
            self.line(Message::ToVoter(self.out[i]));
        }
    }

    fn reply(&mut self) {
        for i in 0..self.replies.len() {
            self.line(Message::ToClient(self.replies[i]));
        }
    }

    fn refuse(&mut self, code: &str, number: u64) {
        self.text.word("! ");
        self.text.line(code, &[number]);
    }

    fn deliver(&mut self, number: u64) {
        match self.sent.get(number as usize).copied() {
            None => self.refuse("U1 NoSuchMessage", number),
            Some(Message::ToVoter(message)) => {
                if self.voters[message.voter as usize].take(&message, &mut self.replies) {
                    self.reply();
                } else {
                    self.text.line("! V1 GrantsSpent", &[]);
                }
            }
            Some(Message::ToClient(message)) => {
                let entered = self.clients[message.client as usize].take(&message, &mut self.out);
                self.tell(None);
                if entered {
                    self.text.line("enter", &[message.client.into()]);
                }
            }
        }
    }

    fn step(&mut self, step: Step, number: u64) {
        let client = number as usize;
        let known = client < self.clients.len();
        match step {
            Step::Deliver => self.deliver(number),
            Step::RemindVoter => match self.voters.get(client) {
                None => self.refuse("U3 NoSuchVoter", number),
                Some(voter) => {
                    voter.remind(&mut self.replies);
                    self.reply();
                }
            },
            _ if !known => self.refuse("U2 NoSuchClient", number),
            Step::Ask => {
                let quorum = &self.quorums[self.places[self.place]];
                let asks = self.clients[client].ask(quorum, &mut self.out);
                if asks {
                    self.place += 1;
                    if self.place == self.places.len() {
                        self.place = 0;
                    }
                }
                let fault = if self.clients[client].is_idle() { "C4 StampsSpent" } else { "C1 Busy" };
                self.tell((!asks).then_some(fault));
            }
            Step::Leave => {
                let leaves = self.clients[client].leave(&mut self.out);
                self.tell((!leaves).then_some("C2 NotInside"));
                if leaves {
                    self.text.line("leave", &[number]);
                }
            }
            Step::GiveUp => {
                let gives = self.clients[client].give_up(&mut self.out);
                self.tell((!gives).then_some("C3 NotAsking"));
            }
            Step::RemindClient => {
                self.clients[client].remind(&mut self.out);
                self.tell(None);
            }
        }
    }
}

/// What the steps of a script write; `None` if the text is no script.
pub fn run(coterie: &Coterie, plan: &Plan, script: &str) -> Option<Text> {
    let (first, rest) = script.split_once('\n')?;
    let (clients, limit) = first.strip_prefix("world ")?.split_once(' ')?;
    let (clients, limit): (u8, u64) = (clients.parse().ok()?, limit.parse().ok()?);
    // no step is made before all lines are read
    let mut steps = Vec::with_capacity(rest.len() / 8);
    let mut rest = rest.as_bytes();
    while !rest.is_empty() {
        let (step, text) = Step::read(rest)?;
        let (number, text) = number_line(text)?;
        steps.push((step, number));
        rest = text;
    }
    let mut world = World {
        clients: (0..clients).map(|client| Requester::new(client, limit)).collect(),
        voters: (0..coterie.names.len()).map(|voter| Voter::new(voter as u8, limit)).collect(),
        sent: Vec::with_capacity(steps.len()),
        quorums: coterie.quorums.iter().map(|quorum| members(*quorum).map(|voter| voter as u8).collect()).collect(),
        places: plan.places(),
        place: 0,
        out: Vec::new(),
        replies: Vec::new(),
        text: Text::with_capacity(32 * steps.len()),
    };
    for (step, number) in steps {
        world.step(step, number);
    }
    Some(world.text)
}
