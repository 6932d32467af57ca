//! Voters and clients: the automata of `docs/protocol.md`. What is sent goes into a `Vec` that the caller keeps.

#[derive(Clone, Copy)]
pub enum VoterBody {
    Request { stamp: u64 },
    Relinquish { grant: u64 },
    Release { stamp: u64 },
}

#[derive(Clone, Copy)]
pub struct ToVoter {
    pub client: u8,
    pub voter: u8,
    pub body: VoterBody,
}

#[derive(Clone, Copy)]
pub enum ClientBody {
    Locked { stamp: u64, grant: u64 },
    Fail { stamp: u64 },
    Inquire { grant: u64 },
}

#[derive(Clone, Copy)]
pub struct ToClient {
    pub voter: u8,
    pub client: u8,
    pub seen: u64,
    pub body: ClientBody,
}

/// A request that waits. The lesser precedes.
#[derive(Clone, Copy, PartialEq, Eq, PartialOrd, Ord)]
pub struct Request {
    stamp: u64,
    client: u8,
}

#[derive(Clone, Copy)]
pub struct Grant {
    request: Request,
    number: u64,
}

pub struct Voter {
    id: u8,
    limit: u64,
    held: Option<Grant>,
    inquiring: bool,
    waiting: Vec<Request>,
    finished: [u64; 64],
    granted: u64,
    seen: u64,
}

impl Voter {
    pub fn new(id: u8, limit: u64) -> Voter {
        Voter {
            id,
            limit,
            held: None,
            inquiring: false,
            waiting: Vec::new(),
            finished: [0; 64],
            granted: 0,
            seen: 0,
        }
    }

    fn reply(&self, client: u8, body: ClientBody, replies: &mut Vec<ToClient>) {
        replies.push(ToClient { voter: self.id, client, seen: self.seen, body });
    }

    fn grant_front(&mut self, replies: &mut Vec<ToClient>) {
        if !self.waiting.is_empty() {
            let request = self.waiting.remove(0);
            self.granted += 1;
            self.held = Some(Grant { request, number: self.granted });
            self.inquiring = false;
            let body = ClientBody::Locked { stamp: request.stamp, grant: self.granted };
            self.reply(request.client, body, replies);
        }
    }

    fn held_stamp(&self, client: u8) -> Option<u64> {
        self.held.filter(|g| g.request.client == client).map(|g| g.request.stamp)
    }

    fn waiting_stamp(&self, client: u8) -> Option<u64> {
        self.waiting.iter().find(|r| r.client == client).map(|r| r.stamp)
    }

    fn standing(&self, client: u8) -> Option<u64> {
        self.held_stamp(client).or_else(|| self.waiting_stamp(client))
    }

    fn insert(&mut self, request: Request) {
        let place = self.waiting.partition_point(|r| *r < request);
        self.waiting.insert(place, request);
    }

    fn release(&mut self, client: u8, stamp: u64, replies: &mut Vec<ToClient>) {
        let finished = &mut self.finished[client as usize];
        *finished = stamp.max(*finished);
        if self.held_stamp(client).is_some_and(|held| held <= stamp) {
            self.held = None;
            self.inquiring = false;
            self.grant_front(replies);
        } else if self.waiting_stamp(client).is_some_and(|waits| waits <= stamp) {
            self.waiting.retain(|r| r.client != client);
        }
    }

    fn queue_behind(&mut self, grant: Grant, request: Request, replies: &mut Vec<ToClient>) {
        let former = self.waiting.first().copied();
        self.insert(request);
        let fail = ClientBody::Fail { stamp: request.stamp };
        if former.is_some_and(|former| former < request) {
            return self.reply(request.client, fail, replies);
        }
        if grant.request < request {
            self.reply(request.client, fail, replies);
        } else if !self.inquiring {
            self.reply(grant.request.client, ClientBody::Inquire { grant: grant.number }, replies);
            self.inquiring = true;
        }
        if let Some(former) = former {
            self.reply(former.client, ClientBody::Fail { stamp: former.stamp }, replies);
        }
    }

    fn admit(&mut self, request: Request, replies: &mut Vec<ToClient>) {
        match self.held {
            Some(grant) => self.queue_behind(grant, request, replies),
            None => {
                self.insert(request);
                self.grant_front(replies);
            }
        }
    }

    fn request(&mut self, request: Request, replies: &mut Vec<ToClient>) {
        let Request { stamp, client } = request;
        if stamp <= self.finished[client as usize] {
            return;
        }
        match self.standing(client) {
            None => self.admit(request, replies),
            Some(standing) if standing == stamp => {
                let body = match self.held {
                    Some(g) if g.request.client == client => ClientBody::Locked { stamp, grant: g.number },
                    _ => ClientBody::Fail { stamp },
                };
                self.reply(client, body, replies);
            }
            Some(standing) if standing < stamp => {
                self.release(client, standing, replies);
                self.admit(request, replies);
            }
            Some(_) => (),
        }
    }

    fn relinquish(&mut self, client: u8, grant: u64, replies: &mut Vec<ToClient>) {
        if let Some(held) = self.held.filter(|g| g.request.client == client && g.number == grant) {
            self.held = None;
            self.inquiring = false;
            self.insert(held.request);
            self.grant_front(replies);
        }
    }

    fn needs_grant(&self, message: &ToVoter) -> bool {
        let client = message.client;
        match message.body {
            VoterBody::Request { stamp } => {
                stamp > self.finished[client as usize]
                    && self.standing(client).map_or(true, |standing| standing < stamp)
                    && (self.held.is_none() || self.held_stamp(client).is_some())
            }
            VoterBody::Relinquish { grant } => {
                self.held.is_some_and(|g| g.request.client == client && g.number == grant)
            }
            VoterBody::Release { stamp } => {
                self.held_stamp(client).is_some_and(|held| held <= stamp) && !self.waiting.is_empty()
            }
        }
    }

    /// What to send to the holder again.
    pub fn remind(&self, replies: &mut Vec<ToClient>) {
        replies.clear();
        if let Some(Grant { request, number }) = self.held {
            self.reply(request.client, ClientBody::Locked { stamp: request.stamp, grant: number }, replies);
            if self.inquiring {
                self.reply(request.client, ClientBody::Inquire { grant: number }, replies);
            }
        }
    }

    /// Whether the message is taken.
    pub fn take(&mut self, message: &ToVoter, replies: &mut Vec<ToClient>) -> bool {
        replies.clear();
        if self.granted >= self.limit && self.needs_grant(message) {
            return false;
        }
        let client = message.client;
        match message.body {
            VoterBody::Request { stamp } => {
                self.seen = self.seen.max(stamp);
                self.request(Request { stamp, client }, replies);
            }
            VoterBody::Relinquish { grant } => self.relinquish(client, grant, replies),
            VoterBody::Release { stamp } => {
                self.seen = self.seen.max(stamp);
                self.release(client, stamp, replies);
            }
        }
        true
    }
}

#[derive(Clone, Copy, PartialEq)]
pub enum Phase {
    Idle,
    Asking,
    Inside,
}

/// A set of numbers below 64.
#[derive(Clone, Copy)]
pub struct Set(u64);

impl Set {
    fn has(&self, i: u8) -> bool {
        self.0 >> i & 1 == 1
    }

    fn insert(&mut self, i: u8) {
        self.0 |= 1 << i;
    }

    fn remove(&mut self, i: u8) {
        self.0 &= !(1 << i);
    }
}

pub struct Requester {
    id: u8,
    limit: u64,
    clock: u64,
    phase: Phase,
    stamp: u64,
    quorum: Vec<u8>,
    held: [u64; 64],
    last: [u64; 64],
    failed: Set,
    relinquished: Set,
    inquired: Set,
}

impl Requester {
    pub fn new(id: u8, limit: u64) -> Requester {
        Requester {
            id,
            limit,
            clock: 0,
            phase: Phase::Idle,
            stamp: 0,
            quorum: Vec::new(),
            held: [0; 64],
            last: [0; 64],
            failed: Set(0),
            relinquished: Set(0),
            inquired: Set(0),
        }
    }

    pub fn is_idle(&self) -> bool {
        self.phase == Phase::Idle
    }

    fn tell(&self, voter: u8, body: VoterBody, out: &mut Vec<ToVoter>) {
        out.push(ToVoter { client: self.id, voter, body });
    }

    fn tell_members(&self, body: VoterBody, out: &mut Vec<ToVoter>) {
        out.extend(self.quorum.iter().map(|&voter| ToVoter { client: self.id, voter, body }));
    }

    fn clear(&mut self) {
        self.held = [0; 64];
        self.failed = Set(0);
        self.relinquished = Set(0);
        self.inquired = Set(0);
    }

    /// Whether the client asks.
    pub fn ask(&mut self, quorum: &[u8], out: &mut Vec<ToVoter>) -> bool {
        out.clear();
        if self.phase != Phase::Idle || self.clock >= self.limit {
            return false;
        }
        self.clear();
        self.clock += 1;
        self.stamp = self.clock;
        self.phase = Phase::Asking;
        self.quorum.clear();
        self.quorum.extend_from_slice(quorum);
        self.tell_members(VoterBody::Request { stamp: self.stamp }, out);
        true
    }

    /// Whether the client leaves.
    pub fn leave(&mut self, out: &mut Vec<ToVoter>) -> bool {
        out.clear();
        if self.phase != Phase::Inside {
            return false;
        }
        self.tell_members(VoterBody::Release { stamp: self.stamp }, out);
        self.clear();
        self.phase = Phase::Idle;
        true
    }

    /// Whether the client gives up.
    pub fn give_up(&mut self, out: &mut Vec<ToVoter>) -> bool {
        out.clear();
        if self.phase != Phase::Asking {
            return false;
        }
        self.tell_members(VoterBody::Release { stamp: self.stamp }, out);
        self.clear();
        self.phase = Phase::Idle;
        true
    }

    /// Asks each member again whose vote is missing.
    pub fn remind(&self, out: &mut Vec<ToVoter>) {
        out.clear();
        if self.phase == Phase::Asking {
            for &voter in &self.quorum {
                let place = voter as usize;
                if self.held[place] == 0 {
                    if self.relinquished.has(voter) {
                        self.tell(voter, VoterBody::Relinquish { grant: self.last[place] }, out);
                    }
                    self.tell(voter, VoterBody::Request { stamp: self.stamp }, out);
                }
            }
        }
    }

    fn relinquish(&mut self, voter: u8, out: &mut Vec<ToVoter>) {
        let place = voter as usize;
        if self.held[place] > 0 {
            let grant = self.held[place];
            self.held[place] = 0;
            self.last[place] = grant;
            self.inquired.remove(voter);
            self.relinquished.insert(voter);
            self.tell(voter, VoterBody::Relinquish { grant }, out);
        }
    }

    fn locked(&mut self, voter: u8, stamp: u64, grant: u64, out: &mut Vec<ToVoter>) -> bool {
        if self.phase == Phase::Idle || stamp != self.stamp {
            self.tell(voter, VoterBody::Release { stamp }, out);
            return false;
        }
        let place = voter as usize;
        if !self.quorum.contains(&voter) || self.held[place] > 0 || grant <= self.last[place] {
            return false;
        }
        self.held[place] = grant;
        self.failed.remove(voter);
        self.relinquished.remove(voter);
        self.inquired.remove(voter);
        if !self.quorum.iter().all(|v| self.held[*v as usize] > 0) {
            return false;
        }
        self.phase = Phase::Inside;
        true
    }

    fn failed(&mut self, voter: u8, stamp: u64, out: &mut Vec<ToVoter>) {
        if self.phase == Phase::Asking
            && stamp == self.stamp
            && self.quorum.contains(&voter)
            && self.held[voter as usize] == 0
        {
            self.failed.insert(voter);
            for i in 0..self.quorum.len() {
                let member = self.quorum[i];
                if self.inquired.has(member) {
                    self.relinquish(member, out);
                }
            }
        }
    }

    fn inquired(&mut self, voter: u8, grant: u64, out: &mut Vec<ToVoter>) {
        if self.phase == Phase::Asking && grant > 0 && self.held[voter as usize] == grant {
            let hindered = |v: &u8| self.failed.has(*v) || self.relinquished.has(*v);
            if self.quorum.iter().any(hindered) {
                self.relinquish(voter, out);
            } else {
                self.inquired.insert(voter);
            }
        }
    }

    /// Whether the client enters.
    pub fn take(&mut self, message: &ToClient, out: &mut Vec<ToVoter>) -> bool {
        out.clear();
        self.clock = self.clock.max(message.seen);
        match message.body {
            ClientBody::Locked { stamp, grant } => return self.locked(message.voter, stamp, grant, out),
            ClientBody::Fail { stamp } => self.failed(message.voter, stamp, out),
            ClientBody::Inquire { grant } => self.inquired(message.voter, grant, out),
        }
        false
    }
}
