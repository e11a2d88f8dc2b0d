//! The state of one partition, its rules S1 to S7, and its flat form.

pub const MOST_REPLICAS: usize = 5;
pub const MOST_RECORDS: usize = 16;
pub const MOST_REQUESTS: usize = 16;
pub const MOST_IDS: usize = 64;
pub const FLAT_SIZE: usize = 226;

/// A record of a log.
#[derive(Clone, Copy, PartialEq, Eq, Debug)]
pub struct Record {
    pub id: u8,
    pub epoch: i8,
}

/// A leader and ISR request; its epoch is its place in the state's row of requests.
#[derive(Clone, Copy, PartialEq, Eq, Debug)]
pub struct Request {
    pub leader: Option<u8>,
    pub isr: u8,
}

/// The quorum's epoch, leader and ISR.
#[derive(Clone, Copy, PartialEq, Eq, Debug)]
pub struct Quorum {
    pub epoch: i8,
    pub leader: Option<u8>,
    pub isr: u8,
}

/// One replica with its log; `end` is how many records the log holds.
#[derive(Clone, Copy, PartialEq, Eq, Debug)]
pub struct Replica {
    pub hw: u8,
    pub epoch: i8,
    pub leader: Option<u8>,
    pub isr: u8,
    pub end: u8,
    pub records: [Record; MOST_RECORDS],
}

/// The whole state. `==` compares the unused room too; `same` ignores it.
#[derive(Clone, Copy, PartialEq, Eq, Debug)]
pub struct State {
    pub replica_count: u8,
    pub log_size: u8,
    pub id_count: u8,
    pub max_epoch: u8,
    pub next_epoch: u8,
    pub next_id: u8,
    pub quorum: Quorum,
    pub requests: [Request; MOST_REQUESTS],
    pub replicas: [Replica; MOST_REPLICAS],
}

const ZERO_RECORD: Record = Record { id: 0, epoch: 0 };
const ZERO_REQUEST: Request = Request {
    leader: None,
    isr: 0,
};
const ZERO_REPLICA: Replica = Replica {
    hw: 0,
    epoch: 0,
    leader: None,
    isr: 0,
    end: 0,
    records: [ZERO_RECORD; MOST_RECORDS],
};

/// A state rule: whether a state keeps it.
type Rule = fn(&State) -> bool;

/// The state rules in their order, each with the number that refuses a state that breaks it.
const RULES: [(u8, Rule); 7] = [
    (41, State::rule_1),
    (42, State::rule_2),
    (43, State::rule_3),
    (44, State::rule_4),
    (45, State::rule_5),
    (46, State::rule_6),
    (47, State::rule_7),
];

/// Whether the ISR has the replica.
pub fn in_isr(isr: u8, replica: u8) -> bool {
    replica < 8 && isr & (1 << replica) != 0
}

/// Whether the leader is none or in the ISR.
fn none_or_in_isr(leader: Option<u8>, isr: u8) -> bool {
    match leader {
        None => true,
        Some(replica) => in_isr(isr, replica),
    }
}

/// Whether R, L, M and X are in range.
fn in_range(r: u8, l: u8, m: u8, x: u8) -> bool {
    (1..=5).contains(&r) && (1..=16).contains(&l) && (1..=64).contains(&m) && x <= 15
}

impl Replica {
    /// The records that the log holds. The end must be in range.
    pub fn log(&self) -> &[Record] {
        &self.records[..self.end as usize]
    }
}

impl State {
    /// The state of zeros alone.
    pub fn zero() -> State {
        State {
            replica_count: 0,
            log_size: 0,
            id_count: 0,
            max_epoch: 0,
            next_epoch: 0,
            next_id: 0,
            quorum: Quorum {
                epoch: 0,
                leader: None,
                isr: 0,
            },
            requests: [ZERO_REQUEST; MOST_REQUESTS],
            replicas: [ZERO_REPLICA; MOST_REPLICAS],
        }
    }

    /// The fresh state for R, L, M and X, or 22.
    pub fn fresh(r: u8, l: u8, m: u8, x: u8) -> Result<State, u8> {
        if !in_range(r, l, m, x) {
            return Err(22);
        }
        let mut state = State::zero();
        state.replica_count = r;
        state.log_size = l;
        state.id_count = m;
        state.max_epoch = x;
        state.quorum.epoch = -1;
        state.quorum.isr = state.full_isr();
        for replica in state.replicas[..r as usize].iter_mut() {
            replica.epoch = -1;
        }
        Ok(state)
    }

    /// The replicas in use. R must be in range.
    pub fn used_replicas(&self) -> &[Replica] {
        &self.replicas[..self.replica_count as usize]
    }

    /// The requests sent. Next epoch must be in range.
    pub fn used_requests(&self) -> &[Request] {
        &self.requests[..self.next_epoch as usize]
    }

    /// The ISR of all replicas. R must be in range.
    pub fn full_isr(&self) -> u8 {
        (1 << self.replica_count) - 1
    }

    /// Whether the replica's own leader is itself. The replica must be below R.
    pub fn presumes(&self, replica: u8) -> bool {
        self.replicas[replica as usize].leader == Some(replica)
    }

    /// Puts zeros past each log's end, past R and past the requests sent.
    pub fn tidy(&mut self) {
        for request in self.requests.iter_mut().skip(self.next_epoch as usize) {
            *request = ZERO_REQUEST;
        }
        for replica in self.replicas.iter_mut().skip(self.replica_count as usize) {
            *replica = ZERO_REPLICA;
        }
        for replica in self.replicas.iter_mut() {
            for record in replica.records.iter_mut().skip(replica.end as usize) {
                *record = ZERO_RECORD;
            }
        }
    }

    /// A copy with zeros in the unused room.
    pub fn tidied(&self) -> State {
        let mut state = *self;
        state.tidy();
        state
    }

    /// Whether both are the same state; the unused room does not count.
    pub fn same(&self, other: &State) -> bool {
        self.tidied() == other.tidied()
    }

    /// The number of the first state rule that is broken, or 0 if all hold.
    /// Each rule is tested only where those before it hold.
    pub fn broken_rule(&self) -> u8 {
        for (number, holds) in RULES {
            if !holds(self) {
                return number;
            }
        }
        0
    }

    /// Refuses a state that breaks a rule, by the number of the first one.
    pub fn check(&self) -> Result<(), u8> {
        match self.broken_rule() {
            0 => Ok(()),
            number => Err(number),
        }
    }

    /// S1: R, L, M, X, next epoch and next id are in range.
    fn rule_1(&self) -> bool {
        in_range(
            self.replica_count,
            self.log_size,
            self.id_count,
            self.max_epoch,
        ) && self.next_epoch <= self.max_epoch + 1
            && self.next_id <= self.id_count
    }

    /// S2: ends, leaders and ISRs are in range.
    fn rule_2(&self) -> bool {
        if !self.names_replicas(self.quorum.leader, self.quorum.isr) {
            return false;
        }
        for request in self.used_requests() {
            if !self.names_replicas(request.leader, request.isr) {
                return false;
            }
        }
        for replica in self.used_replicas() {
            if replica.end > self.log_size || !self.names_replicas(replica.leader, replica.isr) {
                return false;
            }
        }
        true
    }

    /// Whether the leader is none or below R and the ISR is within the replicas.
    fn names_replicas(&self, leader: Option<u8>, isr: u8) -> bool {
        let leader_fits = match leader {
            None => true,
            Some(replica) => replica < self.replica_count,
        };
        leader_fits && isr & !self.full_isr() == 0
    }

    /// S3: the quorum agrees with the next epoch and the last request.
    fn rule_3(&self) -> bool {
        if self.quorum.epoch != self.last_epoch() {
            return false;
        }
        match self.used_requests().last() {
            None => self.quorum.leader.is_none() && self.quorum.isr == self.full_isr(),
            Some(request) => self.quorum.leader == request.leader,
        }
    }

    /// Next epoch minus 1. Next epoch must be in range.
    fn last_epoch(&self) -> i8 {
        self.next_epoch as i8 - 1
    }

    /// S4: in the quorum and in each request the leader is none or in the ISR.
    fn rule_4(&self) -> bool {
        if !none_or_in_isr(self.quorum.leader, self.quorum.isr) {
            return false;
        }
        for request in self.used_requests() {
            if !none_or_in_isr(request.leader, request.isr) {
                return false;
            }
        }
        true
    }

    /// S5: each replica agrees with its epoch's request, and its hw with its log.
    fn rule_5(&self) -> bool {
        for i in 0..self.replica_count {
            let replica = &self.replicas[i as usize];
            if !self.follows_its_request(replica) {
                return false;
            }
            if self.presumes(i) && !in_isr(replica.isr, i) {
                return false;
            }
            if replica.hw > replica.end {
                return false;
            }
        }
        true
    }

    /// Whether the epoch is in range and the leader is that of the epoch's request.
    fn follows_its_request(&self, replica: &Replica) -> bool {
        if replica.epoch < -1 || replica.epoch > self.last_epoch() {
            return false;
        }
        if replica.epoch == -1 {
            return replica.leader.is_none() && replica.isr == 0;
        }
        replica.leader == self.requests[replica.epoch as usize].leader
    }

    /// S6: each record's id is below next id, its epoch from 0 to next epoch minus 1.
    fn rule_6(&self) -> bool {
        for replica in self.used_replicas() {
            for record in replica.log() {
                if record.id >= self.next_id {
                    return false;
                }
                if record.epoch < 0 || record.epoch > self.last_epoch() {
                    return false;
                }
            }
        }
        true
    }

    /// S7: records with one id stand at one offset and carry one epoch. So one log
    /// cannot hold an id twice. Ids are below 64 by S1 and S6.
    fn rule_7(&self) -> bool {
        let mut seen: [Option<(u8, i8)>; MOST_IDS] = [None; MOST_IDS];
        for replica in self.used_replicas() {
            for (offset, record) in replica.log().iter().enumerate() {
                let here = Some((offset as u8, record.epoch));
                let first = &mut seen[record.id as usize];
                if first.is_none() {
                    *first = here;
                } else if *first != here {
                    return false;
                }
            }
        }
        true
    }

    /// The state of 226 flat bytes; every such row of bytes is some state.
    pub fn from_flat(bytes: &[u8; FLAT_SIZE]) -> State {
        let mut state = State::zero();
        state.replica_count = bytes[0];
        state.log_size = bytes[1];
        state.id_count = bytes[2];
        state.max_epoch = bytes[3];
        state.next_epoch = bytes[4];
        state.next_id = bytes[5];
        state.quorum.epoch = bytes[6] as i8;
        state.quorum.leader = leader_from_flat(bytes[7]);
        state.quorum.isr = bytes[8];
        let mut at = 9;
        for request in state.requests.iter_mut() {
            request.leader = leader_from_flat(bytes[at]);
            request.isr = bytes[at + 1];
            at += 2;
        }
        for replica in state.replicas.iter_mut() {
            replica.hw = bytes[at];
            replica.epoch = bytes[at + 1] as i8;
            replica.leader = leader_from_flat(bytes[at + 2]);
            replica.isr = bytes[at + 3];
            replica.end = bytes[at + 4];
            at += 5;
            for record in replica.records.iter_mut() {
                record.id = bytes[at];
                record.epoch = bytes[at + 1] as i8;
                at += 2;
            }
        }
        state
    }

    /// The 226 flat bytes of the state, its unused room included.
    pub fn to_flat(&self) -> [u8; FLAT_SIZE] {
        let mut bytes = [0; FLAT_SIZE];
        bytes[0] = self.replica_count;
        bytes[1] = self.log_size;
        bytes[2] = self.id_count;
        bytes[3] = self.max_epoch;
        bytes[4] = self.next_epoch;
        bytes[5] = self.next_id;
        bytes[6] = self.quorum.epoch as u8;
        bytes[7] = leader_to_flat(self.quorum.leader);
        bytes[8] = self.quorum.isr;
        let mut at = 9;
        for request in self.requests.iter() {
            bytes[at] = leader_to_flat(request.leader);
            bytes[at + 1] = request.isr;
            at += 2;
        }
        for replica in self.replicas.iter() {
            bytes[at] = replica.hw;
            bytes[at + 1] = replica.epoch as u8;
            bytes[at + 2] = leader_to_flat(replica.leader);
            bytes[at + 3] = replica.isr;
            bytes[at + 4] = replica.end;
            at += 5;
            for record in replica.records.iter() {
                bytes[at] = record.id;
                bytes[at + 1] = record.epoch as u8;
                at += 2;
            }
        }
        bytes
    }
}

/// A flat leader byte is 0 for none and i + 1 for replica i.
fn leader_from_flat(byte: u8) -> Option<u8> {
    if byte == 0 {
        None
    } else {
        Some(byte - 1)
    }
}

/// The byte of a leader. Replica 255 has no byte of its own and no byte gives it;
/// it is written as replica 254, which is out of range as well.
fn leader_to_flat(leader: Option<u8>) -> u8 {
    match leader {
        None => 0,
        Some(replica) => replica.saturating_add(1),
    }
}
