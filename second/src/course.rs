//! Random runs: each grows by actions that are accepted in its present state.

use crate::answers;
use crate::layout::*;
use crate::random::Random;

/// What a stretch of a run is like.
#[derive(Clone, Copy)]
struct Stretch {
    /// How often each of the nine kinds is chosen.
    weights: [usize; 9],
    /// Requests are taken from all epochs, not mostly the newest.
    late: bool,
    /// Replicas that presume are seldom told of a new leader.
    unheard: bool,
    /// Presuming replicas behind the quorum's epoch write and advance first.
    stale: bool,
}

const STEADY: Stretch = Stretch {
    weights: [1, 1, 4, 6, 8, 3, 3, 8, 14],
    late: false,
    unheard: false,
    stale: false,
};
const FAIL_OVER: Stretch = Stretch {
    weights: [6, 8, 8, 8, 4, 2, 2, 4, 6],
    late: false,
    unheard: false,
    stale: false,
};
const TWO_LEADERS: Stretch = Stretch {
    weights: [2, 6, 10, 4, 8, 2, 2, 6, 8],
    late: false,
    unheard: true,
    stale: false,
};
const STALE_LEADER: Stretch = Stretch {
    weights: [1, 4, 6, 4, 14, 1, 1, 12, 10],
    late: true,
    unheard: true,
    stale: true,
};
const LATE_REQUESTS: Stretch = Stretch {
    weights: [2, 6, 6, 10, 6, 2, 2, 6, 10],
    late: true,
    unheard: false,
    stale: false,
};
const ISR_CHANGES: Stretch = Stretch {
    weights: [0, 1, 2, 3, 2, 30, 30, 1, 1],
    late: false,
    unheard: false,
    stale: false,
};
/// Followers catch up with a leader, whose ISR seldom changes. The controller rests.
const CATCHING_UP: Stretch = Stretch {
    weights: [0, 0, 4, 8, 6, 1, 2, 4, 16],
    late: false,
    unheard: false,
    stale: false,
};
/// The controller alone acts, and mostly elects.
const ELECTION: Stretch = Stretch {
    weights: [1, 9, 0, 0, 0, 0, 0, 0, 0],
    late: false,
    unheard: false,
    stale: false,
};

const STRETCHES: [Stretch; 6] = [
    STEADY,
    FAIL_OVER,
    TWO_LEADERS,
    STALE_LEADER,
    LATE_REQUESTS,
    ISR_CHANGES,
];

/// A number in a range, often at one of its ends.
pub fn edged(random: &mut Random, low: u8, high: u8) -> u8 {
    match random.below(6) {
        0 => low,
        1 => high,
        2 => high - u8::from(high > low),
        _ => random.within(low, high),
    }
}

/// R, L, M and X, small, large or anything; R is 1 in few.
pub fn configuration(random: &mut Random) -> [u8; 4] {
    let (least, most) = match random.below(4) {
        0 => ([1, 1, 1, 0], [3, 3, 4, 2]),
        1 => ([3, 8, 32, 8], [5, 16, 64, 15]),
        _ => ([2, 1, 1, 0], [5, 16, 64, 15]),
    };
    let mut drawn = [random.within(least[0], most[0]), 0, 0, 0];
    for i in 1..4 {
        drawn[i] = edged(random, least[i], most[i]);
    }
    drawn
}

/// A run as it grows, with the state that its accepted actions have led to.
pub struct Course {
    pub run: Vec<u8>,
    pub state: Flat,
    pub accepted: usize,
}

impl Course {
    pub fn begin(configuration: [u8; 4]) -> Course {
        let state = answers::fresh(configuration).unwrap_or([0; STATE]);
        Course {
            run: configuration_record(configuration).to_vec(),
            state,
            accepted: 0,
        }
    }

    /// Adds the action if it is accepted.
    fn try_action(&mut self, action: Action) -> bool {
        match answers::act(&self.state, action) {
            Ok(next) => {
                self.state = next;
                self.accepted += 1;
                self.run.extend_from_slice(&action_record(action));
                true
            }
            Err(_) => false,
        }
    }

    /// Adds one accepted action by the stretch, if one is soon found.
    fn likely(&mut self, random: &mut Random, stretch: &Stretch) -> bool {
        for _ in 0..24 {
            let kind = weighted(random, &stretch.weights);
            let operands = likely_operands(random, &self.state, kind, stretch);
            if self.try_action([kind, operands[0], operands[1], operands[2]]) {
                return true;
            }
        }
        false
    }

    /// Adds any accepted action, a controller shrink only where there is nothing else; false when
    /// there is none.
    fn any(&mut self, random: &mut Random) -> bool {
        let all = accepted_actions(&self.state);
        let shrinks = all.iter().filter(|action| action[0] == 0).count();
        let left = if shrinks < all.len() {
            &all[shrinks..]
        } else {
            &all[..]
        };
        !left.is_empty() && self.try_action(random.pick(left))
    }

    /// The stretch held back where the run has used up more than its share of epochs, ids or offsets.
    /// The last epoch goes to an election, and the controller leaves an ISR of two alone.
    fn paced(&self, stretch: &Stretch, actions: usize) -> Stretch {
        let mut held = *stretch;
        let ahead = |used: usize, of: u8| used * actions > self.accepted * usize::from(of);
        let epochs = self.state[X] + 1;
        let next = self.state[NEXT_EPOCH];
        if ahead(next.into(), epochs) {
            held.weights[0] = 0;
            held.weights[1] = 0;
        }
        if next + 1 >= epochs || self.state[QUORUM_ISR].count_ones() <= 2 {
            held.weights[0] = 0;
        }
        if ahead(self.state[NEXT_ID].into(), self.state[M]) {
            held.weights[4] = 1;
        }
        if ahead(self.greatest_hw().into(), self.state[L]) {
            held.weights[7] = 0;
        }
        held
    }

    fn greatest_hw(&self) -> u8 {
        let all = (0..usize::from(self.state[R])).map(|i| self.state[replica(i) + HW]);
        all.max().unwrap_or(0)
    }

    /// One change of the true leader's ISR, if there is one.
    fn change_isr(&mut self, random: &mut Random) -> bool {
        let leader = self.state[QUORUM_LEADER].saturating_sub(1);
        let count = usize::from(self.state[R]);
        let start = random.below(2 * count);
        for i in start..start + 2 * count {
            let (kind, other) = (5 + (i % 2) as u8, (i / 2 % count) as u8);
            if self.try_action([kind, leader, other, 0]) {
                return true;
            }
        }
        false
    }

    /// How many followers the true leader can take out of its ISR and back in, again and again.
    fn isr_changes(&self) -> usize {
        let named = self.state[QUORUM_LEADER];
        let leader = replica(usize::from(named.saturating_sub(1)));
        let behind = self.state[leader + EPOCH] != self.state[QUORUM_EPOCH];
        if named == 0 || behind || self.state[leader + LEADER] != named {
            return 0;
        }
        let waiting = |i: &usize| {
            let (at, end) = (replica(*i), self.state[replica(*i) + END]);
            self.state[at + LEADER] == named
                && end >= self.state[leader + HW]
                && end < self.state[leader + END]
        };
        (0..usize::from(self.state[R])).filter(waiting).count()
    }

    /// One accepted action by the stretch, held back; else a change of the ISR, else any.
    fn paced_step(
        &mut self,
        random: &mut Random,
        stretch: &Stretch,
        actions: usize,
        limited: usize,
    ) -> bool {
        let mut held = self.paced(stretch, actions);
        if actions > limited && self.isr_changes() == 1 {
            held.weights[8] = 0;
        }
        self.likely(random, &held) || self.change_isr(random) || self.any(random)
    }

    /// Goes back to an earlier number of accepted actions and the state there.
    fn back_to(&mut self, earlier: (usize, Flat)) {
        self.accepted = earlier.0;
        self.state = earlier.1;
        self.run.truncate(RECORD * (self.accepted + 1));
    }

    fn add_any(&mut self, action: Action) {
        self.run.extend_from_slice(&action_record(action));
    }
}

fn weighted(random: &mut Random, weights: &[usize; 9]) -> u8 {
    let mut left = random.below(weights.iter().sum());
    for (kind, &weight) in weights.iter().enumerate() {
        if left < weight {
            return kind as u8;
        }
        left -= weight;
    }
    0
}

/// Operands that have a fair chance of being accepted.
fn likely_operands(random: &mut Random, state: &Flat, kind: u8, stretch: &Stretch) -> [u8; 3] {
    let any = random.below(usize::from(state[R])) as u8;
    match kind {
        0 | 1 => [any, 0, 0],
        2 => [0, 0, likely_epoch(random, state, stretch)],
        3 => [
            listener(random, state, stretch),
            0,
            likely_epoch(random, state, stretch),
        ],
        4 | 7 => [presuming(random, state, stretch), 0, 0],
        5 | 6 => [state[QUORUM_LEADER].saturating_sub(1), any, 0],
        _ => [
            any,
            state[replica(usize::from(any)) + LEADER].saturating_sub(1),
            0,
        ],
    }
}

fn likely_epoch(random: &mut Random, state: &Flat, stretch: &Stretch) -> u8 {
    let sent = state[NEXT_EPOCH];
    if sent == 0 {
        0
    } else if stretch.late || random.one_in(4) {
        random.below(usize::from(sent)) as u8
    } else {
        sent - 1
    }
}

fn presumes(state: &Flat, i: usize) -> bool {
    usize::from(state[replica(i) + LEADER]) == i + 1
}

/// A replica that may hear of a request.
fn listener(random: &mut Random, state: &Flat, stretch: &Stretch) -> u8 {
    let any = random.below(usize::from(state[R]));
    if stretch.unheard && presumes(state, any) {
        random.below(usize::from(state[R])) as u8
    } else {
        any as u8
    }
}

/// A presuming replica, if there is one.
fn presuming(random: &mut Random, state: &Flat, stretch: &Stretch) -> u8 {
    let count = usize::from(state[R]);
    let start = random.below(count);
    let mut found = start;
    for step in 0..count {
        let i = (start + step) % count;
        if presumes(state, i) {
            found = i;
            if !stretch.stale || state[replica(i) + EPOCH] != state[QUORUM_EPOCH] {
                break;
            }
        }
    }
    found as u8
}

/// Every accepted action of a state.
pub fn accepted_actions(state: &Flat) -> Vec<Action> {
    let mut all = Vec::new();
    for kind in 0..9 {
        for action in actions_of_kind(state, kind) {
            if answers::act(state, action).is_ok() {
                all.push(action);
            }
        }
    }
    all
}

/// Every action of a kind with operands in range, by rising (a, b, e).
pub fn actions_of_kind(state: &Flat, kind: u8) -> Vec<Action> {
    let used = used(kind);
    let (r, epochs) = (state[R], state[X] + 1);
    let mut all = Vec::new();
    for a in 0..if used[0] { r } else { 1 } {
        for b in 0..if used[1] { r } else { 1 } {
            for e in 0..if used[2] { epochs } else { 1 } {
                all.push([kind, a, b, e]);
            }
        }
    }
    all
}

/// Any action: of a known kind with likely operands, or with operands in range or just past it, or
/// of an unknown kind.
pub fn any_action(random: &mut Random, state: &Flat) -> Action {
    if (1..=5).contains(&state[R]) && random.one_in(2) {
        let (kind, stretch) = (random.within(0, 8), random.pick(&STRETCHES));
        let operands = likely_operands(random, state, kind, &stretch);
        return [kind, operands[0], operands[1], operands[2]];
    }
    let kind = if random.one_in(12) {
        random.pick(&[9, 10, 128, 255])
    } else {
        random.within(0, 8)
    };
    let mut action = [kind, 0, 0, 0];
    let used = used(kind);
    for i in 0..3 {
        let top = if i == 2 {
            state[X].saturating_add(1)
        } else {
            state[R]
        };
        if used[i] || random.one_in(20) {
            action[i + 1] = random.within(0, top);
        }
        if random.one_in(40) {
            action[i + 1] = random.byte();
        }
    }
    action
}

/// A run of about so many actions, of any configuration.
pub fn run(random: &mut Random, actions: usize) -> Vec<u8> {
    let configuration = configuration(random);
    run_of(random, configuration, actions)
}

/// A run of about so many actions; nearly all are accepted, in many runs all.
pub fn run_of(random: &mut Random, configuration: [u8; 4], actions: usize) -> Vec<u8> {
    let mut course = Course::begin(configuration);
    let (risky, paced) = (random.one_in(3), !random.one_in(3));
    let mut stretch = random.pick(&STRETCHES);
    while course.accepted < actions {
        if random.one_in(25) {
            stretch = random.pick(&STRETCHES);
        }
        let held = if paced {
            course.paced(&stretch, actions)
        } else {
            stretch
        };
        if risky && random.one_in(30) {
            let action = any_action(random, &course.state);
            if !course.try_action(action) {
                return refused_at(random, course, action);
            }
        } else if !course.likely(random, &held) && !course.any(random) {
            break;
        }
    }
    if random.one_in(3) {
        let action = refused_action(random, &course.state);
        return refused_at(random, course, action);
    }
    course.run
}

/// Adds a refused action and, in half of the runs, more records after it.
fn refused_at(random: &mut Random, mut course: Course, action: Action) -> Vec<u8> {
    course.add_any(action);
    if random.one_in(2) {
        for _ in 0..random.below(8) {
            let after = any_action(random, &course.state);
            course.add_any(after);
        }
    }
    course.run
}

/// A plausible action that is refused, if one is soon found: a request heard twice, a leader that
/// has lost the quorum, a follower already at its leader's end.
fn refused_action(random: &mut Random, state: &Flat) -> Action {
    for _ in 0..20 {
        let kind = random.within(0, 8);
        let operands = likely_operands(random, state, kind, &LATE_REQUESTS);
        let action = [kind, operands[0], operands[1], operands[2]];
        if answers::act(state, action).is_err() {
            return action;
        }
    }
    [255, 0, 0, 0]
}

/// A run of exactly so many actions, all accepted; R is at least 2. What a run can use up (epochs,
/// ids, room in logs) is spread over its length, with changes of a leader's ISR in between. Where
/// no action is left, it goes back to where the ISR could change, and there changes it for a while.
pub fn accepted_run(random: &mut Random, configuration: [u8; 4], actions: usize) -> Course {
    let [r, l, _, x] = configuration;
    let limited = usize::from(r) * usize::from(l) * usize::from(x + 1) / 3;
    let mut course = Course::begin(configuration);
    let (mut rest, mut resting) = ((0, course.state), 0);
    let mut stretch = STEADY;
    while course.accepted < actions {
        if random.one_in(25) {
            stretch = random.pick(&STRETCHES);
        }
        if course.isr_changes() > 0 {
            rest = (course.accepted, course.state);
        }
        let change_isr = course.accepted < resting || random.below(actions) >= limited;
        let changed = change_isr && course.change_isr(random);
        if !changed && !course.paced_step(random, &stretch, actions, limited) {
            course.back_to(rest);
            resting = (rest.0 + actions) / 2 + 1;
        }
    }
    course
}

/// A run whose leader takes a follower out of its ISR and back again, to a given number of actions.
/// The follower is short of the leader's end and has all below its hw, so each is accepted.
pub fn isr_changes_run(random: &mut Random, configuration: [u8; 4], actions: usize) -> Course {
    let mut course = Course::begin(configuration);
    let leader = random.within(0, configuration[0] - 1);
    course.try_action([1, leader, 0, 0]);
    course.try_action([2, 0, 0, 0]);
    for a in 0..configuration[0] {
        course.try_action([3, a, 0, 0]);
    }
    course.try_action([4, leader, 0, 0]);
    while course.accepted < actions {
        let other = random.within(0, configuration[0] - 1);
        let kind = random.within(5, 6);
        course.try_action([kind, leader, other, 0]);
    }
    course
}

/// A run of accepted actions in which few change an ISR, of so many actions, or fewer where the
/// epochs are used up before. With each new leader the followers lose what lies above their hw and
/// replicate anew, so hws are kept low: then an epoch gives each follower much to replicate.
pub fn catching_up_run(random: &mut Random, configuration: [u8; 4], actions: usize) -> Course {
    let mut course = Course::begin(configuration);
    while course.accepted < actions {
        let (next, epochs) = (course.state[NEXT_EPOCH], course.state[X] + 1);
        let due = usize::from(next) * actions <= course.accepted * usize::from(epochs);
        let mut stretch = CATCHING_UP;
        if course.greatest_hw() > next / 2 {
            stretch.weights[7] = 0;
        }
        let elected = due && course.likely(random, &ELECTION);
        if !elected && !course.likely(random, &stretch) && !course.likely(random, &ELECTION) {
            break;
        }
    }
    course
}

/// How many actions a random run has: mostly few.
pub fn run_length(random: &mut Random) -> usize {
    match random.below(20) {
        0 => random.below(8),
        1 => 200 + random.below(400),
        2..=5 => 60 + random.below(140),
        _ => 20 + random.below(40),
    }
}
