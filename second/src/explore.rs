//! Every reachable state of small clusters, breadth first, each with every action of the operand
//! ranges and just past them. Then every accepted action again, as the last of a run that is judged.
//! No buffer is too short here, so that every answer is compared.

use crate::both::Both;
use crate::classes::every_question;
use crate::properties;
use harness::answers::{self, Verdict};
use harness::course;
use harness::layout::*;
use std::collections::{HashSet, VecDeque};

/// A cluster's R, L, M and X, and whether one state stands for all its renamings.
struct Cluster {
    configuration: [u8; 4],
    up_to_renaming: bool,
}

const fn whole(r: u8, l: u8, m: u8, x: u8) -> Cluster {
    Cluster {
        configuration: [r, l, m, x],
        up_to_renaming: false,
    }
}

const fn up_to_renaming(r: u8, l: u8, m: u8, x: u8) -> Cluster {
    Cluster {
        configuration: [r, l, m, x],
        up_to_renaming: true,
    }
}

const ALWAYS: [Cluster; 7] = [
    whole(2, 2, 2, 1),
    whole(3, 1, 1, 1),
    whole(2, 2, 2, 2),
    whole(2, 3, 3, 1),
    whole(4, 1, 1, 0),
    up_to_renaming(3, 2, 2, 1),
    up_to_renaming(5, 1, 1, 0),
];
/// Larger ones, for a scale above 1.
const SCALED: [Cluster; 4] = [
    JUDGED,
    whole(3, 2, 2, 1),
    whole(3, 1, 1, 2),
    up_to_renaming(4, 1, 1, 1),
];
/// Judged at every scale: in its runs weak ISR and strong ISR were each seen to fail first by all the
/// kinds that can break them, 2, 3, 6 and 7.
const JUDGED: Cluster = whole(2, 2, 2, 3);

pub fn explore(both: &mut Both, scale: usize) -> String {
    both.short_buffers = false;
    let (explored, judged) = if scale > 1 {
        (&SCALED[..], &SCALED[..])
    } else {
        (&[][..], &[JUDGED][..])
    };
    let mut line = String::from("explored");
    for cluster in ALWAYS.iter().chain(explored) {
        let (states, accepted) = explore_cluster(both, cluster);
        line += &format!(
            " ({}: states {}, accepted actions {})",
            cluster.name(),
            states,
            accepted
        );
    }
    line + &judge_clusters(both, ALWAYS.iter().chain(judged))
}

impl Cluster {
    fn name(&self) -> String {
        let [r, l, m, x] = self.configuration;
        let how = if self.up_to_renaming {
            " up to renaming"
        } else {
            ""
        };
        format!("R {} L {} M {} X {}{}", r, l, m, x, how)
    }
}

fn explore_cluster(both: &mut Both, cluster: &Cluster) -> (usize, u64) {
    let mut seen: HashSet<Flat> = HashSet::new();
    let mut queue: VecDeque<Flat> = VecDeque::new();
    let mut accepted = 0;
    if let Ok(first) = answers::fresh(cluster.configuration) {
        seen.insert(first);
        queue.push_back(first);
    }
    let actions = all_actions(cluster.configuration);
    while let Some(state) = queue.pop_front() {
        questions_and_renamings(both, &state);
        for &action in &actions {
            if let Some(next) = compared_act(both, &state, action) {
                accepted += 1;
                if seen.insert(standing_for(&next, cluster)) {
                    queue.push_back(next);
                }
            }
        }
    }
    (seen.len(), accepted)
}

/// A state and its past, which is what later verdicts take from the run before it, beside the
/// number of actions: whether weak ISR has failed, whether strong ISR has, and what was exposed.
type WithPast = (Flat, bool, bool, u32);

fn with_past(verdict: &Verdict, cluster: &Cluster) -> WithPast {
    let state = standing_for(&verdict.state, cluster);
    let (weak, strong) = (verdict.weak > 0, verdict.strong > 0);
    (state, weak, strong, verdict.exposed)
}

/// Judges runs of each cluster; answers the counts, and the number of all runs.
fn judge_clusters<'a>(both: &mut Both, clusters: impl Iterator<Item = &'a Cluster>) -> String {
    let (mut line, mut all) = (String::new(), 0);
    for cluster in clusters {
        let (states, runs) = judge_cluster(both, cluster);
        line += &format!(
            " ({}: states with pasts {}, runs {})",
            cluster.name(),
            states,
            runs
        );
        all += runs;
    }
    format!("; runs judged {}{}", all, line)
}

/// Takes every reachable state with each past that it can have, and judges the run that first led
/// to them, with each accepted action at its end. The pasts matter: after a property failed it is
/// not asked again. Answers how many states with pasts there are, and how many runs were judged.
fn judge_cluster(both: &mut Both, cluster: &Cluster) -> (usize, u64) {
    let mut seen: HashSet<WithPast> = HashSet::new();
    let mut queue: VecDeque<(Flat, Vec<u8>)> = VecDeque::new();
    let mut judged = 0;
    let first = configuration_record(cluster.configuration).to_vec();
    let verdict = both.judge(&first);
    seen.insert(with_past(&verdict, cluster));
    queue.push_back((verdict.state, first));
    while let Some((state, run)) = queue.pop_front() {
        for action in course::accepted_actions(&state) {
            let longer = [&run[..], &action_record(action)].concat();
            let verdict = both.judge(&longer);
            judged += 1;
            if seen.insert(with_past(&verdict, cluster)) {
                queue.push_back((verdict.state, longer));
            }
        }
    }
    (seen.len(), judged)
}

/// The state under which a state is remembered.
fn standing_for(state: &Flat, cluster: &Cluster) -> Flat {
    if cluster.up_to_renaming {
        answers::representative(state).unwrap_or(*state)
    } else {
        *state
    }
}

/// Kinds 0 to 9 and 255, each operand from 0 to just past both ranges.
pub fn all_actions(c: [u8; 4]) -> Vec<Action> {
    let top = c[0].max(c[3] + 1);
    let mut all = Vec::new();
    for kind in (0..=9).chain([255]) {
        let count = usize::from(top) + 1;
        for i in 0..count * count * count {
            let operand = |place: usize| (i / place % count) as u8;
            all.push([kind, operand(count * count), operand(count), operand(1)]);
        }
    }
    all
}

/// The action through both; the next state where it is accepted.
fn compared_act(both: &mut Both, state: &Flat, action: Action) -> Option<Flat> {
    if both.act(state, action) != 0 {
        return None;
    }
    answers::act(state, action).ok()
}

fn questions_and_renamings(both: &mut Both, state: &Flat) {
    every_question(both, state, &[0, 1, 2, 3, 4]);
    for places in renamings(state[R]) {
        both.rename(state, &places);
    }
    properties::of_state(both, state);
}
