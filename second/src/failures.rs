//! By which kinds of actions weak ISR and strong ISR first fail in the drawn runs. After an action
//! a judge may ask only about what that kind can have changed, so each kind must be seen to count.

use harness::answers::Verdict;
use harness::layout::RECORD;

const KINDS: usize = 9;
/// The kinds by which weak ISR, and strong ISR, can first fail in a run.
const BREAKING: [usize; 4] = [2, 3, 6, 7];

/// For each kind, in how many runs the property first failed by an action of that kind.
#[derive(Default)]
pub struct Failures {
    weak: [u64; KINDS],
    strong: [u64; KINDS],
}

impl Failures {
    /// Counts a run with its verdict.
    pub fn count(&mut self, run: &[u8], verdict: &Verdict) {
        count_first(&mut self.weak, run, verdict.weak);
        count_first(&mut self.strong, run, verdict.strong);
    }

    pub fn add(&mut self, other: &Failures) {
        for kind in 0..KINDS {
            self.weak[kind] += other.weak[kind];
            self.strong[kind] += other.strong[kind];
        }
    }

    /// In how many runs weak ISR failed, and strong ISR.
    pub fn totals(&self) -> (u64, u64) {
        (self.weak.iter().sum(), self.strong.iter().sum())
    }

    /// The counts as a line.
    pub fn line(&self) -> String {
        format!(
            "weak first failed by kind {}; strong first failed by kind {}",
            listed(&self.weak),
            listed(&self.strong)
        )
    }

    /// Whether each property first failed by every kind that can break it and by no other.
    pub fn by_all_kinds(&self) -> bool {
        let weak = as_expected("weak", &self.weak);
        let strong = as_expected("strong", &self.strong);
        if weak && strong {
            println!(
                "weak and strong first failed by each of the kinds {:?} and by no other",
                BREAKING
            );
        }
        weak && strong
    }
}

/// `failed` is how many actions were accepted when the property first failed, 0 if it never did.
fn count_first(counts: &mut [u64; KINDS], run: &[u8], failed: u32) {
    if failed > 0 {
        let kind = run[RECORD * failed as usize + 2];
        counts[usize::from(kind)] += 1;
    }
}

/// The counts of the kinds that can break a property, and of any other that is not 0.
fn listed(counts: &[u64; KINDS]) -> String {
    let shown = (0..KINDS).filter(|kind| BREAKING.contains(kind) || counts[*kind] > 0);
    let parts: Vec<String> = shown
        .map(|kind| format!("{}: {}", kind, counts[kind]))
        .collect();
    parts.join(", ")
}

fn as_expected(name: &str, counts: &[u64; KINDS]) -> bool {
    let (breaking, other): (Vec<usize>, Vec<usize>) =
        (0..KINDS).partition(|kind| BREAKING.contains(kind));
    let never: Vec<usize> = breaking.into_iter().filter(|k| counts[*k] == 0).collect();
    let wrongly: Vec<usize> = other.into_iter().filter(|k| counts[*k] > 0).collect();
    if !never.is_empty() {
        println!("{} never first failed by the kinds {:?}", name, never);
    }
    if !wrongly.is_empty() {
        println!(
            "{} first failed by kinds that cannot break it: {:?}",
            name, wrongly
        );
    }
    never.is_empty() && wrongly.is_empty()
}
