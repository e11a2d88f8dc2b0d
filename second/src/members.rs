//! Which members the refused actions named: the comparison must meet each member of five replicas as
//! the smallest with either fault.

use harness::layout::MOST_REPLICAS;

/// The numbers that name a member.
pub const NAMING: [u8; 2] = [48, 49];

/// For each number that names a member, how often each member was named.
#[derive(Default)]
pub struct Members {
    counts: [[u64; MOST_REPLICAS]; NAMING.len()],
}

impl Members {
    /// Counts what an action answered: the number, and 256 times the member.
    pub fn count(&mut self, answer: u32) {
        let (number, member) = ((answer % 256) as u8, (answer / 256) as usize);
        if let Some(which) = NAMING.iter().position(|naming| *naming == number) {
            self.counts[which][member] += 1;
        }
    }

    pub fn add(&mut self, other: &Members) {
        for (sums, counts) in self.counts.iter_mut().zip(other.counts) {
            for (sum, count) in sums.iter_mut().zip(counts) {
                *sum += count;
            }
        }
    }

    /// Prints the counts, and names each member that a number never named; answers whether there is
    /// none.
    pub fn all_named(&self) -> bool {
        let mut all = true;
        for (number, counts) in NAMING.iter().zip(self.counts) {
            let each: Vec<String> = (0..MOST_REPLICAS)
                .map(|member| format!("{}: {}", member, counts[member]))
                .collect();
            println!("members named by {}: {}", number, each.join(", "));
            for member in (0..MOST_REPLICAS).filter(|member| counts[*member] == 0) {
                println!("never named by {}: {}", number, member);
                all = false;
            }
        }
        all
    }
}
