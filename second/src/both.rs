//! One question put to both implementations. What is returned (the number, of an action with the
//! member named, of an image with its length) and the whole buffer afterwards must be equal. The
//! buffer is lent with random bytes in it, at a random length, inside a larger room, so that a byte
//! written past its end shows too.

use crate::failures::Failures;
use crate::members::Members;
use harness::answers::{self, Verdict};
use harness::layout::{Action, LONGEST_IMAGE, STATE, VERDICT};
use harness::random::Random;
use second::flat;
use second::printed::hex;
use std::cell::Cell;
use std::process::exit;

const MARGIN: usize = 16;
const ROOM: usize = 336;
const LONGER: usize = ROOM - 2 * MARGIN - VERDICT;
/// How many random bytes are drawn beforehand; a buffer gets some stretch of them.
const NOISE: usize = 1 << 16;
const MOST_DIFFERENCES: u64 = 20;

type Named<'a> = (&'a str, &'a [u8]);
type Ask<'a> = &'a dyn Fn(&mut [u8]) -> u32;

pub struct Both {
    pub random: Random,
    noise: Vec<u8>,
    /// Whether a buffer may be too short for the answer, which then is not compared.
    pub short_buffers: bool,
    /// Questions put to both.
    pub compared: u64,
    /// Of these, single actions.
    pub actions: u64,
    /// Properties tested of the second implementation alone.
    pub tested: u64,
    pub differences: u64,
    /// How often each number was answered, verdicts' refusals included.
    pub met: [u64; 256],
    /// Which members refused actions named.
    pub members: Members,
    /// By which kinds of actions weak and strong ISR first failed in random runs.
    pub failures: Failures,
}

impl Both {
    pub fn new(mut random: Random) -> Both {
        let mut noise = vec![0; NOISE];
        random.fill(&mut noise);
        Both {
            random,
            noise,
            short_buffers: true,
            compared: 0,
            actions: 0,
            tested: 0,
            differences: 0,
            met: [0; 256],
            members: Members::default(),
            failures: Failures::default(),
        }
    }

    /// Adds up another's counts.
    pub fn add(&mut self, other: &Both) {
        self.compared += other.compared;
        self.actions += other.actions;
        self.tested += other.tested;
        self.differences += other.differences;
        for (sum, count) in self.met.iter_mut().zip(other.met) {
            *sum += count;
        }
        self.members.add(&other.members);
        self.failures.add(&other.failures);
    }

    /// A length for the buffer: exact, longer, now and then shorter or 0 where that may be.
    fn length(&mut self, exact: usize) -> usize {
        let short = self.short_buffers;
        match self.random.below(32) {
            0 if short => 0,
            1 if short => exact - 1,
            2 if short => self.random.below(exact),
            3..=15 => exact,
            _ => exact + self.random.below(LONGER + 1),
        }
    }

    fn ask(&mut self, name: &str, inputs: &[Named], exact: usize, ask: [Ask; 2]) -> u32 {
        let length = self.length(exact);
        self.ask_into(name, inputs, length, ask)
    }

    /// Asks with a buffer of this length.
    fn ask_into(&mut self, name: &str, inputs: &[Named], length: usize, ask: [Ask; 2]) -> u32 {
        let start = self.random.below(NOISE - ROOM + 1);
        let mut before = [0; ROOM];
        before.copy_from_slice(&self.noise[start..start + ROOM]);
        let (mut left, mut right) = (before, before);
        let lent = MARGIN..MARGIN + length;
        let proved = ask[0](&mut left[lent.clone()]);
        let second = ask[1](&mut right[lent]);
        self.compared += 1;
        self.met[(second % 256) as usize] += 1;
        if proved != second || left != right {
            println!("difference: {}", name);
            print_inputs(inputs);
            println!(
                "  buffer   {} bytes, then room: {}",
                length,
                hex(&before[MARGIN..])
            );
            println!("  proved   {} {}", proved, hex(&left[MARGIN..]));
            println!("  second   {} {}", second, hex(&right[MARGIN..]));
            if left[..MARGIN] != before[..MARGIN] {
                println!("  bytes before the buffer were written");
            }
            self.count_difference();
        }
        second
    }

    fn count_difference(&mut self) {
        self.differences += 1;
        if self.differences >= MOST_DIFFERENCES {
            println!("compare: stopped at {} differences", self.differences);
            exit(1);
        }
    }

    /// A property of the second implementation alone.
    pub fn property(&mut self, name: &str, holds: bool, inputs: &[Named]) {
        self.tested += 1;
        if !holds {
            println!("property fails: {}", name);
            print_inputs(inputs);
            self.count_difference();
        }
    }

    pub fn fresh(&mut self, r: u8, l: u8, m: u8, x: u8) -> u32 {
        self.ask(
            "fresh",
            &[("r l m x", &[r, l, m, x])],
            STATE,
            [&|out| proved::fresh(r, l, m, x, out).into(), &|out| {
                flat::fresh(r, l, m, x, out).into()
            }],
        )
    }

    pub fn act(&mut self, state: &[u8], action: Action) -> u32 {
        self.actions += 1;
        let [kind, a, b, e] = action;
        let answer = self.ask(
            "act",
            &[("state", state), ("kind a b e", &action)],
            STATE,
            [&|out| proved::act(state, kind, a, b, e, out), &|out| {
                flat::act(state, kind, a, b, e, out)
            }],
        );
        self.members.count(answer);
        answer
    }

    pub fn weak(&mut self, state: &[u8]) -> u32 {
        self.ask(
            "weak",
            &[("state", state)],
            4,
            [&|out| proved::weak(state, out).into(), &|out| {
                flat::weak(state, out).into()
            }],
        )
    }

    pub fn strong(&mut self, state: &[u8]) -> u32 {
        self.ask(
            "strong",
            &[("state", state)],
            4,
            [&|out| proved::strong(state, out).into(), &|out| {
                flat::strong(state, out).into()
            }],
        )
    }

    pub fn offer(&mut self, state: &[u8], kind: u8) -> u32 {
        self.ask(
            "offer",
            &[("state", state), ("kind", &[kind])],
            3,
            [&|out| proved::offer(state, kind, out).into(), &|out| {
                flat::offer(state, kind, out).into()
            }],
        )
    }

    pub fn write_image(&mut self, state: &[u8]) -> u32 {
        let exact = match answers::image(state) {
            Ok(image) => image.len(),
            Err(_) => LONGEST_IMAGE,
        };
        let length = self.length(exact);
        self.write_image_into(state, length)
    }

    /// The image, into a buffer of this length.
    pub fn write_image_into(&mut self, state: &[u8], length: usize) -> u32 {
        self.ask_into(
            "write_image",
            &[("state", state)],
            length,
            [&|out| proved::write_image(state, out), &|out| {
                flat::write_image(state, out)
            }],
        )
    }

    pub fn read_image(&mut self, bytes: &[u8]) -> u32 {
        self.ask(
            "read_image",
            &[("bytes", bytes)],
            STATE,
            [&|out| proved::read_image(bytes, out).into(), &|out| {
                flat::read_image(bytes, out).into()
            }],
        )
    }

    pub fn rename(&mut self, state: &[u8], places: &[u8]) -> u32 {
        self.ask(
            "rename",
            &[("state", state), ("places", places)],
            STATE,
            [&|out| proved::rename(state, places, out).into(), &|out| {
                flat::rename(state, places, out).into()
            }],
        )
    }

    pub fn representative(&mut self, state: &[u8]) -> u32 {
        self.ask(
            "representative",
            &[("state", state)],
            STATE,
            [&|out| proved::representative(state, out).into(), &|out| {
                flat::representative(state, out).into()
            }],
        )
    }

    /// The verdict through both; answers the second implementation's.
    pub fn judge(&mut self, run: &[u8]) -> Verdict {
        let told = Cell::new(None);
        self.ask(
            "judge",
            &[("run", run)],
            VERDICT,
            [&|out| proved::judge(run, out).into(), &|out| {
                let number = flat::judge(run, out);
                if number == 0 {
                    told.set(Some(answers::verdict(out)));
                }
                number.into()
            }],
        );
        let verdict = told.get().unwrap_or_else(|| answers::judge(run));
        self.met[(verdict.refusal % 256) as usize] += 1;
        verdict
    }
}

fn print_inputs(inputs: &[Named]) {
    for (name, bytes) in inputs {
        println!("  {} ({} bytes) {}", name, bytes.len(), hex(bytes));
    }
}
