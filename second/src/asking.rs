//! Draws questions to the program `answers`.

use harness::answers;
use harness::course;
use harness::draw;
use harness::fixed;
use harness::layout::*;
use harness::random::Random;
use second::replies::*;

/// How often each sort is drawn of a hundred questions; one of them has an unknown first byte.
const SORTS: [(u8, usize); 10] = [
    (ASKS_FRESH, 5),
    (ASKS_RULE, 20),
    (ASKS_ACT, 28),
    (ASKS_RENAME, 8),
    (ASKS_REPRESENTATIVE, 6),
    (ASKS_WEAK, 5),
    (ASKS_STRONG, 5),
    (ASKS_OFFER, 6),
    (ASKS_WRITE, 6),
    (ASKS_READ, 10),
];

/// A run takes long to draw, so its last state serves for many questions.
pub struct Questions {
    random: Random,
    reached: Flat,
}

impl Questions {
    pub fn new(random: Random) -> Questions {
        let reached = fixed::two_leaders();
        Questions { random, reached }
    }

    /// So many questions in a row, in half of the batches with the front of one more, which is not
    /// answered.
    pub fn batch(&mut self, count: u64) -> Vec<u8> {
        let mut batch = Vec::new();
        for _ in 0..count {
            batch.extend(self.any());
        }
        if self.random.one_in(2) {
            let next = self.any();
            let tail = self.random.below(next.len());
            batch.extend_from_slice(&next[..tail]);
        }
        batch
    }

    fn any(&mut self) -> Vec<u8> {
        let asks = self.sort();
        let mut question = vec![asks];
        match asks {
            ASKS_FRESH => {
                question.extend(self.configuration());
                question.extend_from_slice(&draw::any_state(&mut self.random)[4..]);
            }
            ASKS_READ => {
                let image = self.image();
                question.push(image.len() as u8);
                question.extend(image);
            }
            _ => {
                let state = self.state();
                question.extend(self.operands(asks, &state));
                question.extend_from_slice(&state);
            }
        }
        question
    }

    fn sort(&mut self) -> u8 {
        let mut left = self.random.below(100);
        for (asks, count) in SORTS {
            if left < count {
                return asks;
            }
            left -= count;
        }
        course::edged(&mut self.random, ASKS_READ + 1, 255)
    }

    /// R, L, M and X, in half of them with one or two out of range.
    fn configuration(&mut self) -> [u8; 4] {
        let random = &mut self.random;
        let mut configuration = course::configuration(random);
        for _ in 0..random.below(4).saturating_sub(1) {
            let place = random.below(4);
            configuration[place] = match random.below(3) {
                0 => [0, 0, 0, 255][place],
                1 => [6, 17, 65, 16][place],
                _ => random.byte(),
            };
        }
        configuration
    }

    /// What is asked with a state.
    fn operands(&mut self, asks: u8, state: &Flat) -> Vec<u8> {
        match asks {
            ASKS_ACT => course::any_action(&mut self.random, state).to_vec(),
            ASKS_RENAME => {
                let mut places = draw::places(&mut self.random, state[R]);
                let other = self.random.within(0, 5);
                places.resize(MOST_REPLICAS, other);
                places
            }
            ASKS_OFFER => vec![self.kind()],
            ASKS_WRITE => vec![self.buffer_length(state)],
            _ => Vec::new(),
        }
    }

    fn kind(&mut self) -> u8 {
        if self.random.one_in(12) {
            self.random.pick(&[9, 10, 128, 255])
        } else {
            self.random.within(0, 8)
        }
    }

    /// A length for the buffer of an image: exact, one byte short, longer, none or any.
    fn buffer_length(&mut self, state: &Flat) -> u8 {
        let exact = as_image(state).len() as u8;
        match self.random.below(8) {
            0..=2 => exact,
            3 => exact - 1,
            4 | 5 => self.random.within(exact, 255),
            6 => 0,
            _ => self.random.byte(),
        }
    }

    /// Bytes to be read: images whole, cut, padded or flipped; bytes of a state that may break a rule;
    /// any bytes, of a fourth with the mark of an image.
    fn image(&mut self) -> Vec<u8> {
        let mut image = match self.random.below(12) {
            0 => self.any_bytes(),
            1 | 2 => as_image(&self.state()),
            _ => as_image(&self.good_state()),
        };
        match self.random.below(8) {
            0 | 1 => {}
            2 => image.truncate(self.random.below(image.len() + 1)),
            3 | 4 => {
                let at = self.random.below(image.len().max(1));
                if let Some(byte) = image.get_mut(at) {
                    *byte ^= 1 << self.random.below(8);
                }
            }
            _ => image = draw::damaged_image(&mut self.random, &image),
        }
        image.truncate(255);
        image
    }

    fn any_bytes(&mut self) -> Vec<u8> {
        let mut bytes = vec![0; self.random.below(256)];
        self.random.fill(&mut bytes);
        if self.random.one_in(4) && bytes.len() >= 2 {
            bytes[..2].copy_from_slice(&[0x4B, 0x53]);
        }
        bytes
    }

    /// States that meet the rules, any bytes, small numbers, states that nearly meet the rules, and
    /// such with one or two bytes changed; of those that meet the rules half have rubbish in their
    /// unused room.
    fn state(&mut self) -> Flat {
        match self.random.below(16) {
            0 => return draw::any_state(&mut self.random),
            1 => return draw::small_state(&mut self.random),
            2 | 3 => return draw::nearly_valid_state(&mut self.random),
            _ => {}
        }
        let mut state = self.good_state();
        if self.random.one_in(2) {
            state = draw::with_rubbish(&mut self.random, &state);
        }
        for _ in 0..self.random.pick(&[0, 0, 0, 0, 1, 1, 1, 2]) {
            let at = self.random.below(STATE);
            state = draw::damaged_state(&mut self.random, &state, at);
        }
        state
    }

    /// A state that meets the rules.
    fn good_state(&mut self) -> Flat {
        match self.random.below(10) {
            0 | 1 => draw::valid_state(&mut self.random),
            2 => draw::full_state(&mut self.random, 5),
            3 => draw::nearly_alike_state(&mut self.random),
            4 => self.random.pick(&[fixed::full(), fixed::stale_leader()]),
            _ => self.state_of_run(),
        }
    }

    /// The last state of a run, of another one now and then.
    fn state_of_run(&mut self) -> Flat {
        if self.random.one_in(32) {
            let length = 10 + self.random.below(120);
            let run = course::run(&mut self.random, length);
            self.reached = answers::judge(&run).state;
        }
        self.reached
    }
}
