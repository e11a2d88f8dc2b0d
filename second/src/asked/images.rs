//! Images written and read.

use super::rules::broken_states;
use super::{asking, Asked, Changes};
use harness::fixed::{self, with};
use harness::layout::*;
use second::printed::hex;
use second::replies::{ASKS_READ, ASKS_WRITE, LENT};

/// Where R, L, M, X, the next epoch and the next id stand in an image.
const fn head(at: usize) -> usize {
    2 + at
}

// Where the rest of the image of `read_state` stands; within a replica's block it has the order of a
// flat state.
const IMAGE_QUORUM: usize = 8;
const IMAGE_REQUESTS: [usize; 2] = [10, 12];
const IMAGE_REPLICAS: [usize; 3] = [14, 23, 34];
const WHOLE: usize = 39;

/// The image's record of a replica at an offset.
const fn image_record(i: usize, offset: usize) -> usize {
    IMAGE_REPLICAS[i] + END + 1 + 2 * offset
}

/// The state of the paper's first example, as `runcheck` prints it.
const PAPER: [u8; 31] = [
    0x4B, 0x53, 3, 4, 4, 3, 1, 1, 0, 7, 0, 7, 0, 0, 0, 7, 1, 0, 0, 0, 0, 0, 7, 1, 0, 0, 0, 0, 0, 7,
    0,
];

/// Why the image of `read_state` is not read, how many bytes it is cut or padded to, and its changes.
type Unread = (u8, usize, Changes);

#[rustfmt::skip]
const UNREAD: &[Unread] = &[
    // Under ten bytes, whatever they are.
    (21, 0, &[]),
    (21, 1, &[]),
    (21, 2, &[]),
    (21, 9, &[]),
    (21, 9, &[(0, 0)]),
    (21, 9, &[(head(R), 0)]),
    // Another mark, whatever is behind it.
    (20, WHOLE, &[(0, 0x4A)]),
    (20, WHOLE, &[(1, 0x41)]),
    (20, WHOLE, &[(1, 0x43)]),
    (20, WHOLE, &[(0, 0x53), (1, 0x4B)]),
    (20, WHOLE, &[(1, 0), (head(R), 0)]),
    (20, 10, &[(0, 0)]),
    // The configuration, whatever is behind it.
    (22, WHOLE, &[(head(R), 0)]),
    (22, WHOLE, &[(head(R), 6)]),
    (22, WHOLE, &[(head(R), 255)]),
    (22, WHOLE, &[(head(L), 0)]),
    (22, WHOLE, &[(head(L), 17)]),
    (22, WHOLE, &[(head(M), 0)]),
    (22, WHOLE, &[(head(M), 65)]),
    (22, WHOLE, &[(head(X), 16)]),
    (22, WHOLE, &[(head(X), 255)]),
    (22, WHOLE, &[(head(R), 6), (head(NEXT_EPOCH), 5)]),
    (22, 10, &[(head(M), 65)]),
    // The next epoch and the next id, whatever is behind them.
    (41, WHOLE, &[(head(NEXT_EPOCH), 5)]),
    (41, WHOLE, &[(head(NEXT_EPOCH), 17)]),
    (41, WHOLE, &[(head(NEXT_EPOCH), 255)]),
    (41, WHOLE, &[(head(NEXT_ID), 10)]),
    (41, WHOLE, &[(head(NEXT_ID), 255)]),
    (41, 10, &[(head(NEXT_EPOCH), 5)]),
    (41, 10, &[(head(NEXT_ID), 10)]),
    (41, WHOLE + 1, &[(head(NEXT_ID), 10)]),
    // A part is missing: requests, blocks of replicas, records; wholly or by a byte.
    (21, 10, &[]),
    (21, 11, &[]),
    (21, 13, &[]),
    (21, 14, &[]),
    (21, 18, &[]),
    (21, 19, &[]),
    (21, 22, &[]),
    (21, 23, &[]),
    (21, 33, &[]),
    (21, 34, &[]),
    (21, WHOLE - 1, &[]),
    (21, WHOLE, &[(IMAGE_REPLICAS[2] + END, 1)]),
    (21, WHOLE, &[(head(R), 4)]),
    // The full log of replica 0 takes what the others need.
    (21, WHOLE, &[(IMAGE_REPLICAS[0] + END, 6)]),
    // An end above L, whatever is behind it; what is missing before it counts.
    (42, WHOLE, &[(IMAGE_REPLICAS[0] + END, 7)]),
    (42, WHOLE, &[(IMAGE_REPLICAS[1] + END, 16)]),
    (42, WHOLE, &[(IMAGE_REPLICAS[2] + END, 7)]),
    (42, WHOLE, &[(IMAGE_REPLICAS[2] + END, 255)]),
    (42, 19, &[(IMAGE_REPLICAS[0] + END, 7)]),
    (42, WHOLE + 1, &[(IMAGE_REPLICAS[0] + END, 255)]),
    (21, 18, &[(IMAGE_REPLICAS[0] + END, 7)]),
    (21, 27, &[(IMAGE_REPLICAS[1] + END, 7)]),
    (21, WHOLE, &[(IMAGE_REPLICAS[0] + END, 6), (IMAGE_REPLICAS[2] + END, 7)]),
    // Bytes left over, also where a rule is broken that is not met on the way.
    (23, WHOLE + 1, &[]),
    (23, WHOLE + 2, &[]),
    (23, 255, &[]),
    (23, WHOLE, &[(head(R), 2)]),
    (23, WHOLE + 1, &[(IMAGE_QUORUM, 3)]),
    (23, WHOLE + 1, &[(IMAGE_QUORUM, 0)]),
    (23, WHOLE + 1, &[(IMAGE_QUORUM + 1, 5)]),
    (23, WHOLE + 1, &[(IMAGE_REPLICAS[0] + HW, 3)]),
    (23, WHOLE + 1, &[(image_record(0, 0), 3)]),
    (23, WHOLE + 1, &[(image_record(0, 0) + 1, 1)]),
    // S2: a leader that is not below R, an ISR that is not within the replicas.
    (42, WHOLE, &[(IMAGE_QUORUM, 3)]),
    (42, WHOLE, &[(IMAGE_QUORUM + 1, 15)]),
    (42, WHOLE, &[(IMAGE_REQUESTS[0], 254)]),
    (42, WHOLE, &[(IMAGE_REPLICAS[2] + LEADER, 3)]),
    (42, WHOLE, &[(IMAGE_REPLICAS[0] + ISR, 8)]),
    // S3: another leader than the last request's, or none.
    (43, WHOLE, &[(IMAGE_QUORUM, 0)]),
    (43, WHOLE, &[(IMAGE_QUORUM, 255)]),
    (43, WHOLE, &[(IMAGE_REQUESTS[1], 2)]),
    // S4: a leader that is not in the ISR.
    (44, WHOLE, &[(IMAGE_QUORUM + 1, 5)]),
    (44, WHOLE, &[(IMAGE_REQUESTS[0] + 1, 6)]),
    // S5: an hw above the end, an epoch that is not used or under -1, a leader that is not its request's.
    (45, WHOLE, &[(IMAGE_REPLICAS[0] + HW, 3)]),
    (45, WHOLE, &[(IMAGE_REPLICAS[2] + EPOCH, 2)]),
    (45, WHOLE, &[(IMAGE_REPLICAS[2] + EPOCH, 254)]),
    (45, WHOLE, &[(IMAGE_REPLICAS[2] + EPOCH, 255)]),
    (45, WHOLE, &[(IMAGE_REPLICAS[2] + LEADER, 255)]),
    (45, WHOLE, &[(IMAGE_REPLICAS[1] + ISR, 5)]),
    // S6: an id or an epoch that is not used.
    (46, WHOLE, &[(image_record(1, 2), 3)]),
    (46, WHOLE, &[(image_record(1, 2) + 1, 2)]),
    (46, WHOLE, &[(image_record(0, 1) + 1, 255)]),
    // S7: an id at two offsets, or with two epochs.
    (47, WHOLE, &[(image_record(1, 2), 0)]),
    (47, WHOLE, &[(image_record(0, 0) + 1, 1)]),
];

/// The number of a rule and a change of the image that breaks it alone. Two at a time, the earlier
/// rule counts.
const BREAKING: &[(u8, (usize, u8))] = &[
    (41, (head(NEXT_ID), 10)),
    (42, (IMAGE_REPLICAS[2] + END, 7)),
    (42, (IMAGE_REPLICAS[2] + ISR, 15)),
    (43, (IMAGE_REQUESTS[1], 2)),
    (44, (IMAGE_REQUESTS[0] + 1, 6)),
    (45, (IMAGE_REPLICAS[2] + EPOCH, 2)),
    (46, (image_record(1, 2) + 1, 2)),
    (47, (image_record(0, 0) + 1, 1)),
];

pub fn all() -> Vec<Asked> {
    let mut all = written();
    for (number, state) in broken_states() {
        for n in [0, 39, 255] {
            all.push(unwritten(number, n, &state));
        }
    }
    all.extend(read());
    for &(number, length, changes) in UNREAD {
        all.push(unread(number, length, changes));
    }
    for (i, &(number, fault)) in BREAKING.iter().enumerate() {
        for &(_, later) in &BREAKING[i + 1..] {
            all.push(unread(number, WHOLE, &[fault, later]));
        }
    }
    all
}

/// What reading answers of the image of `read_state` with some of its bytes changed, cut or padded
/// to a length.
fn unread(number: u8, length: usize, changes: &[(usize, u8)]) -> Asked {
    let mut image = as_image(&read_state());
    for &(at, value) in changes {
        image[at] = value;
    }
    image.resize(length, 0);
    reading(number, &image, &[0; STATE])
}

/// The state with two leaders, with L and M that differ.
fn read_state() -> Flat {
    with(&fixed::two_leaders(), &[(L, 6), (M, 9)])
}

/// States with the lengths of their images, into buffers that are longer, exact, and too short.
fn written() -> Vec<Asked> {
    let mut all = Vec::new();
    let states = [
        (25, fixed::fresh()),
        (39, read_state()),
        (LONGEST_IMAGE as u8, fixed::full()),
    ];
    for (length, state) in states {
        for n in [length, length + 1, 255] {
            all.push(writing(n, &state));
        }
        for n in [0, 1, 10, length - 1] {
            all.push(unwritten(24, n, &untidied(&state)));
        }
    }
    all
}

/// The image stands at the front of a buffer of n bytes, all of which held the same.
fn writing(n: u8, state: &Flat) -> Asked {
    let mut buffer = as_image(state);
    let length = buffer.len();
    buffer.resize(usize::from(n), LENT);
    let front = format!("write 0 {} {}", length, hex(&buffer));
    asking(ASKS_WRITE, &[&[n], &untidied(state)], front)
}

/// The buffer stays, and the length is 0. The line ends behind it where there is no buffer.
fn unwritten(number: u8, n: u8, state: &Flat) -> Asked {
    let buffer = vec![LENT; usize::from(n)];
    let front = format!("write {} 0 {}", number, hex(&buffer));
    asking(ASKS_WRITE, &[&[n], state], String::from(front.trim_end()))
}

/// Whole images of states, and that of the paper.
fn read() -> Vec<Asked> {
    let one = with(&fixed::fresh(), &[(R, 1), (L, 1), (QUORUM_ISR, 1)]);
    let states = [
        fixed::fresh(),
        tidied(&one),
        fixed::stale_leader(),
        read_state(),
        fixed::full(),
    ];
    let whole = |state: &Flat| reading(0, &as_image(state), state);
    let mut all: Vec<Asked> = states.iter().map(whole).collect();
    let front = String::from("read 0");
    all.push(asking(ASKS_READ, &[&[PAPER.len() as u8], &PAPER], front));
    all
}

/// What reading answers: a number and a state.
fn reading(number: u8, image: &[u8], state: &Flat) -> Asked {
    let front = format!("read {} {}", number, hex(state));
    asking(ASKS_READ, &[&[image.len() as u8], image], front)
}
