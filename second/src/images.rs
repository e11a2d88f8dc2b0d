//! State images: a state in at most 227 bytes.

use crate::state::{Replica, State};

pub const LONGEST_IMAGE: usize = 227;
const MARK: [u8; 2] = [0x4B, 0x53];
const HEAD: usize = 10;
const NONE: u8 = 255;

/// An image with its length.
#[derive(Clone, Copy, Debug)]
pub struct Image {
    bytes: [u8; LONGEST_IMAGE],
    length: usize,
}

impl Image {
    /// The bytes of the image.
    pub fn as_slice(&self) -> &[u8] {
        &self.bytes[..self.length]
    }

    fn put(&mut self, byte: u8) {
        self.bytes[self.length] = byte;
        self.length += 1;
    }
}

/// The byte of a leader; none is 255.
fn leader_byte(leader: Option<u8>) -> u8 {
    leader.unwrap_or(NONE)
}

/// The leader of a byte; 255 is none.
fn leader_of(byte: u8) -> Option<u8> {
    if byte == NONE {
        None
    } else {
        Some(byte)
    }
}

/// The image of a state; refused for a broken rule.
pub fn write_image(state: &State) -> Result<Image, u8> {
    state.check()?;
    Ok(image_of_good(state))
}

/// The image of a state that is known to meet the state rules.
pub fn image_of_good(state: &State) -> Image {
    let mut image = Image {
        bytes: [0; LONGEST_IMAGE],
        length: 0,
    };
    image.put(MARK[0]);
    image.put(MARK[1]);
    image.put(state.replica_count);
    image.put(state.log_size);
    image.put(state.id_count);
    image.put(state.max_epoch);
    image.put(state.next_epoch);
    image.put(state.next_id);
    image.put(leader_byte(state.quorum.leader));
    image.put(state.quorum.isr);
    for request in state.used_requests() {
        image.put(leader_byte(request.leader));
        image.put(request.isr);
    }
    for replica in state.used_replicas() {
        put_replica(&mut image, replica);
    }
    image
}

fn put_replica(image: &mut Image, replica: &Replica) {
    image.put(replica.hw);
    // As a byte, epoch -1 is 255.
    image.put(replica.epoch as u8);
    image.put(leader_byte(replica.leader));
    image.put(replica.isr);
    image.put(replica.end);
    for record in replica.log() {
        image.put(record.id);
        image.put(record.epoch as u8);
    }
}

/// The state of an image, or the refusal's number.
pub fn read_image(bytes: &[u8]) -> Result<State, u8> {
    let mut state = read_head(bytes)?;
    let mut at = HEAD;
    for epoch in 0..state.next_epoch {
        let part = take(bytes, &mut at, 2)?;
        let request = &mut state.requests[epoch as usize];
        request.leader = leader_of(part[0]);
        request.isr = part[1];
    }
    for i in 0..state.replica_count {
        read_replica(
            bytes,
            &mut at,
            state.log_size,
            &mut state.replicas[i as usize],
        )?;
    }
    if at < bytes.len() {
        return Err(23);
    }
    state.check()?;
    Ok(state)
}

/// The next `count` bytes from `at` on, or 21 where some are missing.
fn take<'a>(bytes: &'a [u8], at: &mut usize, count: usize) -> Result<&'a [u8], u8> {
    if bytes.len() - *at < count {
        return Err(21);
    }
    let part = &bytes[*at..*at + count];
    *at += count;
    Ok(part)
}

/// The first ten bytes: the mark, R, L, M, X, next epoch, next id and the quorum.
fn read_head(bytes: &[u8]) -> Result<State, u8> {
    if bytes.len() < HEAD {
        return Err(21);
    }
    if bytes[..2] != MARK {
        return Err(20);
    }
    let mut state = State::fresh(bytes[2], bytes[3], bytes[4], bytes[5])?;
    state.next_epoch = bytes[6];
    state.next_id = bytes[7];
    if state.next_epoch > state.max_epoch + 1 || state.next_id > state.id_count {
        return Err(41);
    }
    // An image has no quorum epoch: it is always next epoch minus 1.
    state.quorum.epoch = state.next_epoch as i8 - 1;
    state.quorum.leader = leader_of(bytes[8]);
    state.quorum.isr = bytes[9];
    Ok(state)
}

/// One replica and its log.
fn read_replica(
    bytes: &[u8],
    at: &mut usize,
    log_size: u8,
    replica: &mut Replica,
) -> Result<(), u8> {
    let part = take(bytes, at, 5)?;
    replica.hw = part[0];
    replica.epoch = part[1] as i8;
    replica.leader = leader_of(part[2]);
    replica.isr = part[3];
    replica.end = part[4];
    if replica.end > log_size {
        return Err(42);
    }
    for offset in 0..replica.end {
        let part = take(bytes, at, 2)?;
        let record = &mut replica.records[offset as usize];
        record.id = part[0];
        record.epoch = part[1] as i8;
    }
    Ok(())
}
