//! Renamings of the replicas, and the representative of a state.

use crate::images::image_of_good;
use crate::state::{in_isr, State, MOST_REPLICAS};

/// Five places: place i holds the new name of replica i.
pub type Places = [u8; MOST_REPLICAS];

const IDENTITY: Places = [0, 1, 2, 3, 4];

/// The first R places hold 0 to R-1 once each, the others their own number.
pub fn is_renaming(replica_count: u8, places: &[u8]) -> bool {
    if replica_count as usize > MOST_REPLICAS || places.len() != MOST_REPLICAS {
        return false;
    }
    let mut taken = [false; MOST_REPLICAS];
    for (i, &place) in places.iter().enumerate() {
        if i >= replica_count as usize {
            if place as usize != i {
                return false;
            }
        } else if place >= replica_count || taken[place as usize] {
            return false;
        } else {
            taken[place as usize] = true;
        }
    }
    true
}

/// The state under a renaming; refused for a broken rule, and by 27 where the places are no
/// renaming.
pub fn rename(state: &State, places: &[u8]) -> Result<State, u8> {
    state.check()?;
    if !is_renaming(state.replica_count, places) {
        return Err(27);
    }
    Ok(renamed(&state.tidied(), places))
}

/// A state that meets the rules and has zeros in its unused room, under a renaming.
fn renamed(state: &State, places: &[u8]) -> State {
    let mut result = *state;
    result.quorum.leader = renamed_leader(state.quorum.leader, places);
    result.quorum.isr = renamed_isr(state.quorum.isr, places);
    for request in result.requests[..state.next_epoch as usize].iter_mut() {
        request.leader = renamed_leader(request.leader, places);
        request.isr = renamed_isr(request.isr, places);
    }
    for (i, replica) in state.used_replicas().iter().enumerate() {
        let block = &mut result.replicas[places[i] as usize];
        *block = *replica;
        block.leader = renamed_leader(replica.leader, places);
        block.isr = renamed_isr(replica.isr, places);
    }
    result
}

fn renamed_leader(leader: Option<u8>, places: &[u8]) -> Option<u8> {
    leader.map(|i| places[i as usize])
}

fn renamed_isr(isr: u8, places: &[u8]) -> u8 {
    let mut result = 0;
    for (i, &place) in places.iter().enumerate() {
        if in_isr(isr, i as u8) {
            result |= 1 << place;
        }
    }
    result
}

/// Puts the next greater order of the first `count` places; false after the last one.
fn next_renaming(places: &mut Places, count: usize) -> bool {
    let mut i = count - 1;
    while i > 0 && places[i - 1] >= places[i] {
        i -= 1;
    }
    if i == 0 {
        return false;
    }
    let mut j = count - 1;
    while places[j] <= places[i - 1] {
        j -= 1;
    }
    places.swap(i - 1, j);
    places[i..count].reverse();
    true
}

/// All renamings of R replicas in rising order; none where R is out of range.
pub fn renamings(replica_count: u8) -> Vec<Places> {
    let mut all = Vec::new();
    let count = replica_count as usize;
    if count == 0 || count > MOST_REPLICAS {
        return all;
    }
    let mut places = IDENTITY;
    all.push(places);
    while next_renaming(&mut places, count) {
        all.push(places);
    }
    all
}

/// The state under the renaming with the least image; refused for a broken rule.
pub fn representative(state: &State) -> Result<State, u8> {
    state.check()?;
    let tidied = state.tidied();
    let mut least = tidied;
    let mut least_image = image_of_good(&least);
    let mut places = IDENTITY;
    while next_renaming(&mut places, state.replica_count as usize) {
        let other = renamed(&tidied, &places);
        let image = image_of_good(&other);
        if image.as_slice() < least_image.as_slice() {
            least = other;
            least_image = image;
        }
    }
    Ok(least)
}
