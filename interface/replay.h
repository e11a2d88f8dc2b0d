/* The C interface of the proved library: link libreplay.a, which tools/build replay writes to target/staticlib.
 *
 * A slice is a pointer and its length. What the caller owes, and nothing checks: each pointer is good for its length (for reading,
 * and `out` for writing), and `out` overlaps no other argument. A length of 0 asks nothing of its pointer. Beyond that the caller
 * need test nothing: every byte and every length gets an answer. The functions keep nothing between calls, allocate no memory and
 * call nothing but memcpy and memset, so they may be called from several threads at once.
 *
 * A flat state has 226 bytes. Byte by byte:
 *     0       R    replicas, 1 to 5, named 0 to R - 1
 *     1       L    log size, 1 to 16
 *     2       M    record ids, 1 to 64
 *     3       X    greatest leader epoch, 0 to 15
 *     4       next leader epoch
 *     5       next record id
 *     6       quorum epoch
 *     7       quorum leader
 *     8       quorum ISR
 *     9       16 requests of 2 bytes, by epoch: leader, ISR
 *     41      5 replicas of 37 bytes, by name: high watermark, epoch, leader, ISR, log end, then 16 records of 2 bytes: id, epoch
 * Epochs other than the next one are two's complement (255 is -1, none). A leader is 0 for none and i + 1 for replica i. An ISR has
 * bit i for replica i. Requests from the next epoch on, replicas from R on and records from a log's end on are unused room: an
 * answer has zeros there, and what an argument has there does not matter. Every 226 bytes are some state, good or broken.
 *
 * Every function returns a number, 0 for accepted; replay_act and replay_write_image have it in the low byte of what they return,
 * below the member named and the length. The numbers are tried in this order: 21 or 23 where `state` has not 226 bytes; the
 * numbers of the answer itself; 24 where `out` is shorter than the answer. Accepted, the answer stands at the front of `out`, and
 * the bytes behind it stay. Refused, every byte of `out` stays: the state that a refusal of an action, a renaming or a
 * representative gives back is the caller's own `state`.
 *
 * A state that breaks a state rule is refused by the number of the first rule that it breaks, each rule tried over the whole state
 * before the next: 41 for S1 to 47 for S7. Below, 41 to 47 is one of these.
 *
 *      0  accepted
 *      2  the kind is above 8
 *      3  a used replica is not below R, a used epoch is above X, or an unused operand is not 0
 *      4  no leader epoch is left
 *      5  the replica is not in the ISR
 *      6  the replica leads already, or is in the ISR already
 *      7  there is no request of that epoch
 *      8  the request names no leader (kind 2), or names the replica itself (kind 3)
 *      9  the request's epoch is not above the replica's
 *     10  the replica does not presume to lead
 *     11  no record id is left
 *     12  the log is full
 *     13  the replica is not the true leader
 *     14  the leader and the replica to remove are one
 *     15  the replica to remove is caught up
 *     16  the replica to add is not caught up
 *     18  the follower's leader is another, or none
 *     19  the follower's log is not shorter than the leader's
 *     20  another mark than the one expected
 *     21  bytes are missing: of a flat state, an image, a run or a run record
 *     22  R, L, M or X is out of range
 *     23  bytes are left over behind a flat state or an image
 *     24  `out` is shorter than the answer
 *     25  the run has more than 65,532 bytes
 *     26  no action of the kind is accepted
 *     27  the places are not five, or not a renaming of the replicas
 *     41  S1 is broken: R, L, M or X is out of range, the next epoch is above X+1, or the next record id above M
 *     42  S2 is broken: a log's end is above L, a leader is not below R, or an ISR is not within the replicas
 *     43  S3 is broken: the quorum's epoch is not the last one, or its leader, before any request also its ISR, is not as that asks
 *     44  S4 is broken: in the quorum or in a request the leader is not in the ISR there
 *     45  S5 is broken: a replica's epoch, its leader or ISR by that epoch, its own ISR without itself, or its hw above its end
 *     46  S6 is broken: a record's id is not below the next id, or its epoch not one used
 *     47  S7 is broken: records with one id stand at two offsets or carry two epochs
 *     48  some member of the replica's own ISR does not have the replica as its leader
 *     49  some member of the replica's own ISR has no record at the replica's high watermark
 */
#ifndef REPLAY_H
#define REPLAY_H

#include <stddef.h>
#include <stdint.h>

#ifdef __cplusplus
extern "C" {
#endif

/* The version of this interface. It goes up where a caller has to change; interface/README.md says what changed. */
#define REPLAY_VERSION 2

/* How many bytes a flat state, an answer on weak or strong ISR, an offer and a verdict have, and an image at most. */
#define REPLAY_STATE 226
#define REPLAY_ISR 4
#define REPLAY_OFFER 3
#define REPLAY_VERDICT 250
#define REPLAY_LONGEST_IMAGE 227

/* The fresh state of a configuration: 226 bytes. Refused by 22, 24. */
uint8_t replay_fresh(uint8_t r, uint8_t l, uint8_t m, uint8_t x, uint8_t *out, size_t out_length);

/* The state after an action of a kind from 0 to 8: 226 bytes. An operand that the kind does not use is 0. Refused by 21, 23, 41 to
 * 47, 2, 3, then of kind 0: 5, 4; 1: 5, 6, 4; 2 and 3: 7, 8, 9; 4: 10, 11, 12; 5: 14, 13, 5, 15; 6: 13, 6, 16; 7: 10, 48, 49 (each
 * tried over all members of a's ISR); 8: 10, 18, 19; then 24. Returns the number and 256 times the member named: where the number is
 * 48 or 49 the smallest member of a's ISR with that fault, else 0. */
uint32_t replay_act(const uint8_t *state, size_t state_length, uint8_t kind, uint8_t a, uint8_t b, uint8_t e, uint8_t *out,
    size_t out_length);

/* Weak ISR, and strong ISR: 1, 0, 0, 0 where it holds; else 0 and the smallest failing leader, member and offset. Refused by 21,
 * 23, 41 to 47, 24. */
uint8_t replay_weak(const uint8_t *state, size_t state_length, uint8_t *out, size_t out_length);
uint8_t replay_strong(const uint8_t *state, size_t state_length, uint8_t *out, size_t out_length);

/* The smallest accepted action of a kind: its a, b, e. Refused by 21, 23, 41 to 47, 2, 26, 24. */
uint8_t replay_offer(const uint8_t *state, size_t state_length, uint8_t kind, uint8_t *out, size_t out_length);

/* The image of a state. Returns the number and 256 times the image's length, which is 0 when refused. Refused by 21, 23, 41 to 47,
 * 24. */
uint32_t replay_write_image(const uint8_t *state, size_t state_length, uint8_t *out, size_t out_length);

/* The state of an image: 226 bytes. Refused by 21 (under ten bytes), 20, 22, 41 (next epoch or next id), then front to back 21 (a
 * part is missing) or 42 (an end above L), then 23, 42 to 47 (the first of S2 to S7 that is broken), 24. */
uint8_t replay_read_image(const uint8_t *bytes, size_t bytes_length, uint8_t *out, size_t out_length);

/* The state under a renaming, place i of which holds the new name of replica i: 226 bytes. A renaming has five places. Refused by
 * 21, 23, 41 to 47, 27, 24. */
uint8_t replay_rename(const uint8_t *state, size_t state_length, const uint8_t *places, size_t places_length, uint8_t *out,
    size_t out_length);

/* The representative of a state, the state under the renaming with the least image: 226 bytes. Refused by 21, 23, 41 to 47,
 * 24. */
uint8_t replay_representative(const uint8_t *state, size_t state_length, uint8_t *out, size_t out_length);

/* The verdict of a run: 250 bytes, six numbers of 4 bytes, low byte first (actions accepted; refusal, 0 for none; byte where the
 * refused run record starts, the run's length where none is refused, 0 where the run is too long; actions accepted when weak ISR,
 * and when strong ISR, first failed, 0 for never; exposed, the greatest high watermark of any replica that presumes to lead, in any
 * state of the run), then the last state, all zeros where no configuration was accepted. Refused by 24 alone: that a run is
 * refused is an answer. */
uint8_t replay_judge(const uint8_t *run, size_t run_length, uint8_t *out, size_t out_length);

#ifdef __cplusplus
}
#endif

#endif
