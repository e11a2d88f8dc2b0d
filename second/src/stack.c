/* How many bytes of stack replay_representative needs, for R 1 to 5. Each call runs on a stack of its own that was painted first; the
 * deepest byte that is no longer as painted counts, less what a call of nothing takes. Tried on fresh states and on states with full
 * logs, alike but for one record, where every comparison goes to the last record of a log or to the end. replay_write_image stands
 * beside it: it too tests the state before anything else. */
#include <stdio.h>
#include <string.h>
#include <ucontext.h>
#include "replay.h"

enum { ROOM = 65536, PAINT = 0xA5, REQUESTS = 9, REPLICAS = 41, REPLICA = 37 };

static uint8_t state[REPLAY_STATE], out[REPLAY_LONGEST_IMAGE], room[ROOM];
static uint32_t number;

static void nothing(void) { number = 0; }
static void representative(void) { number = replay_representative(state, sizeof state, out, sizeof out); }
static void image(void) { number = replay_write_image(state, sizeof state, out, sizeof out) % 256; }

/* How many bytes of its stack a call touches. */
static int touched(void (*call)(void)) {
    ucontext_t here, there;
    memset(room, PAINT, ROOM);
    getcontext(&there);
    there.uc_stack.ss_sp = room;
    there.uc_stack.ss_size = ROOM;
    there.uc_link = &here;
    makecontext(&there, call, 0);
    swapcontext(&here, &there);
    int low = 0;
    while (low < ROOM && room[low] == PAINT)
        low++;
    return ROOM - low;
}

/* No leader, ISRs full, logs full, and the last record of the last replica another one. */
static void alike(uint8_t r) {
    uint8_t all = (uint8_t)((1 << r) - 1), sizes[] = {r, 16, 64, 15, 16, 64, 15, 0, all};
    memset(state, 0, sizeof state);
    memcpy(state, sizes, sizeof sizes);
    for (int e = 0; e < 16; e++)
        state[REQUESTS + 2 * e + 1] = all;
    for (int i = 0; i < r; i++) {
        uint8_t *replica = state + REPLICAS + REPLICA * i, head[] = {3, 15, 0, all, 16};
        memcpy(replica, head, sizeof head);
        for (int x = 0; x < 16; x++)
            replica[5 + 2 * x] = (uint8_t)(i + 1 == r && x == 15 ? 31 : x);
    }
}

static int needed(void (*call)(void), int before) {
    int now = touched(call) - touched(nothing);
    return now > before ? now : before;
}

int main(void) {
    replay_fresh(1, 1, 1, 0, state, sizeof state);
    representative(); /* so that the loader finds memcpy before it counts */
    image();
    puts("| R | replay_representative | replay_write_image |\n|---|---|---|");
    for (uint8_t r = 1; r <= 5; r++) {
        int least = 0, written = 0;
        for (int full = 0; full < 2; full++) {
            if (full)
                alike(r);
            else
                replay_fresh(r, 16, 64, 15, state, sizeof state);
            least = needed(representative, least);
            representative();
            if (number)
                return 1;
            written = needed(image, written);
        }
        printf("| %d | %d | %d |\n", r, least, written);
    }
    return 0;
}
