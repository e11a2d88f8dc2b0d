/* Judges the run of a file, then plays the same run action by action, and shows the representative of its last state. Exits 1
 * where the two do not agree. Each of the ten functions is called. */
#include "replay.h"
#include <stdio.h>
#include <string.h>

enum { LONGEST_RUN = 65532, RECORD = 6 };

static uint8_t run[LONGEST_RUN + 1], verdict[REPLAY_VERDICT], state[REPLAY_STATE], next[REPLAY_STATE], image[REPLAY_LONGEST_IMAGE];

/* Number i of the verdict. */
static unsigned long number(int i)
{
    const uint8_t *at = verdict + 4 * i;
    return at[0] + 256ul * at[1] + 65536ul * at[2] + 16777216ul * at[3];
}

/* Prints the image of a state, or none where it has no image. */
static void show(const char *name, const uint8_t *of)
{
    uint32_t answer = replay_write_image(of, REPLAY_STATE, image, sizeof image);
    printf("%s ", name);
    if (answer % 256 != 0)
        printf("none");
    for (uint32_t i = 0; i < answer / 256; i++)
        printf("%02X", image[i]);
    printf("\n");
}

/* Whether a whole run record with this mark starts at this byte. */
static int marked(size_t length, size_t at, uint8_t mark)
{
    return at + RECORD <= length && run[at] == 0x4B && run[at + 1] == mark;
}

/* Weak or strong ISR. */
typedef uint8_t question(const uint8_t *state, size_t state_length, uint8_t *out, size_t out_length);

/* How many actions were accepted when a property first failed: where that is known it stays. */
static unsigned long failed(question *ask, unsigned long known, unsigned long accepted)
{
    uint8_t answer[REPLAY_ISR];
    if (known != 0 || ask(state, sizeof state, answer, sizeof answer) != 0 || answer[0] == 1)
        return known;
    return accepted;
}

/* The number of the action that stopped the run, and the member that it names. */
static uint32_t stopped_by;

/* How many actions are accepted, one call for each, and when weak and strong ISR first failed. */
static unsigned long play(size_t length, unsigned long *weak, unsigned long *strong)
{
    unsigned long accepted = 0;
    size_t at = RECORD;
    if (length > LONGEST_RUN || !marked(length, 0, 0x43) || replay_fresh(run[2], run[3], run[4], run[5], state, sizeof state) != 0)
        return 0;
    while (marked(length, at, 0x41)
        && (stopped_by = replay_act(state, sizeof state, run[at + 2], run[at + 3], run[at + 4], run[at + 5], next, sizeof next)) == 0) {
        memcpy(state, next, sizeof state);
        accepted = accepted + 1;
        *weak = failed(replay_weak, *weak, accepted);
        *strong = failed(replay_strong, *strong, accepted);
        at = at + RECORD;
    }
    return accepted;
}

/* Whether the state comes back from its image, and from the renaming that leaves every name. */
static int comes_back(void)
{
    static const uint8_t same[5] = { 0, 1, 2, 3, 4 };
    uint32_t answer = replay_write_image(state, sizeof state, image, sizeof image);
    return answer % 256 == 0
        && replay_read_image(image, answer / 256, next, sizeof next) == 0 && memcmp(next, state, sizeof next) == 0
        && replay_rename(state, sizeof state, same, sizeof same, next, sizeof next) == 0 && memcmp(next, state, sizeof next) == 0;
}

/* Whether each action that is offered is accepted. */
static int offers_are_accepted(void)
{
    uint8_t action[REPLAY_OFFER];
    for (uint8_t kind = 0; kind <= 8; kind++) {
        if (replay_offer(state, sizeof state, kind, action, sizeof action) == 0
            && replay_act(state, sizeof state, kind, action[0], action[1], action[2], next, sizeof next) != 0)
            return 0;
    }
    return 1;
}

int main(int count, char **names)
{
    FILE *file = count == 2 ? fopen(names[1], "rb") : NULL;
    size_t length;
    unsigned long accepted, weak = 0, strong = 0;
    if (file == NULL) {
        fprintf(stderr, "usage: example FILE\n");
        return 2;
    }
    length = fread(run, 1, sizeof run, file);
    fclose(file);
    if (replay_judge(run, length, verdict, sizeof verdict) != 0)
        return 1;
    printf("accepted %lu\nrefusal %lu\nat %lu\n", number(0), number(1), number(2));
    printf("weak %lu\nstrong %lu\nexposed %lu\n", number(3), number(4), number(5));
    show("state", verdict + 24);
    accepted = play(length, &weak, &strong);
    if (accepted != number(0) || weak != number(3) || strong != number(4) || memcmp(state, verdict + 24, sizeof state) != 0) {
        printf("the actions one by one give another verdict, after %lu\n", accepted);
        return 1;
    }
    if (stopped_by % 256 == 48 || stopped_by % 256 == 49)
        printf("member %lu\n", (unsigned long)(stopped_by / 256));
    if (stopped_by != 0 && stopped_by % 256 != number(1)) {
        printf("the actions one by one stop by another number, %lu\n", (unsigned long)(stopped_by % 256));
        return 1;
    }
    if (replay_representative(state, sizeof state, next, sizeof next) == 0) {
        show("representative", next);
        return comes_back() && offers_are_accepted() ? 0 : 1;
    }
    return 0;
}
