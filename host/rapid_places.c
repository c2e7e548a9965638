#include "rapid_places.h"

/* A call with n steps tells one place, that of step n + 1; so n places would take n runs, each longer than the one before. But a run repeats itself: what comes next is mostly what came
 * next when the steps before it were the same. So places are guessed, many at a time, and rapid_call_mark says how many of the guesses are right; a place that is guessed wrongly twice
 * is told by a call of its own. Whatever is guessed, the places are those of the run: guesses only spare calls. */
enum { FEWEST_GUESSES = 16 };

/* So many steps back two parts of a run are compared, the most first. */
static const size_t orders[] = {4096, 1024, 256, 64, 16, 4, 1};
enum { ORDERS = sizeof orders / sizeof *orders, SLOTS = 1 << 16 };
static uint32_t last[ORDERS][SLOTS]; /* by the steps before it, which step came behind them last; 0 where none did: step 0 has none before it */
static uint64_t hashes[MOST_PLACES + 1], powers[ORDERS]; /* of all places before a step; of the factor, by orders */

static const uint64_t FACTOR = 0x9e3779b97f4a7c15;

static void forget(void) {
    for (int o = 0; o < ORDERS; o++) {
        powers[o] = 1;
        for (size_t k = 0; k < orders[o]; k++)
            powers[o] *= FACTOR;
        for (size_t k = 0; k < SLOTS; k++)
            last[o][k] = 0;
    }
}

/* Of the steps before step i, by an order that is at most i. */
static uint64_t hash(int o, size_t i) { return hashes[i] - hashes[i - orders[o]] * powers[o]; }

static uint32_t *slot(int o, uint64_t h) { return &last[o][(h ^ h >> 29) * FACTOR >> 48]; }

/* What step i may be, and not that which it is known not to be; 0, which is no step's place, where nothing is left. */
static uint32_t guessed(const uint32_t *places, size_t i, uint32_t wrong) {
    for (int o = 0; o < ORDERS; o++) {
        if (orders[o] > i)
            continue;
        uint64_t h = hash(o, i);
        uint32_t step = *slot(o, h);
        if (step != 0 && hash(o, step) == h && places[step] != wrong)
            return places[step];
    }
    return 0;
}

/* Step i has a place, or is guessed to have it. */
static void follows(size_t i, uint32_t place) { hashes[i + 1] = hashes[i] * FACTOR + place + 1; }

/* Step i is known. */
static void learn(size_t i, uint32_t place) {
    for (int o = 0; o < ORDERS; o++)
        if (orders[o] <= i)
            *slot(o, hash(o, i)) = (uint32_t)i;
    follows(i, place);
}

/* How many of the places are right, where those before `known` are, step `known` is guessed, and from it the rest up to `count`. */
static int right_guesses(struct rapid_lent lent, uint32_t *places, size_t known, uint32_t first, size_t count, size_t *right) {
    struct rapid_marking marking = {0};
    struct rapid_record record = {0};
    for (size_t i = known; i < count; i++) {
        places[i] = i == known ? first : guessed(places, i, 0);
        follows(i, places[i]);
    }
    lent.steps = (uint32_t)count;
    if (!rapid_call_mark(&lent, places, count, &record, &marking))
        return 0;
    *right = marking.index;
    return 1;
}

/* The place of one step: where a run that may not make it stops. */
static int tell(struct rapid_lent lent, size_t i, uint32_t *place) {
    struct rapid_record record = {0};
    lent.steps = (uint32_t)i;
    if (!rapid_call(&lent, &record))
        return 0;
    *place = (uint32_t)record.offset;
    return 1;
}

int rapid_places(const struct rapid_lent *lent, uint32_t *places, struct rapid_record *record) {
    uint32_t wrong = 0;
    size_t known = 0, guesses = FEWEST_GUESSES;
    if (lent->steps > MOST_PLACES || !rapid_call(lent, record))
        return 0;
    forget();
    while (known < record->steps) {
        uint32_t first = guessed(places, known, wrong);
        size_t count = record->steps - known < guesses ? record->steps : known + guesses, right = known;
        if (first != 0 && !right_guesses(*lent, places, known, first, count, &right))
            return 0;
        /* no guess, or the second one in vain */
        if (first == 0 || (right == known && wrong != 0)) {
            if (!tell(*lent, known, &places[known]))
                return 0;
            right = known + 1, count = right;
        }
        /* twice as many as were right, so that few are made in vain */
        guesses = right - known < FEWEST_GUESSES / 2 ? FEWEST_GUESSES : 2 * (right - known);
        for (; known < right; known++)
            learn(known, places[known]);
        wrong = right < count ? places[right] : 0;
    }
    /* the output and the stores as the whole run leaves them */
    return rapid_call(lent, record);
}
