// Who goes on: at each step of an execution the choice, and after it the next order to try.
#include "explorer.h"
#include <stdio.h>
#include <stdlib.h>
#include <string.h>

// A moment of an execution at which a thread was chosen, as sets of threads (a bit each).
struct moment {
    uint32_t enabled, to_try, tried, asleep;
    uint32_t chosen, last, preempted;
    int last_could_go_on;
    // What the next step of each thread touched in that state.
    struct touches touches[MOST_THREADS];
};

static struct moment moments[MOST_STEPS];
// So many choices are those of the execution before.
static uint32_t kept;
static uint8_t scheduled[MOST_STEPS];
static uint32_t scheduled_count;

static uint32_t lowest(uint32_t set) { return (uint32_t)__builtin_ctz(set); }
static int has(uint32_t set, uint32_t thread) { return thread < MOST_THREADS && (set >> thread & 1); }

static void refuse(const char *what, uint32_t at) {
    printf("%s: step %u\n", what, at);
    exit(4);
}

// `3x0,2x1`: three steps of thread 0, two of thread 1.
void read_schedule(void) {
    const char *at = request.schedule;
    while (*at) {
        char *rest;
        uint32_t count = 1, thread = (uint32_t)strtoul(at, &rest, 10);
        if (*rest == 'x') count = thread, thread = (uint32_t)strtoul(rest + 1, &rest, 10);
        if (rest == at || (*rest && *rest != ',')) refuse("this is no schedule", scheduled_count);
        while (count-- && scheduled_count < MOST_STEPS) scheduled[scheduled_count++] = (uint8_t)thread;
        at = *rest ? rest + 1 : rest;
    }
}

// Whether the steps that came next of two threads touched one another.
static int touch_one_another(const struct touches *one, const struct touches *other) {
    for (int i = 0; i < one->count; i++)
        for (int k = 0; k < other->count; k++)
            if (one->of[i].word == other->of[k].word && (one->of[i].writes || other->of[k].writes)) return 1;
    return 0;
}

// An earlier event, if there is one, and this next step of a thread race, unless one has to come first: a thread that could have
// gone on then, and leads to this step, is to be tried there.
static void turn_around(int event, uint32_t thread) {
    if (event < 0 || events[event].thread == thread || threads[thread].clock[events[event].thread] >= events[event].number) return;
    struct moment *at = &moments[event];
    if (has(at->enabled, thread)) {
        at->to_try |= 1u << thread;
        return;
    }
    for (uint32_t t = 0; t < thread_count; t++) {
        if (!has(at->enabled, t)) continue;
        uint32_t k = (uint32_t)event;
        while (k < depth && events[k].thread != t) k++;
        if (k < depth && threads[thread].clock[t] >= events[k].number) {
            at->to_try |= 1u << t;
            return;
        }
    }
    at->to_try |= at->enabled;
}

// Earlier steps of others after which the next step of each thread does not have to come.
void find_races(void) {
    for (uint32_t t = 0; t < thread_count; t++) {
        if (threads[t].state != READY) continue;
        struct touches touches = touches_of(&threads[t].next);
        for (int k = 0; k < touches.count; k++) {
            const struct word *word = word_at(touches.of[k].word);
            turn_around(word->writer, t);
            for (int r = 0; r < MOST_THREADS && touches.of[k].writes; r++) turn_around(word->readers[r], t);
        }
    }
}

static void note_moment(struct moment *it, uint32_t enabled, uint32_t last) {
    memset(it, 0, sizeof *it);
    it->enabled = enabled;
    it->last = last;
    it->last_could_go_on = has(enabled, last) && threads[last].next.kind != YIELD;
    for (uint32_t t = 0; t < thread_count; t++)
        if (threads[t].state == READY) it->touches[t] = touches_of(&threads[t].next);
    if (!depth) return;
    const struct moment *up = &moments[depth - 1];
    it->preempted = up->preempted + (up->last_could_go_on && up->chosen != up->last);
    // What was tried before stays known until a step touches it.
    uint32_t asleep = (up->asleep | up->tried) & ~(1u << up->chosen);
    for (uint32_t t = 0; t < thread_count; t++)
        if (has(asleep, t) && !touch_one_another(&up->touches[t], &up->touches[up->chosen])) it->asleep |= 1u << t;
}

// Which of these may be chosen. None if each order from here on was seen, or will be.
static uint32_t choices(const struct moment *it) {
    if (request.way == RACES) return it->enabled & ~it->asleep;
    if (request.way == PLAIN) return it->enabled;
    if (request.way == REPLAY) {
        if (depth >= scheduled_count) return it->enabled;
        if (!has(it->enabled, scheduled[depth])) refuse("the thread of the schedule cannot go on", depth);
        return 1u << scheduled[depth];
    }
    uint32_t preempted = request.way == PREEMPTIONS ? it->preempted : 0;
    return is_known_state(it->last_could_go_on ? it->last : NOBODY, preempted) ? 0 : it->enabled;
}

// The thread that makes the next step, or NOBODY if this execution has shown all that it can.
uint32_t choose(uint32_t enabled, uint32_t last) {
    struct moment *it = &moments[depth];
    if (depth < kept) {
        if (it->enabled != enabled) refuse("the program is not the same in two executions", depth);
        return it->chosen;
    }
    note_moment(it, enabled, last);
    uint32_t among = choices(it);
    if (!among) return NOBODY;
    it->chosen = has(among, last) && threads[last].next.kind != YIELD ? last : lowest(among);
    it->to_try = 1u << it->chosen;
    return it->chosen;
}

static uint32_t left_to_try(const struct moment *it) {
    if (request.way == RACES) return it->to_try & it->enabled & ~it->tried & ~it->asleep;
    if (request.way == PREEMPTIONS && it->last_could_go_on && it->preempted >= request.preemptions) return 0;
    return it->enabled & ~it->tried;
}

// Whether there is an order left. The choices up to there stay.
int go_to_next_order(void) {
    for (uint32_t at = depth; at > 0; at--) {
        struct moment *it = &moments[at - 1];
        it->tried |= 1u << it->chosen;
        uint32_t left = left_to_try(it);
        if (!left) continue;
        it->chosen = lowest(left);
        kept = at;
        return 1;
    }
    return 0;
}
