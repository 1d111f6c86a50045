/* No call on a table needs more stack than the header says, and the worst one needs more than half of it. Each runs on a stack of its own
   that was painted before: what has lost its paint was needed, the call's arguments among it. What a call of nothing needs is the host's,
   and is taken off. */
#include <stdio.h>
#include <string.h>
#include <ucontext.h>

#include "gemthatch.h"

static uint8_t stack[4 * GEMTHATCH_STACK + 65536];
static ucontext_t host, apart;

/* The table on which each call is made, and what it was before, so that the next call finds the same. */
static uint8_t memory[GEMTHATCH_MEMORY_MAX], map[GEMTHATCH_MAP_MAX], list[GEMTHATCH_LIST_MAX];
static uint8_t memory_before[sizeof memory], map_before[sizeof map];
static gemthatch_channel channel, channel_before;

/* What a call gave. It is not looked at: a refused call needs its stack, too. */
static volatile uint32_t answer;

/* A log record for each operation: to slot 65535; the largest reserve, of station 65535; and station 1. */
static const uint8_t clock_entry[GEMTHATCH_ENTRY_OCTETS] = { GEMTHATCH_OPERATION_CLOCK, 0, 0, 0, 0, 0, 0, 0, 255, 255 };
static const uint8_t reserve_entry[GEMTHATCH_ENTRY_OCTETS] = { GEMTHATCH_OPERATION_RESERVE, 60, 3, 32, 255, 255, 0, 0, 2, 0, 0, 0,
                                                               0, 0, 0, 0, 0, 0, 0, 0, 127 };
static const uint8_t distance_entry[GEMTHATCH_ENTRY_OCTETS] = { GEMTHATCH_OPERATION_DISTANCE, 0, 0, 0, 1 };
static const uint8_t wipe_entry[GEMTHATCH_ENTRY_OCTETS] = { GEMTHATCH_OPERATION_WIPE, 0, 0, 0, 1 };

static void replay_step(const uint8_t *entry)
{
    answer = gemthatch_channel_replay_step(&channel, entry, GEMTHATCH_ENTRY_OCTETS);
}

/* A search of so many starts, from so many slots behind now on. */
static void search(uint32_t behind, uint32_t starts, uint32_t length)
{
    const uint32_t lo = channel.now + behind;
    answer = gemthatch_channel_search(&channel, lo, lo + starts - 1, length, GEMTHATCH_WANTED_MAX, list, sizeof list);
}

static void nothing(void) {}
static void open_again(void) { answer = gemthatch_channel_open(&channel, memory, channel.octets, map, channel.m1, channel.m1); }
static void clock_now(void) { answer = gemthatch_channel_clock(&channel, channel.now); }
static void clock_1(void) { answer = gemthatch_channel_clock(&channel, channel.now + 1); }
static void clock_100(void) { answer = gemthatch_channel_clock(&channel, channel.now + 100); }
static void clock_m1_less_1(void) { answer = gemthatch_channel_clock(&channel, channel.now + channel.m1 - 1); }
static void clock_m1(void) { answer = gemthatch_channel_clock(&channel, channel.now + channel.m1); }
static void clock_more(void) { answer = gemthatch_channel_clock(&channel, channel.now + 2 * channel.m1 + 1); }
static void clock_last(void) { answer = gemthatch_channel_clock(&channel, GEMTHATCH_SLOT_MAX); }
static void reserve(void)
{
    answer = gemthatch_channel_reserve(&channel, 70000, GEMTHATCH_RATE_MAX, GEMTHATCH_SUPERFRAMES_MAX, GEMTHATCH_BS_MIN,
                                       GEMTHATCH_LENGTH_MAX, GEMTHATCH_BO_MAX, GEMTHATCH_KIND_OFFSET, 1.0, 1.0, GEMTHATCH_LIMIT_DEFAULT);
}
static void distance(void)
{
    answer = gemthatch_channel_distance(&channel, 1, GEMTHATCH_KIND_OFFSET, 200.0, 200.0, GEMTHATCH_LIMIT_DEFAULT);
}
static void wipe(void) { answer = gemthatch_channel_wipe(&channel, 1); }
static void replay_clock(void) { replay_step(clock_entry); }
static void replay_reserve(void) { replay_step(reserve_entry); }
static void replay_distance(void) { replay_step(distance_entry); }
static void replay_wipe(void) { replay_step(wipe_entry); }
static void search_one(void) { search(0, 1, 1); }
static void search_map(void) { search(0, channel.m1 - GEMTHATCH_LENGTH_MAX + 1, GEMTHATCH_LENGTH_MAX); }
static void search_10_outside(void) { search(channel.m1, 10, 1); }
static void search_100_outside(void) { search(channel.m1, channel.m1 < 100 ? channel.m1 : 100, 1); }
static void search_1000_outside(void) { search(channel.m1, channel.m1 < 1000 ? channel.m1 : 1000, GEMTHATCH_LENGTH_MAX); }
static void search_outside(void) { search(1, channel.m1, GEMTHATCH_LENGTH_MAX); }
static void slot_state(void) { answer = gemthatch_channel_slot_state(&channel, channel.now + channel.m1); }
static void record_at(void) { answer = gemthatch_channel_record_at(&channel, channel.count - 1).record.first; }

/* Each call by its name, with the most that it has needed. */
static struct {
    const char *name;
    void (*call)(void);
    size_t most;
} calls[] = {
    { "open", open_again, 0 },
    { "clock, to now again", clock_now, 0 },
    { "clock, by 1", clock_1, 0 },
    { "clock, by 100", clock_100, 0 },
    { "clock, by M1 - 1", clock_m1_less_1, 0 },
    { "clock, by M1", clock_m1, 0 },
    { "clock, by more than two superframes", clock_more, 0 },
    { "clock, to the last slot", clock_last, 0 },
    { "reserve", reserve, 0 },
    { "distance", distance, 0 },
    { "wipe", wipe, 0 },
    { "replay step, a clock", replay_clock, 0 },
    { "replay step, a reserve", replay_reserve, 0 },
    { "replay step, a distance", replay_distance, 0 },
    { "replay step, a wipe", replay_wipe, 0 },
    { "search of one start", search_one, 0 },
    { "search of the map", search_map, 0 },
    { "search of 10 starts outside the map", search_10_outside, 0 },
    { "search of 100 starts outside the map", search_100_outside, 0 },
    { "search of 1,000 starts outside the map", search_1000_outside, 0 },
    { "search of M1 starts, outside the map", search_outside, 0 },
    { "slot state", slot_state, 0 },
    { "record at", record_at, 0 },
};

/* Octets from the stack's beginning, which is its upper end, to the last one that lost its paint. */
static size_t depth(void (*call)(void), uint8_t paint)
{
    size_t kept = 0;
    memset(stack, paint, sizeof stack);
    if (getcontext(&apart) != 0)
        return sizeof stack;
    apart.uc_stack.ss_sp = stack;
    apart.uc_stack.ss_size = sizeof stack;
    apart.uc_link = &host;
    makecontext(&apart, call, 0);
    if (swapcontext(&host, &apart) != 0)
        return sizeof stack;
    while (kept < sizeof stack && stack[kept] == paint)
        kept++;
    return sizeof stack - kept;
}

/* By two paints, as one might be what the call itself leaves there. */
static size_t need(void (*call)(void))
{
    size_t most = 0;
    uint8_t paint;
    for (paint = 0x5A; paint <= 0x5B; paint++) {
        const size_t host_alone = depth(nothing, paint), whole = depth(call, paint);
        if (whole - host_alone > most)
            most = whole - host_alone;
        memcpy(memory, memory_before, sizeof memory);
        memcpy(map, map_before, sizeof map);
        channel = channel_before;
    }
    return most;
}

/* From here on every call finds the table as it is now. */
static void keep(void)
{
    memcpy(memory_before, memory, sizeof memory);
    memcpy(map_before, map, sizeof map);
    channel_before = channel;
}

/* A table of near records, of far ones, or of both: one in so many is far. Of each eight one has several blocks to a superframe, so that
   filling it doesn't take long. A place is left. None is refused. */
static int fill(uint32_t m1, size_t room, uint32_t fars)
{
    uint32_t i, refused = gemthatch_channel_open(&channel, memory, room * GEMTHATCH_RECORD_OCTETS, map, m1, m1);
    for (i = 0; i + 1 < room && refused == 0; i++)
        refused = gemthatch_channel_reserve(&channel, i, i % 8 == 0 ? 1 + i / 8 % GEMTHATCH_RATE_MAX : 1, 1 + i % GEMTHATCH_SUPERFRAMES_MAX,
                                            GEMTHATCH_BS_MIN + i % (GEMTHATCH_BS_MAX - 1), 1 + i % GEMTHATCH_LENGTH_MAX,
                                            (int32_t)(i % (GEMTHATCH_BO_MAX + 1u)),
                                            GEMTHATCH_KIND_RANGE, fars > 0 && i % fars == 0 ? GEMTHATCH_MILES_MAX : 0.0, 0.0,
                                            GEMTHATCH_LIMIT_DEFAULT);
    keep();
    return refused == 0;
}

int main(void)
{
    static const uint32_t m1s[] = { GEMTHATCH_M1_MIN, GEMTHATCH_M1_DEFAULT, GEMTHATCH_M1_MAX };
    static const size_t rooms[] = { 2, 64, GEMTHATCH_RECORDS_MAX };
    const size_t number = sizeof calls / sizeof *calls;
    size_t worst = 0, i, j, k, full;
    uint32_t fars;
    for (i = 0; i < sizeof m1s / sizeof *m1s; i++)
        for (j = 0; j < sizeof rooms / sizeof *rooms; j++)
            for (fars = 0; fars <= 2; fars++) {
                if (!fill(m1s[i], rooms[j], fars)) {
                    printf("a table of %u records could not be filled\n", (unsigned)rooms[j]);
                    return 1;
                }
                for (full = 0; full <= 1; full++) {
                    for (k = 0; k < number; k++) {
                        const size_t needed = need(calls[k].call);
                        if (needed > calls[k].most)
                            calls[k].most = needed;
                    }
                    reserve();
                    keep();
                }
            }
    for (k = 0; k < number; k++) {
        printf("%-40s %6u\n", calls[k].name, (unsigned)calls[k].most);
        if (calls[k].most > calls[worst].most)
            worst = k;
    }
    printf("the worst is %s: %u octets of stack, and the header says %u\n", calls[worst].name, (unsigned)calls[worst].most,
           (unsigned)GEMTHATCH_STACK);
    return calls[worst].most <= GEMTHATCH_STACK && calls[worst].most > GEMTHATCH_STACK / 2 ? 0 : 1;
}
