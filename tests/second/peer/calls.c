/*
 * The table calls with their map, and the search, in plain C, written for speed, with the archive's checks in the archive's order. An octet to
 * a slot is marked record by record, and then compared or gone along. It reads and writes numbers as x86-64 has them in memory. There are no
 * intrinsics: of loops over a fixed number of octets the compiler makes vectors.
 */
#include <stddef.h>
#include <stdint.h>
#include <string.h>

enum {
    RECORD = 16,
    MOST_RECORDS = 2048,
    MOST_RATE = 60,
    MOST_LENGTH = 32,
    MOST_WANTED = 16,
    MOST_BS = 255,
    MOST_MILES = 4096,
    ENTRY = 24,
    STEP = 60,
    LONGEST = 15360,
    LAST_SLOT = 1000000000,
    REFUSED = 2000000000
};

enum { FREE, REUSABLE, TAKEN };

typedef struct {
    uint8_t *memory;
    size_t octets;
    uint8_t *map;
    size_t map_octets;
    uint32_t m1, now, count;
} Table;

typedef struct {
    uint32_t lo, hi, length, wanted;
} Query;

/* The tail is bo, as an octet, and the three zeros behind it. */
typedef struct {
    uint32_t station, first, rate, superframes, length, far, tail;
    int32_t bo;
} Record;

static inline uint32_t number_at(const uint8_t *octets)
{
    uint32_t number;
    memcpy(&number, octets, sizeof number);
    return number;
}

static inline uint32_t smaller(uint32_t a, uint32_t b)
{
    return a < b ? a : b;
}

static inline uint32_t larger(uint32_t a, uint32_t b)
{
    return a < b ? b : a;
}

/* Field by field: a record copied as a whole goes over the stack. */
static inline Record record_at(const Table *table, uint32_t i)
{
    const uint8_t *at = table->memory + (size_t)i * RECORD;
    const Record record = { number_at(at), number_at(at + 4), at[8], at[9], at[10], at[11], number_at(at + 12), (int8_t)at[12] };
    return record;
}

/* From the first slot of a superframe's blocks to one past their last. */
static inline uint32_t span(const Record *record, uint32_t spacing)
{
    return (record->rate - 1) * spacing + record->length;
}

/* One past the last slot of a record's own superframes. */
static inline uint32_t own_past(const Record *record, uint32_t m1, uint32_t spacing)
{
    return record->first + (record->superframes - 1) * m1 + span(record, spacing);
}

/* Where the further superframe of blocks starts, which there is unless bo is 0. */
static inline uint32_t further(const Record *record, uint32_t m1)
{
    return record->first + record->superframes * m1 + (uint32_t)record->bo;
}

/* One past the last slot of a record. There is no branch by whether a further superframe ends it: it would often be guessed wrong. */
static inline uint32_t past(const Record *record, uint32_t m1, uint32_t spacing)
{
    const int32_t later = (int32_t)m1 + record->bo;
    const uint32_t has_further = -(uint32_t)(record->bo != 0);
    return own_past(record, m1, spacing) + ((uint32_t)(later < 0 ? 0 : later) & has_further);
}

/* ---- soundness -------------------------------------------------------------------------------------------------------------------------- */

static inline int is_within(uint32_t lo, uint32_t hi, uint32_t x)
{
    return (x >= lo) & (x <= hi);
}

/* The ranges are tested together, so that there is one branch to a record. */
static inline int is_good(const Record *record, uint32_t m1, uint32_t now)
{
    const int in_range = (record->station < 1u << 27) & (record->first <= LAST_SLOT + MOST_BS) & is_within(1, MOST_RATE, record->rate) &
                         is_within(1, 3, record->superframes) & is_within(1, MOST_LENGTH, record->length) & (record->far <= 1) &
                         (record->tail <= 255) & (record->tail != 128);
    return in_range && ((now < past(record, m1, m1 / record->rate)) & ((int32_t)further(record, m1) >= 0));
}

static int is_sound(const Table *table)
{
    const size_t capacity = table->octets / RECORD;
    if (table->octets % RECORD != 0 || capacity < 1 || capacity > MOST_RECORDS || table->m1 < STEP || table->m1 > LONGEST ||
        table->m1 % STEP != 0 || table->now > LAST_SLOT || table->count > capacity)
        return 0;
    for (uint32_t i = 0; i < table->count; i++) {
        const Record record = record_at(table, i);
        if (!is_good(&record, table->m1, table->now))
            return 0;
    }
    uint32_t seen = 0;
    for (size_t at = (size_t)table->count * RECORD; at < table->octets; at += sizeof seen)
        seen |= number_at(table->memory + at);
    return seen == 0;
}

/* ---- the marks -------------------------------------------------------------------------------------------------------------------------- */

/* Behind the window there is room for a block that overhangs it: a block is always marked in a fixed number of octets. */
enum { ROOM = MOST_LENGTH, WIDE = MOST_LENGTH, NARROW = MOST_LENGTH / 2, MOST_SLOTS = LONGEST + MOST_LENGTH - 1 };

/* How many records are marked between two looks whether any more are needed. */
enum { BETWEEN_LOOKS = 16 };

typedef struct {
    uint8_t *marks;
    uint32_t lo, end;
} Window;

/* A block's marks and then none, for a block of each length: they begin so many octets before the end of the marks. */
#define MARKS_8(mark) mark, mark, mark, mark, mark, mark, mark, mark
#define MARKS_32(mark) MARKS_8(mark), MARKS_8(mark), MARKS_8(mark), MARKS_8(mark)
static const uint8_t stairs[2][2 * MOST_LENGTH] = { { MARKS_32(TAKEN) }, { MARKS_32(REUSABLE) } };

static inline void raise(uint8_t *restrict marks, const uint8_t *restrict to, size_t octets)
{
    for (size_t i = 0; i < octets; i++)
        marks[i] = marks[i] < to[i] ? to[i] : marks[i];
}

static inline void mark_blocks(Window w, uint32_t start, uint32_t stop, uint32_t spacing, const uint8_t *stair, size_t octets)
{
    for (; start < stop; start += spacing)
        raise(w.marks + (start - w.lo), stair, octets);
}

/* The blocks of one superframe, of which the last is over at a slot. */
static inline void mark_superframe(Window w, const Record *record, uint32_t start, uint32_t over, uint32_t spacing)
{
    const uint8_t *stair = stairs[record->far] + MOST_LENGTH - record->length;
    const uint32_t stop = smaller(over, w.end);
    if (spacing <= record->length) {
        /* Blocks that touch are one run. */
        for (uint32_t slot = larger(start, w.lo); slot < stop; slot++)
            raise(w.marks + (slot - w.lo), stair, 1);
        return;
    }
    if (start < w.lo) {
        /* The last block that began before the window, as far as it reaches into it. */
        start += (w.lo - start) / spacing * spacing;
        const uint32_t gone = smaller(w.lo - start, record->length);
        raise(w.marks, stair + gone, WIDE);
        start += spacing;
    }
    if (record->length <= NARROW)
        mark_blocks(w, start, stop, spacing, stair, NARROW);
    else
        mark_blocks(w, start, stop, spacing, stair, WIDE);
}

/* Whether slots meet the window. One test, and no branch by which side of the window they lie on: it would often be guessed wrong. */
static inline int meets(Window w, uint32_t start, uint32_t over)
{
    return larger(start, w.lo) < smaller(over, w.end);
}

static inline void mark(Window w, const Record *record, uint32_t m1)
{
    /* A single block is not divided for. */
    const uint32_t spacing = record->rate == 1 ? m1 : m1 / record->rate;
    const uint32_t blocks = span(record, spacing), next = further(record, m1);
    const int own = meets(w, record->first, own_past(record, m1, spacing));
    const int more = (record->bo != 0) & meets(w, next, next + blocks);
    if (!(own | more))
        return;
    if (own) {
        uint32_t start = record->first;
        for (uint32_t k = 0; k < record->superframes && start < w.end; k++, start += m1) {
            if (start + blocks > w.lo)
                mark_superframe(w, record, start, start + blocks, spacing);
        }
    }
    if (more)
        mark_superframe(w, record, next, next + blocks, spacing);
}

/* Which records are marked: those from a place on that are of a station, or not of it, or any. */
typedef struct {
    uint32_t from, station;
    enum { ANY, OWN, OTHERS } whose;
} Part;

static inline int is_in(Part part, uint32_t station)
{
    return part.whose == ANY || (part.station == station) == (part.whose == OWN);
}

/* Raises the marks of a window, until all of it is taken. Once no slot is free, far records change nothing. */
static void raise_window(const Table *table, Part part, Window w)
{
    const uint32_t slots = w.end - w.lo;
    uint32_t taken = 0, held = 0;
    for (uint32_t i = part.from; i < table->count;) {
        if (i > part.from) {
            while (taken < slots && w.marks[taken] == TAKEN)
                taken++;
            if (taken == slots)
                return;
            held = larger(held, taken);
            while (held < slots && w.marks[held] != FREE)
                held++;
        }
        for (const uint32_t look = smaller(i + BETWEEN_LOOKS, table->count); i < look; i++) {
            const Record record = record_at(table, i);
            if (is_in(part, record.station) && !((held == slots) & record.far))
                mark(w, &record, table->m1);
        }
    }
}

static void mark_window(const Table *table, Part part, Window w)
{
    memset(w.marks, FREE, w.end - w.lo + ROOM);
    raise_window(table, part, w);
}

static const Part all = { 0, 0, ANY };

/* ---- the map ---------------------------------------------------------------------------------------------------------------------------- */

/* Two windows of a superframe, one behind the other, or one of two superframes. */
enum { MOST_MARKS = 2 * (LONGEST + ROOM) };

static int is_map(const Table *table, const uint8_t *marks)
{
    return memcmp(table->map, marks, table->m1) == 0;
}

/* The refusal before a call's own tests: the marks are those of the map's slots, and of so many more. */
static uint32_t tested(const Table *table, uint8_t *marks, uint32_t more)
{
    if (!is_sound(table))
        return 11;
    if (table->map_octets != table->m1)
        return 25;
    mark_window(table, all, (Window){ marks, table->now, table->now + table->m1 + more });
    return is_map(table, marks) ? 0 : 25;
}

/* The same where a station's records are to change: the others' marks, and behind them all. */
static uint32_t tested_apart(const Table *table, uint8_t *marks, uint32_t station)
{
    if (!is_sound(table))
        return 11;
    if (table->map_octets != table->m1)
        return 25;
    const uint32_t lo = table->now, end = lo + table->m1;
    uint8_t *both = marks + table->m1 + ROOM;
    mark_window(table, (Part){ 0, station, OTHERS }, (Window){ marks, lo, end });
    memcpy(both, marks, table->m1 + ROOM);
    raise_window(table, (Part){ 0, station, OWN }, (Window){ both, lo, end });
    return is_map(table, both) ? 0 : 25;
}

/* ---- the calls -------------------------------------------------------------------------------------------------------------------------- */

uint32_t peer_open(uint8_t *memory, size_t octets, uint8_t *map, size_t map_octets, uint32_t m1)
{
    if (m1 < STEP || m1 > LONGEST || m1 % STEP != 0)
        return REFUSED + 10;
    if (octets % RECORD != 0 || octets < RECORD || octets > MOST_RECORDS * RECORD)
        return REFUSED + 1;
    if (map_octets != m1)
        return REFUSED + 25;
    memset(memory, 0, octets);
    memset(map, FREE, map_octets);
    return 0;
}

/* Records are moved whether they stay or not: a branch by that would often be guessed wrong. */
static uint32_t sweep(const Table *table, int by_time, uint32_t key)
{
    uint32_t kept = 0;
    for (uint32_t i = 0; i < table->count; i++) {
        const Record record = record_at(table, i);
        memmove(table->memory + (size_t)kept * RECORD, table->memory + (size_t)i * RECORD, RECORD);
        kept += by_time ? key < past(&record, table->m1, table->m1 / record.rate) : record.station != key;
    }
    memset(table->memory + (size_t)kept * RECORD, 0, (size_t)(table->count - kept) * RECORD);
    return table->count - kept;
}

uint32_t peer_clock(uint8_t *memory, size_t octets, uint8_t *map, size_t map_octets, uint32_t m1, uint32_t now, uint32_t count, uint32_t slot)
{
    Table table = { memory, octets, map, map_octets, m1, now, count };
    uint8_t marks[MOST_MARKS];
    const int overlap = slot >= now && slot - now <= m1;
    const uint32_t refused = tested(&table, marks, overlap ? slot - now : 0);
    if (refused != 0)
        return REFUSED + refused;
    if (slot < now)
        return REFUSED + 12;
    if (slot > LAST_SLOT)
        return REFUSED + 13;
    const uint32_t gone = sweep(&table, 1, slot);
    if (overlap) {
        memcpy(map, marks + (slot - now), m1);
        return gone;
    }
    table.now = slot;
    table.count -= gone;
    mark_window(&table, all, (Window){ marks, slot, slot + m1 });
    memcpy(map, marks, m1);
    return gone;
}

static int limit_fits(double limit)
{
    return limit >= 0 && limit <= MOST_MILES;
}

static int is_far(uint32_t kind, double a, double b, double limit)
{
    if (kind == 1)
        return a >= limit && a <= MOST_MILES;
    return kind == 2 && a >= -MOST_MILES && a <= MOST_MILES && b >= -MOST_MILES && b <= MOST_MILES && a * a + b * b >= limit * limit;
}

/* A record as it stands in the table: two numbers, four octets, bo and three zeros. */
typedef struct {
    uint8_t octets[RECORD];
} Stored;

static Stored stored(uint32_t station, uint32_t first, uint32_t rate, uint32_t superframes, uint32_t length, int far, int32_t bo)
{
    Stored record = { { 0 } };
    memcpy(record.octets, &station, sizeof station);
    memcpy(record.octets + 4, &first, sizeof first);
    record.octets[8] = (uint8_t)rate;
    record.octets[9] = (uint8_t)superframes;
    record.octets[10] = (uint8_t)length;
    record.octets[11] = (uint8_t)far;
    record.octets[12] = (uint8_t)bo;
    return record;
}

/* The station tells most records apart; far is no part of what makes two the same. */
static int is_held(const Table *table, Stored record)
{
    for (uint32_t i = 0; i < table->count; i++) {
        Stored held;
        memcpy(&held, table->memory + (size_t)i * RECORD, RECORD);
        if (number_at(held.octets) != number_at(record.octets))
            continue;
        held.octets[11] = record.octets[11];
        if (memcmp(&held, &record, RECORD) == 0)
            return 1;
    }
    return 0;
}

uint32_t peer_reserve(uint8_t *memory, size_t octets, uint8_t *map, size_t map_octets, uint32_t m1, uint32_t now, uint32_t count,
                      uint32_t station, uint32_t rate, uint32_t superframes, uint32_t bs, uint32_t length, int32_t bo, uint32_t kind, double a,
                      double b, double limit)
{
    Table table = { memory, octets, map, map_octets, m1, now, count };
    uint8_t marks[LONGEST + ROOM];
    const uint32_t refused = tested(&table, marks, 0);
    if (refused != 0)
        return REFUSED + refused;
    if (station >= 1u << 27)
        return REFUSED + 8;
    if (rate < 1 || rate > MOST_RATE)
        return REFUSED + 14;
    if (superframes == 0)
        return REFUSED + 15;
    if (superframes > 3 || length < 1 || length > MOST_LENGTH)
        return REFUSED + 9;
    if (bs < 2 || bs > MOST_BS)
        return REFUSED + 5;
    if (bo < -127 || bo > 127)
        return REFUSED + 6;
    if ((int32_t)(bs + superframes * m1) + bo < 0)
        return REFUSED + 24;
    if (!limit_fits(limit))
        return REFUSED + 18;
    const Stored record = stored(station, now + bs, rate, superframes, length, is_far(kind, a, b, limit), bo);
    if (is_held(&table, record))
        return REFUSED + 16;
    if (count == octets / RECORD)
        return REFUSED + 17;
    memcpy(memory + (size_t)count * RECORD, &record, RECORD);
    table.count++;
    raise_window(&table, (Part){ count, 0, ANY }, (Window){ marks, now, now + m1 });
    memcpy(map, marks, m1);
    return 0;
}

uint32_t peer_distance(uint8_t *memory, size_t octets, uint8_t *map, size_t map_octets, uint32_t m1, uint32_t now, uint32_t count,
                       uint32_t station, uint32_t kind, double a, double b, double limit)
{
    const Table table = { memory, octets, map, map_octets, m1, now, count };
    uint8_t marks[MOST_MARKS];
    const uint32_t refused = tested_apart(&table, marks, station);
    if (refused != 0)
        return REFUSED + refused;
    if (station >= 1u << 27)
        return REFUSED + 8;
    if (!limit_fits(limit))
        return REFUSED + 18;
    const uint8_t far = (uint8_t)is_far(kind, a, b, limit);
    uint32_t held = 0;
    for (uint32_t i = 0; i < count; i++) {
        uint8_t *record = memory + (size_t)i * RECORD;
        if (number_at(record) == station) {
            record[11] = far;
            held++;
        }
    }
    raise_window(&table, (Part){ 0, station, OWN }, (Window){ marks, now, now + m1 });
    memcpy(map, marks, m1);
    return held;
}

uint32_t peer_wipe(uint8_t *memory, size_t octets, uint8_t *map, size_t map_octets, uint32_t m1, uint32_t now, uint32_t count, uint32_t station)
{
    const Table table = { memory, octets, map, map_octets, m1, now, count };
    uint8_t marks[MOST_MARKS];
    const uint32_t refused = tested_apart(&table, marks, station);
    if (refused != 0)
        return REFUSED + refused;
    if (station >= 1u << 27)
        return REFUSED + 8;
    const uint32_t gone = sweep(&table, 0, station);
    memcpy(map, marks, m1);
    return gone;
}

/* A log record's unused fields are 0; its operation says which call it is. */
uint32_t peer_replay_step(uint8_t *memory, size_t octets, uint8_t *map, size_t map_octets, uint32_t m1, uint32_t now, uint32_t count,
                          const uint8_t *entry, size_t entry_octets)
{
    if (entry_octets != ENTRY)
        return REFUSED + 23;
    const uint32_t station = number_at(entry + 4), slot = number_at(entry + 8), miles = number_at(entry + 12), limit = number_at(entry + 16);
    const uint32_t series = entry[1] | entry[2] | entry[3] | entry[20], closing = entry[21] | entry[22] | entry[23];
    const uint32_t kind = miles == UINT32_MAX ? 0 : 1;
    if (closing == 0) {
        if (entry[0] == 1 && (series | station | miles | limit) == 0)
            return peer_clock(memory, octets, map, map_octets, m1, now, count, slot);
        if (entry[0] == 2)
            return peer_reserve(memory, octets, map, map_octets, m1, now, count, station, entry[1], entry[2], slot, entry[3], (int8_t)entry[20],
                                kind, miles, 0, limit);
        if (entry[0] == 3 && (series | slot) == 0)
            return peer_distance(memory, octets, map, map_octets, m1, now, count, station, kind, miles, 0, limit);
        if (entry[0] == 4 && (series | slot | miles | limit) == 0)
            return peer_wipe(memory, octets, map, map_octets, m1, now, count, station);
    }
    return REFUSED + 23;
}

/* ---- the search ------------------------------------------------------------------------------------------------------------------------- */

/* What a search has found: free starts, and reusable ones in case there are too few. */
typedef struct {
    uint32_t free[MOST_WANTED], reusable[MOST_WANTED];
    uint32_t frees, reusables;
} Starts;

/* How many slots of a block, from its last back, have a state below one. */
static inline uint32_t run_below(const uint8_t *block, uint32_t length, uint8_t state)
{
    uint32_t run = 0;
    while (run < length && block[length - 1 - run] < state)
        run++;
    return run;
}

static void go_along(const uint8_t *marks, const Query *query, Starts *starts)
{
    const uint32_t many = query->hi - query->lo + 1, length = query->length;
    for (uint32_t at = 0; at < many;) {
        /* Once there are enough reusable starts only free ones count. No block that holds a slot beyond can be used: the next is behind it. */
        const uint8_t below = starts->reusables == query->wanted ? REUSABLE : TAKEN;
        const uint32_t run = run_below(marks + at, length, below);
        if (run < length) {
            at += length - run;
            continue;
        }
        /* Then slot by slot, as long as it goes. */
        uint32_t free = run_below(marks + at, length, REUSABLE);
        for (;;) {
            if (free >= length) {
                starts->free[starts->frees++] = query->lo + at;
                if (starts->frees == query->wanted)
                    return;
            } else {
                starts->reusable[starts->reusables++] = query->lo + at;
            }
            at++;
            const uint8_t state = marks[at + length - 1];
            if (at == many || state >= below || starts->reusables == query->wanted)
                break;
            free = state == FREE ? free + 1 : 0;
        }
    }
}

static uint32_t refusal(const Table *table, const Query *query, size_t list_octets)
{
    if (query->lo < table->now || query->lo > query->hi || query->hi > LAST_SLOT || query->hi - query->lo >= table->m1)
        return 19;
    if (query->length < 1 || query->length > MOST_LENGTH)
        return 9;
    if (query->wanted < 1 || query->wanted > MOST_WANTED)
        return 20;
    return list_octets / 4 < query->wanted ? 1 : 0;
}

/* The map is the slot states that it was just found to be: what lies in it is gone along there. */
uint32_t peer_search(uint8_t *memory, size_t octets, uint8_t *map, size_t map_octets, uint32_t m1, uint32_t now, uint32_t count, uint32_t lo,
                     uint32_t hi, uint32_t length, uint32_t wanted, uint8_t *list, size_t list_octets)
{
    const Table table = { memory, octets, map, map_octets, m1, now, count };
    const Query query = { lo, hi, length, wanted };
    uint8_t marks[MOST_SLOTS + ROOM];
    memset(list, 0, list_octets);
    uint32_t refused = tested(&table, marks, 0);
    if (refused == 0)
        refused = refusal(&table, &query, list_octets);
    if (refused != 0)
        return REFUSED + refused;
    const uint8_t *states = marks + (lo - now);
    if (hi + length > now + m1) {
        mark_window(&table, all, (Window){ marks, lo, hi + length });
        states = marks;
    }
    Starts starts;
    starts.frees = starts.reusables = 0;
    go_along(states, &query, &starts);
    const uint32_t found = smaller(starts.frees + starts.reusables, wanted);
    if (found == 0)
        return REFUSED + 21;
    memcpy(list, starts.free, 4 * starts.frees);
    memcpy(list + 4 * starts.frees, starts.reusable, 4 * (found - starts.frees));
    return found;
}
