/* What the header says in numbers is what the archive does: both sides of each limit, each refusal by its name, the channel's state, its
   map, the structs' places. */
#include <math.h>
#include <stddef.h>
#include <stdio.h>
#include <string.h>

#include "gemthatch.h"

static int failed = 0;

static void check(int so, int line)
{
    if (!so) {
        printf("tests/header.c:%d: not so\n", line);
        failed = 1;
    }
}

#define IS(call, number) check((call) == (number), __LINE__)
#define REFUSES(call, name) check(gemthatch_refusal_of(call) == GEMTHATCH_REFUSED_##name, __LINE__)

static uint8_t memory[GEMTHATCH_MEMORY_MAX + GEMTHATCH_RECORD_OCTETS];
static uint8_t map[GEMTHATCH_MAP_MAX + 1u];
static uint8_t list[GEMTHATCH_LIST_MAX];
static gemthatch_channel channel;

/* Opens the channel with a map as long as M1 asks for. */
static uint32_t open_with(size_t octets, uint32_t m1)
{
    return gemthatch_channel_open(&channel, memory, octets, map, m1, m1);
}

static void open_channel(size_t records)
{
    IS(open_with(records * GEMTHATCH_RECORD_OCTETS, GEMTHATCH_M1_DEFAULT), 0u);
}

/* A reserve that is accepted but for what is asked of it. */
static uint32_t reserve(uint32_t station, uint32_t rate, uint32_t superframes, uint32_t bs, uint32_t length, int32_t bo, double limit)
{
    return gemthatch_channel_reserve(&channel, station, rate, superframes, bs, length, bo, GEMTHATCH_KIND_UNKNOWN, 0.0, 0.0, limit);
}

/* The largest reservation that is accepted. */
static uint32_t reserve_largest(double limit)
{
    return reserve(GEMTHATCH_STATION_MAX, GEMTHATCH_RATE_MAX, GEMTHATCH_SUPERFRAMES_MAX, GEMTHATCH_BS_MAX, GEMTHATCH_LENGTH_MAX,
                   GEMTHATCH_BO_MAX, limit);
}

/* A search from the last slot on. */
static uint32_t search_last(uint32_t hi, uint32_t length, uint32_t wanted, size_t octets)
{
    return gemthatch_channel_search(&channel, GEMTHATCH_SLOT_MAX, hi, length, wanted, list, octets);
}

static gemthatch_block block_of(uint32_t d, uint32_t blg, uint32_t roff, uint32_t br, uint32_t bs, int32_t bo, uint32_t bt)
{
    gemthatch_block block;
    block.destination = GEMTHATCH_DESTINATION_ADDRESS;
    block.d = d;
    memset(block.information, 0, sizeof block.information);
    block.blg = blg;
    block.roff = roff;
    block.br = br;
    block.bs = bs;
    block.bo = bo;
    block.bt = bt;
    return block;
}

/* Field by field, since the octet behind the three is nobody's. */
static int same_block(gemthatch_block a, gemthatch_block b)
{
    return a.destination == b.destination && a.d == b.d && memcmp(a.information, b.information, sizeof a.information) == 0 &&
           a.blg == b.blg && a.roff == b.roff && a.br == b.br && a.bs == b.bs && a.bo == b.bo && a.bt == b.bt;
}

/* The three octets of a burst that nobody is to re-broadcast. */
static void destinations(void)
{
    static const uint8_t burst[GEMTHATCH_BURST_OCTETS] = { 0x41, 0x54, 0x43, 0x27, 0x05, 0x03, 0x05, 0xFE, 0x12 };
    gemthatch_block block = block_of(0, 4, 5, 3, 5, -2, 2);
    gemthatch_writing written;
    check(sizeof block.information == 3u && sizeof block == 36u && sizeof(gemthatch_reading) == 40u, __LINE__);
    check(offsetof(gemthatch_block, destination) == 0u && offsetof(gemthatch_block, d) == 4u, __LINE__);
    check(offsetof(gemthatch_block, information) == 8u && offsetof(gemthatch_block, blg) == 12u, __LINE__);
    check(offsetof(gemthatch_block, roff) == 16u && offsetof(gemthatch_block, br) == 20u, __LINE__);
    check(offsetof(gemthatch_block, bs) == 24u && offsetof(gemthatch_block, bo) == 28u, __LINE__);
    check(offsetof(gemthatch_block, bt) == 32u && offsetof(gemthatch_reading, block) == 4u, __LINE__);
    IS(gemthatch_write(block).refusal, (uint32_t)GEMTHATCH_REFUSED_DESTINATION);
    block.destination = GEMTHATCH_DESTINATION_NO_REBROADCAST;
    memcpy(block.information, "ATC", 3u);
    check(same_block(gemthatch_read(burst, sizeof burst).block, block), __LINE__);
    block.d = UINT32_MAX; /* ignored */
    written = gemthatch_write(block);
    IS(written.refusal, 0u);
    check(memcmp(written.octets, burst, 3u) == 0 && written.octets[3] == 0x20 && written.octets[4] == 5, __LINE__);
    block.roff = 6;
    IS(gemthatch_write(block).refusal, (uint32_t)GEMTHATCH_REFUSED_DESTINATION);
    /* Any other kind is an address. */
    block.destination = 2u;
    IS(gemthatch_write(block).refusal, (uint32_t)GEMTHATCH_REFUSED_ADDRESS);
    block.d = GEMTHATCH_STATION_MAX;
    IS(gemthatch_write(block).refusal, 0u);
}

static void bursts(void)
{
    static const uint8_t rates[GEMTHATCH_RATES] = GEMTHATCH_TABLE_1_33;
    /* The technical manual's Table 1-33 once more; 0 where it has no rate. */
    static const uint32_t manual[16] = { 1, 2, 3, 4, 5, 6, 8, 0, 10, 12, 15, 20, 30, 60, 0, 0 };
    const gemthatch_block block = block_of(GEMTHATCH_STATION_MAX, GEMTHATCH_LENGTH_MAX - 1u, 254u, 13u, GEMTHATCH_BS_MAX, -127, 3u);
    gemthatch_writing written = gemthatch_write(block);
    gemthatch_reading read = gemthatch_read(written.octets, sizeof written.octets);
    uint32_t code;
    IS(sizeof written.octets, GEMTHATCH_BURST_OCTETS);
    IS(written.refusal, 0u);
    IS(read.refusal, 0u);
    check(same_block(read.block, block), __LINE__);
    IS(gemthatch_read(written.octets, GEMTHATCH_BURST_OCTETS - 1u).refusal, (uint32_t)GEMTHATCH_REFUSED_SIZE);
    written.octets[8] = 0;
    IS(gemthatch_read(written.octets, sizeof written.octets).refusal, (uint32_t)GEMTHATCH_REFUSED_EXTENDED_ID);
    IS(gemthatch_write(block_of(GEMTHATCH_STATION_MAX + 1u, 0, 2, 0, 2, 0, 0)).refusal, (uint32_t)GEMTHATCH_REFUSED_ADDRESS);
    IS(gemthatch_write(block_of(0, GEMTHATCH_LENGTH_MAX, 2, 0, 2, 0, 0)).refusal, (uint32_t)GEMTHATCH_REFUSED_FIELD);
    IS(gemthatch_write(block_of(0, 0, 2, 7, 2, 0, 0)).refusal, (uint32_t)GEMTHATCH_REFUSED_CODE);
    IS(gemthatch_write(block_of(0, 0, 1, 0, 2, 0, 0)).refusal, (uint32_t)GEMTHATCH_REFUSED_ROFF);
    IS(gemthatch_write(block_of(0, 0, 2, 0, GEMTHATCH_BS_MIN - 1u, 0, 0)).refusal, (uint32_t)GEMTHATCH_REFUSED_BS);
    IS(gemthatch_write(block_of(0, 0, 2, 0, GEMTHATCH_BS_MIN, -128, 0)).refusal, (uint32_t)GEMTHATCH_REFUSED_BO);
    IS(gemthatch_rate(rates, sizeof rates, 13u), GEMTHATCH_RATE_MAX);
    for (code = 0; code < 16u; code++)
        if (code == 7u || code >= 14u)
            REFUSES(gemthatch_rate(rates, sizeof rates, code), CODE);
        else
            IS(gemthatch_rate(rates, sizeof rates, code), manual[code]);
    REFUSES(gemthatch_rate(rates, sizeof rates - 1u, 0u), RATE_LIST);
}

static void parameters(void)
{
    IS(gemthatch_parameter(1u, GEMTHATCH_M1_MIN), 0u);
    IS(gemthatch_parameter(1u, GEMTHATCH_M1_MAX), 0u);
    IS(gemthatch_parameter(1u, GEMTHATCH_M1_DEFAULT), 0u);
    REFUSES(gemthatch_parameter(1u, GEMTHATCH_M1_MIN - 60u), FIGURE);
    REFUSES(gemthatch_parameter(1u, GEMTHATCH_M1_MAX + 60u), FIGURE);
    REFUSES(gemthatch_parameter(4u, 0u), PARAMETER);
}

static void tables(void)
{
    const double limit = GEMTHATCH_LIMIT_DEFAULT;
    check(limit == 150.0, __LINE__);
    REFUSES(open_with(sizeof memory, GEMTHATCH_M1_DEFAULT), SIZE);
    check(channel.m1 == 0u && channel.now == 0u && channel.count == 0u, __LINE__);
    REFUSES(gemthatch_channel_wipe(&channel, 0u), NOT_SOUND);
    open_channel(GEMTHATCH_RECORDS_MAX);
    check(channel.octets == GEMTHATCH_MEMORY_MAX && channel.m1 == GEMTHATCH_M1_DEFAULT, __LINE__);
    check(channel.map == map && channel.map_octets == GEMTHATCH_M1_DEFAULT, __LINE__);
    open_channel(2u);
    REFUSES(reserve(GEMTHATCH_STATION_MAX + 1u, 1u, 1u, GEMTHATCH_BS_MIN, 1u, 0, limit), ADDRESS);
    REFUSES(reserve(0u, GEMTHATCH_RATE_MAX + 1u, 1u, GEMTHATCH_BS_MIN, 1u, 0, limit), RATE);
    REFUSES(reserve(0u, 1u, 0u, GEMTHATCH_BS_MIN, 1u, 0, limit), NO_SUPERFRAMES);
    REFUSES(reserve(0u, 1u, GEMTHATCH_SUPERFRAMES_MAX + 1u, GEMTHATCH_BS_MIN, 1u, 0, limit), FIELD);
    REFUSES(reserve(0u, 1u, 1u, GEMTHATCH_BS_MIN, GEMTHATCH_LENGTH_MAX + 1u, 0, limit), FIELD);
    REFUSES(reserve(0u, 1u, 1u, GEMTHATCH_BS_MAX + 1u, 1u, 0, limit), BS);
    REFUSES(reserve(0u, 1u, 1u, GEMTHATCH_BS_MIN, 1u, GEMTHATCH_BO_MAX + 1, limit), BO);
    REFUSES(reserve(0u, 1u, 1u, GEMTHATCH_BS_MIN, 1u, -GEMTHATCH_BO_MAX - 1, limit), BO);
    REFUSES(reserve(0u, 1u, 1u, GEMTHATCH_BS_MIN, 1u, 0, nextafter(GEMTHATCH_MILES_MAX, 5000.0)), LIMIT);
    IS(reserve_largest(GEMTHATCH_MILES_MAX), 0u);
    REFUSES(reserve_largest(0.0), HELD);
    IS(reserve(1u, 1u, 1u, GEMTHATCH_BS_MIN, 1u, 0, limit), 0u);
    REFUSES(reserve(2u, 1u, 1u, GEMTHATCH_BS_MIN, 1u, 0, limit), FULL);
    IS(channel.count, 2u);
    IS(gemthatch_channel_clock(&channel, 3u), 1u);
    check(channel.now == 3u && channel.count == 1u, __LINE__);
    REFUSES(gemthatch_channel_clock(&channel, 2u), BEHIND);
    REFUSES(gemthatch_channel_slot_state(&channel, GEMTHATCH_SLOT_MAX + 1u), LATE);
    IS(gemthatch_channel_slot_state(&channel, GEMTHATCH_BS_MAX), (uint32_t)GEMTHATCH_TAKEN);
    IS(gemthatch_channel_slot_state(&channel, GEMTHATCH_SLOT_MAX), (uint32_t)GEMTHATCH_FREE);
    IS(gemthatch_channel_distance(&channel, GEMTHATCH_STATION_MAX, GEMTHATCH_KIND_RANGE, GEMTHATCH_MILES_MAX, NAN, 0.0), 1u);
    IS(gemthatch_channel_slot_state(&channel, GEMTHATCH_BS_MAX), (uint32_t)GEMTHATCH_REUSABLE);
    IS(gemthatch_channel_distance(&channel, GEMTHATCH_STATION_MAX, GEMTHATCH_KIND_OFFSET, 0.0, GEMTHATCH_MILES_MAX, 0.0), 1u);
    IS(gemthatch_channel_slot_state(&channel, GEMTHATCH_BS_MAX), (uint32_t)GEMTHATCH_REUSABLE);
    IS(gemthatch_channel_distance(&channel, GEMTHATCH_STATION_MAX, GEMTHATCH_KIND_UNKNOWN, 0.0, 0.0, 0.0), 1u);
    IS(gemthatch_channel_slot_state(&channel, GEMTHATCH_BS_MAX), (uint32_t)GEMTHATCH_TAKEN);
    IS(gemthatch_channel_wipe(&channel, GEMTHATCH_STATION_MAX), 1u);
    IS(channel.count, 0u);
}

/* The further superframe of blocks: 24 on both sides, before the first block and over it, and where it moves the blocks to. */
static void offsets(void)
{
    const double limit = GEMTHATCH_LIMIT_DEFAULT;
    IS(open_with(2u * GEMTHATCH_RECORD_OCTETS, GEMTHATCH_M1_MIN), 0u);
    REFUSES(reserve(1u, 1u, 1u, GEMTHATCH_BS_MIN, 3u, -63, limit), EARLY);
    IS(reserve(1u, 1u, 1u, GEMTHATCH_BS_MIN, 3u, -62, limit), 0u);
    IS(gemthatch_channel_slot_state(&channel, 0u), (uint32_t)GEMTHATCH_TAKEN);
    IS(gemthatch_channel_slot_state(&channel, 4u), (uint32_t)GEMTHATCH_TAKEN);
    IS(gemthatch_channel_slot_state(&channel, 5u), (uint32_t)GEMTHATCH_FREE);
    IS(gemthatch_channel_clock(&channel, 4u), 0u);
    IS(gemthatch_channel_clock(&channel, 5u), 1u);
    open_channel(2u);
    IS(reserve(1u, 1u, 1u, GEMTHATCH_BS_MIN, 1u, GEMTHATCH_BO_MAX, limit), 0u);
    IS(reserve(1u, 1u, 1u, GEMTHATCH_BS_MIN, 1u, -GEMTHATCH_BO_MAX, limit), 0u);
    IS(gemthatch_channel_slot_state(&channel, 4375u), (uint32_t)GEMTHATCH_TAKEN);
    IS(gemthatch_channel_slot_state(&channel, 4502u), (uint32_t)GEMTHATCH_FREE);
    IS(gemthatch_channel_slot_state(&channel, 4629u), (uint32_t)GEMTHATCH_TAKEN);
    IS(gemthatch_channel_clock(&channel, 4376u), 1u);
    check(gemthatch_channel_record_at(&channel, 0u).record.bo == GEMTHATCH_BO_MAX, __LINE__);
    memory[GEMTHATCH_RECORD_OCTETS - 1u] = 1; /* the last of the three zeros */
    REFUSES(gemthatch_channel_wipe(&channel, 1u), NOT_SOUND);
}

/* A log record: operation, rate, superframes, length, station, slot, distance, limit, and behind them bo and the zeros at its end, all 0. */
static uint8_t *entry_of(uint32_t operation, uint32_t series, uint32_t station, uint32_t slot, uint32_t distance, uint32_t limit)
{
    static uint8_t entry[GEMTHATCH_ENTRY_OCTETS + 1u];
    const uint32_t numbers[6] = { operation | series << 8, station, slot, distance, limit, 0 };
    size_t i;
    for (i = 0; i < GEMTHATCH_ENTRY_OCTETS; i++)
        entry[i] = (uint8_t)(numbers[i / 4u] >> i % 4u * 8u);
    return entry;
}

static uint32_t step(const uint8_t *entry)
{
    return gemthatch_channel_replay_step(&channel, entry, GEMTHATCH_ENTRY_OCTETS);
}

/* The same with one octet more of it. */
static uint32_t step_with(uint8_t *entry, size_t at, uint8_t octet)
{
    entry[at] = octet;
    return step(entry);
}

/* A wipe that has so many octets. */
static uint32_t wipe_of(size_t octets)
{
    return gemthatch_channel_replay_step(&channel, entry_of(GEMTHATCH_OPERATION_WIPE, 0u, 7u, 0u, 0u, 0u), octets);
}

/* Each operation with the state that its helper forms, and what is no log record. */
static void log_records(void)
{
    const uint32_t series = 0x050203u; /* rate 3, superframes 2, length 5 */
    uint8_t before[2u * GEMTHATCH_RECORD_OCTETS];
    open_channel(2u);
    REFUSES(step_with(entry_of(GEMTHATCH_OPERATION_RESERVE, series, 7u, GEMTHATCH_BS_MIN, 0u, 0u), 20u, 0x80), BO);
    REFUSES(step_with(entry_of(GEMTHATCH_OPERATION_RESERVE, series, 7u, GEMTHATCH_BS_MIN, 0u, 0u), 21u, 1), ENTRY);
    REFUSES(step_with(entry_of(GEMTHATCH_OPERATION_RESERVE, series, 7u, GEMTHATCH_BS_MIN, 0u, 0u), 23u, 1), ENTRY);
    REFUSES(step_with(entry_of(GEMTHATCH_OPERATION_WIPE, 0u, 7u, 0u, 0u, 0u), 20u, 1), ENTRY);
    IS(step_with(entry_of(GEMTHATCH_OPERATION_RESERVE, series, 7u, GEMTHATCH_BS_MIN, 0u, 0u), 20u, 0x81), 0u);
    check(gemthatch_channel_record_at(&channel, 0u).record.bo == -GEMTHATCH_BO_MAX, __LINE__);
    open_channel(2u);
    IS(step(entry_of(GEMTHATCH_OPERATION_CLOCK, 0u, 0u, 0x01020304u, 0u, 0u)), 0u);
    check(channel.now == 0x01020304u && channel.count == 0u, __LINE__);
    IS(step(entry_of(GEMTHATCH_OPERATION_RESERVE, series, 7u, GEMTHATCH_BS_MIN, GEMTHATCH_ENTRY_UNKNOWN, 0u)), 0u);
    IS(step(entry_of(GEMTHATCH_OPERATION_RESERVE, series, 8u, GEMTHATCH_BS_MAX, 4096u, 4096u)), 0u);
    check(channel.now == 0x01020304u && channel.count == 2u, __LINE__);
    check(gemthatch_channel_record_at(&channel, 0u).record.far == 0u, __LINE__);
    check(gemthatch_channel_record_at(&channel, 1u).record.far == 1u, __LINE__);
    check(gemthatch_channel_record_at(&channel, 1u).record.first == 0x01020304u + GEMTHATCH_BS_MAX, __LINE__);
    REFUSES(step(entry_of(GEMTHATCH_OPERATION_RESERVE, series, 9u, GEMTHATCH_BS_MIN, 0u, 0u)), FULL);
    IS(step(entry_of(GEMTHATCH_OPERATION_DISTANCE, 0u, 7u, 0u, 0u, 0u)), 1u);
    check(channel.count == 2u && gemthatch_channel_record_at(&channel, 0u).record.far == 1u, __LINE__);
    REFUSES(step(entry_of(GEMTHATCH_OPERATION_DISTANCE, 0u, 7u, 0u, 0u, 4097u)), LIMIT);
    memcpy(before, memory, sizeof before);
    REFUSES(step(entry_of(GEMTHATCH_OPERATION_WIPE, 0u, 7u, 1u, 0u, 0u)), ENTRY);
    REFUSES(step(entry_of(GEMTHATCH_OPERATION_CLOCK, 0u, 0u, 0x01020305u, GEMTHATCH_ENTRY_UNKNOWN, 0u)), ENTRY);
    REFUSES(step(entry_of(GEMTHATCH_OPERATION_CLOCK - 1u, 0u, 0u, 0u, 0u, 0u)), ENTRY);
    REFUSES(step(entry_of(GEMTHATCH_OPERATION_WIPE + 1u, 0u, 0u, 0u, 0u, 0u)), ENTRY);
    REFUSES(wipe_of(GEMTHATCH_ENTRY_OCTETS - 1u), ENTRY);
    REFUSES(wipe_of(GEMTHATCH_ENTRY_OCTETS + 1u), ENTRY);
    REFUSES(gemthatch_channel_replay_step(&channel, NULL, 0u), ENTRY);
    check(channel.now == 0x01020304u && channel.count == 2u && memcmp(memory, before, sizeof before) == 0, __LINE__);
    IS(wipe_of(GEMTHATCH_ENTRY_OCTETS), 1u);
    check(channel.now == 0x01020304u && channel.count == 1u, __LINE__);
    IS(step(entry_of(GEMTHATCH_OPERATION_CLOCK, 0u, 0u, GEMTHATCH_SLOT_MAX, 0u, 0u)), 1u);
    check(channel.now == GEMTHATCH_SLOT_MAX && channel.count == 0u, __LINE__);
    /* 23 comes before the table's own refusals. */
    channel.m1 = 0u;
    REFUSES(step(entry_of(GEMTHATCH_OPERATION_WIPE, 0u, 7u, 0u, 0u, 0u)), NOT_SOUND);
    REFUSES(step(entry_of(GEMTHATCH_OPERATION_WIPE, 0u, 7u, 0u, 0u, 1u)), ENTRY);
}

/* What a refused call must leave as it was: the memory, the map with the octet behind it, and the channel. */
static uint8_t memory_kept[sizeof memory], map_kept[sizeof map];
static gemthatch_channel channel_kept;

static void keep(void)
{
    memcpy(memory_kept, memory, sizeof memory);
    memcpy(map_kept, map, sizeof map);
    channel_kept = channel;
}

static int is_kept(void)
{
    return memcmp(memory, memory_kept, sizeof memory) == 0 && memcmp(map, map_kept, sizeof map) == 0 && channel.m1 == channel_kept.m1 &&
           channel.now == channel_kept.now && channel.count == channel_kept.count;
}

/* Every call that takes a map is refused so, and changes nothing but a search's list. Otherwise each would be refused with what comes
   behind 25: the clock with 12 or 13, the search with 19, the others with 8. */
static int all_refuse(uint32_t refusal)
{
    const uint32_t no_station = GEMTHATCH_STATION_MAX + 1u;
    int so;
    keep();
    memset(list, 0xAA, sizeof list);
    so = gemthatch_refusal_of(gemthatch_channel_search(&channel, 1u, 0u, 0u, 0u, list, sizeof list)) == refusal && list[0] == 0u &&
         list[sizeof list - 1u] == 0u;
    so = so && gemthatch_refusal_of(gemthatch_channel_clock(&channel, 0u)) == refusal;
    so = so && gemthatch_refusal_of(gemthatch_channel_clock(&channel, UINT32_MAX)) == refusal;
    so = so && gemthatch_refusal_of(reserve(no_station, 0u, 0u, 0u, 0u, -128, -1.0)) == refusal;
    so = so && gemthatch_refusal_of(gemthatch_channel_distance(&channel, no_station, GEMTHATCH_KIND_RANGE, 0.0, 0.0, -1.0)) == refusal;
    so = so && gemthatch_refusal_of(gemthatch_channel_wipe(&channel, no_station)) == refusal;
    so = so && gemthatch_refusal_of(step(entry_of(GEMTHATCH_OPERATION_CLOCK, 0u, 0u, 0u, 0u, 0u))) == refusal;
    so = so && gemthatch_refusal_of(step(entry_of(GEMTHATCH_OPERATION_RESERVE, 0u, no_station, 0u, 0u, 4097u))) == refusal;
    so = so && gemthatch_refusal_of(step(entry_of(GEMTHATCH_OPERATION_DISTANCE, 0u, no_station, 0u, 0u, 4097u))) == refusal;
    so = so && gemthatch_refusal_of(step(entry_of(GEMTHATCH_OPERATION_WIPE, 0u, no_station, 0u, 0u, 0u))) == refusal;
    /* But 23 comes before both. */
    so = so && gemthatch_refusal_of(step(entry_of(GEMTHATCH_OPERATION_WIPE, 0u, no_station, 0u, 0u, 1u))) == GEMTHATCH_REFUSED_ENTRY;
    return so && is_kept();
}

/* The same where nothing else is wrong with the calls. */
static int all_refuse_else_accepted(uint32_t refusal)
{
    int so;
    keep();
    so = gemthatch_refusal_of(gemthatch_channel_search(&channel, channel.now, channel.now, 1u, 1u, list, sizeof list)) == refusal;
    so = so && gemthatch_refusal_of(gemthatch_channel_search(&channel, channel.now, channel.now + channel.m1 - 1u, 2u, 1u, list,
                                                             sizeof list)) == refusal;
    so = so && gemthatch_refusal_of(gemthatch_channel_clock(&channel, channel.now + 1u)) == refusal;
    so = so && gemthatch_refusal_of(gemthatch_channel_clock(&channel, GEMTHATCH_SLOT_MAX)) == refusal;
    so = so && gemthatch_refusal_of(reserve(99u, 1u, 1u, GEMTHATCH_BS_MIN, 1u, 0, 0.0)) == refusal;
    so = so && gemthatch_refusal_of(gemthatch_channel_distance(&channel, 99u, GEMTHATCH_KIND_UNKNOWN, 0.0, 0.0, 0.0)) == refusal;
    so = so && gemthatch_refusal_of(gemthatch_channel_wipe(&channel, 99u)) == refusal;
    so = so && gemthatch_refusal_of(wipe_of(GEMTHATCH_ENTRY_OCTETS)) == refusal;
    return so && is_kept();
}

/* A map of so many octets, which isn't M1, is refused by every call; slot state and walk take none. */
static int size_refused(uint8_t *at, size_t octets)
{
    int so;
    channel.map = at;
    channel.map_octets = octets;
    so = all_refuse(GEMTHATCH_REFUSED_MAP) && all_refuse_else_accepted(GEMTHATCH_REFUSED_MAP) &&
         gemthatch_channel_slot_state(&channel, channel.now) < GEMTHATCH_REFUSED && gemthatch_channel_record_at(&channel, 0u).refusal == 0u;
    channel.map = map;
    channel.map_octets = channel.m1;
    return so;
}

/* The map is as slot state gives it, slot by slot, up to the clock's limit, behind which that gives nothing; and the octet behind the map,
   which open_at paints, is as it was. */
static int is_fresh(void)
{
    uint32_t i;
    for (i = 0; i < channel.m1 && channel.now + i <= GEMTHATCH_SLOT_MAX; i++)
        if (gemthatch_channel_slot_state(&channel, channel.now + i) != map[i])
            return 0;
    return map[channel.m1] == 0xAA;
}

/* A channel opened with M1 at a slot, the octet behind its map painted. */
static void open_at(uint32_t m1, uint32_t slot)
{
    IS(open_with(8u * GEMTHATCH_RECORD_OCTETS, m1), 0u);
    map[m1] = 0xAA;
    IS(gemthatch_channel_clock(&channel, slot), 0u);
}

/* Four stations, the second and the fourth far, whose blocks lie over each other in places: each leaves the map as slot state has it. */
static void reserve_some(void)
{
    uint32_t i;
    for (i = 0; i < 4u; i++) {
        IS(gemthatch_channel_reserve(&channel, 1u + i, 3u + 4u * i, 1u + i % GEMTHATCH_SUPERFRAMES_MAX, GEMTHATCH_BS_MIN + 2u * i,
                                     4u + 3u * i, 5 - 2 * (int32_t)i, GEMTHATCH_KIND_RANGE, i % 2u == 0u ? 0.0 : 200.0, 0.0,
                                     GEMTHATCH_LIMIT_DEFAULT),
           0u);
        check(is_fresh(), __LINE__);
    }
}

/* At open only the map's size counts, and it comes last. */
static void maps_at_open(void)
{
    const size_t octets = 2u * GEMTHATCH_RECORD_OCTETS;
    const uint32_t m1 = GEMTHATCH_M1_DEFAULT;
    IS(GEMTHATCH_MAP_MAX, 15360u);
    memset(memory, 0xAA, sizeof memory);
    memset(map, 0xAA, sizeof map);
    memcpy(memory_kept, memory, sizeof memory);
    memcpy(map_kept, map, sizeof map);
    REFUSES(gemthatch_channel_open(&channel, memory, octets - 1u, map, m1 - 1u, m1 - 1u), FIGURE);
    REFUSES(gemthatch_channel_open(&channel, memory, octets - 1u, map, m1 - 1u, m1), SIZE);
    REFUSES(gemthatch_channel_open(&channel, memory, octets, map, m1 - 1u, m1), MAP);
    REFUSES(gemthatch_channel_open(&channel, memory, octets, map, m1 + 1u, m1), MAP);
    REFUSES(gemthatch_channel_open(&channel, memory, octets, map, GEMTHATCH_MAP_MAX, m1), MAP);
    REFUSES(gemthatch_channel_open(&channel, memory, octets, NULL, 0u, m1), MAP);
    check(channel.m1 == 0u && channel.now == 0u && channel.count == 0u, __LINE__);
    REFUSES(gemthatch_channel_clock(&channel, 0u), NOT_SOUND);
    check(memcmp(memory, memory_kept, sizeof memory) == 0 && memcmp(map, map_kept, sizeof map) == 0, __LINE__);
    REFUSES(gemthatch_channel_open(&channel, memory, octets, map, GEMTHATCH_MAP_MAX + 1u, GEMTHATCH_M1_MAX), MAP);
    IS(gemthatch_channel_open(&channel, memory, octets, map, GEMTHATCH_MAP_MAX, GEMTHATCH_M1_MAX), 0u);
    check(is_fresh() && map[0] == 0u && map[GEMTHATCH_MAP_MAX - 1u] == 0u, __LINE__);
}

/* Every octet of a map counts, and every wrong number in it. */
static void maps_spoilt(void)
{
    uint32_t i, octet;
    open_at(GEMTHATCH_M1_MIN, 7u);
    reserve_some();
    check(size_refused(map, GEMTHATCH_M1_MIN - 1u) && size_refused(map, GEMTHATCH_M1_MIN + 1u) && size_refused(NULL, 0u), __LINE__);
    for (i = 0; i < GEMTHATCH_M1_MIN; i++) {
        const uint8_t right = map[i];
        for (octet = 0; octet < 256u; octet++)
            if (octet != right) {
                map[i] = (uint8_t)octet;
                check(all_refuse(GEMTHATCH_REFUSED_MAP), __LINE__);
            }
        check(all_refuse_else_accepted(GEMTHATCH_REFUSED_MAP), __LINE__);
        map[i] = right;
    }
    check(is_fresh(), __LINE__);
    IS(gemthatch_channel_wipe(&channel, 1u), 1u);
    /* A table that isn't sound is refused with 11, whatever its map is. */
    memory[8u * GEMTHATCH_RECORD_OCTETS - 1u] = 1;
    check(all_refuse(GEMTHATCH_REFUSED_NOT_SOUND), __LINE__);
    map[0] = 3u;
    check(all_refuse(GEMTHATCH_REFUSED_NOT_SOUND), __LINE__);
    channel.map_octets = 0u;
    check(all_refuse(GEMTHATCH_REFUSED_NOT_SOUND) && all_refuse_else_accepted(GEMTHATCH_REFUSED_NOT_SOUND), __LINE__);

    open_at(GEMTHATCH_M1_DEFAULT, 7u);
    reserve_some();
    check(size_refused(map, GEMTHATCH_M1_DEFAULT - 1u) && size_refused(map, GEMTHATCH_M1_DEFAULT + 1u), __LINE__);
    for (i = 0; i < GEMTHATCH_M1_DEFAULT; i++) {
        map[i] ^= 1u;
        REFUSES(gemthatch_channel_wipe(&channel, 99u), MAP);
        map[i] ^= 1u;
    }
    /* Another fitting M1 than the map's. */
    channel.m1 = GEMTHATCH_M1_DEFAULT - 60u;
    check(all_refuse(GEMTHATCH_REFUSED_MAP), __LINE__);
    channel.m1 = GEMTHATCH_M1_DEFAULT;
    /* The map of another now. */
    channel.now = 8u;
    check(all_refuse(GEMTHATCH_REFUSED_MAP), __LINE__);
    channel.now = 7u;
    IS(gemthatch_channel_wipe(&channel, 99u), 0u);
    /* One that was written over is right again once slot state has said each of its octets. */
    memset(map, 0xAA, GEMTHATCH_M1_DEFAULT);
    REFUSES(gemthatch_channel_wipe(&channel, 99u), MAP);
    for (i = 0; i < GEMTHATCH_M1_DEFAULT; i++)
        map[i] = (uint8_t)gemthatch_channel_slot_state(&channel, channel.now + i);
    IS(gemthatch_channel_wipe(&channel, 99u), 0u);
}

/* The map goes with the table from call to call: its first octet is now's. */
static void maps_kept(void)
{
    static const uint32_t steps[] = { 0, 1, 2, 59, 60, 61, 75, 1079, 1080, 1081, 4499, 4500, 4501, 9000, 15359, 15360, 15361, 46080 };
    static const uint32_t m1s[] = { GEMTHATCH_M1_MIN, 1080u, GEMTHATCH_M1_DEFAULT, GEMTHATCH_M1_MAX };
    uint32_t i, j;
    open_at(GEMTHATCH_M1_DEFAULT, 100u);
    IS(reserve(1u, 1u, 1u, GEMTHATCH_BS_MIN, 1u, 0, 0.0), 0u);
    check(map[0] == GEMTHATCH_FREE && map[1] == GEMTHATCH_FREE && map[2] == GEMTHATCH_TAKEN && map[3] == GEMTHATCH_FREE, __LINE__);
    IS(gemthatch_channel_clock(&channel, 102u), 0u);
    check(map[0] == GEMTHATCH_TAKEN && map[1] == GEMTHATCH_FREE && map[2] == GEMTHATCH_FREE, __LINE__);
    IS(gemthatch_channel_distance(&channel, 1u, GEMTHATCH_KIND_RANGE, 1.0, 0.0, 0.0), 1u);
    check(map[0] == GEMTHATCH_REUSABLE && is_fresh(), __LINE__);
    IS(gemthatch_channel_distance(&channel, 1u, GEMTHATCH_KIND_UNKNOWN, 0.0, 0.0, 0.0), 1u);
    check(map[0] == GEMTHATCH_TAKEN && is_fresh(), __LINE__);
    /* Refused for other reasons, the map stays. */
    keep();
    REFUSES(gemthatch_channel_clock(&channel, 101u), BEHIND);
    REFUSES(gemthatch_channel_clock(&channel, GEMTHATCH_SLOT_MAX + 1u), LATE);
    REFUSES(reserve(1u, 1u, 1u, GEMTHATCH_BS_MIN - 1u, 1u, 0, 0.0), BS);
    REFUSES(reserve(1u, 1u, 1u, GEMTHATCH_BS_MIN, 1u, 0, -1.0), LIMIT);
    REFUSES(gemthatch_channel_distance(&channel, 1u, GEMTHATCH_KIND_RANGE, 1.0, 0.0, -1.0), LIMIT);
    REFUSES(gemthatch_channel_wipe(&channel, GEMTHATCH_STATION_MAX + 1u), ADDRESS);
    check(is_kept(), __LINE__);
    IS(gemthatch_channel_wipe(&channel, 1u), 1u);
    check(map[0] == GEMTHATCH_FREE && is_fresh(), __LINE__);
    for (j = 0; j < sizeof m1s / sizeof *m1s; j++)
        for (i = 0; i < sizeof steps / sizeof *steps; i++) {
            open_at(m1s[j], 1000u);
            reserve_some();
            check(gemthatch_channel_clock(&channel, 1000u + steps[i]) < GEMTHATCH_REFUSED && is_fresh(), __LINE__);
            check(gemthatch_channel_distance(&channel, 4u, GEMTHATCH_KIND_UNKNOWN, 0.0, 0.0, 0.0) < GEMTHATCH_REFUSED, __LINE__);
            check(is_fresh(), __LINE__);
            check(gemthatch_channel_wipe(&channel, 3u) < GEMTHATCH_REFUSED && is_fresh(), __LINE__);
            check(step(entry_of(GEMTHATCH_OPERATION_WIPE, 0u, 2u, 0u, 0u, 0u)) < GEMTHATCH_REFUSED && is_fresh(), __LINE__);
        }
}

/* Past the clock's limit the map is what the same calls give anywhere else. */
static void maps_past_the_limit(void)
{
    open_at(GEMTHATCH_M1_DEFAULT, 1000u);
    reserve_some();
    keep();
    open_at(GEMTHATCH_M1_DEFAULT, GEMTHATCH_SLOT_MAX);
    reserve_some();
    check(memcmp(map, map_kept, GEMTHATCH_M1_DEFAULT + 1u) == 0, __LINE__);
    REFUSES(gemthatch_channel_slot_state(&channel, GEMTHATCH_SLOT_MAX + 2u), LATE);
    check(map[GEMTHATCH_BS_MIN] == GEMTHATCH_TAKEN, __LINE__);
    check(gemthatch_channel_wipe(&channel, 1u) == 1u && map[GEMTHATCH_BS_MIN] == GEMTHATCH_FREE, __LINE__);
}

/* Searches along the map, and such as reach further, where the slot behind the map is taken. */
static void searches_by_map(void)
{
    const uint32_t m1 = GEMTHATCH_M1_DEFAULT, last = 100u + GEMTHATCH_M1_DEFAULT - 1u;
    open_at(m1, 100u);
    IS(reserve(1u, 1u, 1u, GEMTHATCH_BS_MIN, 1u, -2, 0.0), 0u);
    IS(gemthatch_channel_slot_state(&channel, last), (uint32_t)GEMTHATCH_FREE);
    IS(gemthatch_channel_slot_state(&channel, last + 1u), (uint32_t)GEMTHATCH_TAKEN);
    IS(gemthatch_channel_search(&channel, last, last, 1u, 1u, list, sizeof list), 1u);
    REFUSES(gemthatch_channel_search(&channel, last, last, 2u, 1u, list, sizeof list), NONE);
    REFUSES(gemthatch_channel_search(&channel, last + 1u, last + 1u, 1u, 1u, list, sizeof list), NONE);
    IS(gemthatch_channel_search(&channel, last - 2u, last, 2u, 3u, list, sizeof list), 2u);
    check(gemthatch_list_slot(list, 0u) == last - 2u && gemthatch_list_slot(list, 1u) == last - 1u, __LINE__);
    IS(gemthatch_channel_search(&channel, last - 2u, last - 1u, 2u, 3u, list, sizeof list), 2u);
    check(gemthatch_list_slot(list, 0u) == last - 2u && gemthatch_list_slot(list, 1u) == last - 1u, __LINE__);
    IS(gemthatch_channel_search(&channel, last + 2u, last + 2u, 1u, 1u, list, sizeof list), 1u);
}

static void searches(void)
{
    open_channel(1u);
    IS(gemthatch_channel_search(&channel, 0u, 99u, GEMTHATCH_LENGTH_MAX, GEMTHATCH_WANTED_MAX, list, sizeof list), GEMTHATCH_WANTED_MAX);
    IS(gemthatch_list_slot(list, GEMTHATCH_WANTED_MAX - 1u), GEMTHATCH_WANTED_MAX - 1u);
    IS(gemthatch_channel_clock(&channel, GEMTHATCH_SLOT_MAX), 0u);
    IS(search_last(GEMTHATCH_SLOT_MAX, 1u, 1u, sizeof list), 1u);
    IS(gemthatch_list_slot(list, 0u), GEMTHATCH_SLOT_MAX);
    REFUSES(search_last(GEMTHATCH_SLOT_MAX + 1u, 1u, 1u, sizeof list), SEARCH_RANGE);
    REFUSES(search_last(GEMTHATCH_SLOT_MAX, 0u, 1u, sizeof list), FIELD);
    REFUSES(search_last(GEMTHATCH_SLOT_MAX, 1u, GEMTHATCH_WANTED_MAX + 1u, sizeof list), WANTED);
    REFUSES(search_last(GEMTHATCH_SLOT_MAX, 1u, 1u, GEMTHATCH_LIST_SLOT_OCTETS - 1u), SIZE);
    IS(reserve(1u, 1u, 1u, GEMTHATCH_BS_MIN, GEMTHATCH_LENGTH_MAX, 0, 0.0), 0u);
    REFUSES(search_last(GEMTHATCH_SLOT_MAX, 3u, 1u, sizeof list), NONE);
    IS(gemthatch_pick(GEMTHATCH_WANTED_MAX, 17u), 1u);
    REFUSES(gemthatch_pick(GEMTHATCH_WANTED_MAX + 1u, 17u), WANTED);
}

/* There is no record at a place: the refusal, nothing handed out, and a record of zeros. */
static int none_at(uint32_t i, uint32_t refusal)
{
    static const gemthatch_record zeros = { 0, 0, 0, 0, 0, 0, 0, { 0, 0, 0 } };
    const gemthatch_place place = gemthatch_channel_record_at(&channel, i);
    return place.refusal == refusal && place.handed == 0u && memcmp(&place.record, &zeros, sizeof zeros) == 0;
}

static int record_at(uint32_t i, gemthatch_record record)
{
    const gemthatch_place place = gemthatch_channel_record_at(&channel, i);
    return place.refusal == 0u && place.handed == 1u && memcmp(&place.record, &record, sizeof record) == 0;
}

static void walks(void)
{
    const gemthatch_record largest = { GEMTHATCH_STATION_MAX, GEMTHATCH_SLOT_MAX + GEMTHATCH_BS_MAX, GEMTHATCH_RATE_MAX,
                                       GEMTHATCH_SUPERFRAMES_MAX, GEMTHATCH_LENGTH_MAX, 0, GEMTHATCH_BO_MAX, { 0, 0, 0 } };
    const gemthatch_record other = { 0x04030201u, GEMTHATCH_SLOT_MAX + GEMTHATCH_BS_MIN, 4, 3, 2, 1, -5, { 0, 0, 0 } };
    gemthatch_place place;
    uint32_t i;
    /* A record in C lies as in the table, and no struct has a gap. */
    check(sizeof(gemthatch_record) == GEMTHATCH_RECORD_OCTETS && offsetof(gemthatch_record, station) == 0u, __LINE__);
    check(offsetof(gemthatch_record, first) == 4u && offsetof(gemthatch_record, rate) == 8u, __LINE__);
    check(offsetof(gemthatch_record, superframes) == 9u && offsetof(gemthatch_record, length) == 10u, __LINE__);
    check(offsetof(gemthatch_record, far) == 11u && offsetof(gemthatch_record, bo) == 12u, __LINE__);
    check(offsetof(gemthatch_record, zeros) == 13u, __LINE__);
    check(sizeof(gemthatch_place) == 24u && offsetof(gemthatch_place, refusal) == 0u, __LINE__);
    check(offsetof(gemthatch_place, handed) == 4u && offsetof(gemthatch_place, record) == 8u, __LINE__);
    open_channel(3u);
    check(none_at(0u, 0u) && none_at(UINT32_MAX, 0u), __LINE__);
    IS(gemthatch_channel_clock(&channel, GEMTHATCH_SLOT_MAX), 0u);
    IS(reserve_largest(0.0), 0u);
    IS(gemthatch_channel_reserve(&channel, other.station, other.rate, other.superframes, GEMTHATCH_BS_MIN, other.length, other.bo,
                                 GEMTHATCH_KIND_RANGE, 0.0, 0.0, 0.0),
       0u);
    check(record_at(0u, largest) && record_at(channel.count - 1u, other), __LINE__);
    check(none_at(channel.count, 0u) && none_at(channel.count + 1u, 0u), __LINE__);
    check(none_at(0x80000000u, 0u) && none_at(UINT32_MAX, 0u), __LINE__);
    for (i = 0; (place = gemthatch_channel_record_at(&channel, i)).handed; i++)
        check(place.record.station == (i == 0u ? largest.station : other.station), __LINE__);
    check(i == 2u && place.refusal == 0u, __LINE__);
    /* Not sound: an octet behind the records. Nothing is handed out, at no place. */
    memory[3u * GEMTHATCH_RECORD_OCTETS - 1u] = 1;
    for (i = 0; i < 5u; i++)
        check(none_at(i, GEMTHATCH_REFUSED_NOT_SOUND), __LINE__);
    check(none_at(UINT32_MAX, GEMTHATCH_REFUSED_NOT_SOUND), __LINE__);
    REFUSES(open_with(0u, GEMTHATCH_M1_DEFAULT), SIZE);
    check(none_at(0u, GEMTHATCH_REFUSED_NOT_SOUND), __LINE__);
    open_channel(GEMTHATCH_RECORDS_MAX);
    for (i = 0; i < GEMTHATCH_RECORDS_MAX; i++)
        IS(reserve(i, 1u, 1u, GEMTHATCH_BS_MIN, 1u, 0, 0.0), 0u);
    IS(gemthatch_channel_record_at(&channel, GEMTHATCH_RECORDS_MAX - 1u).record.station, GEMTHATCH_RECORDS_MAX - 1u);
    check(none_at(GEMTHATCH_RECORDS_MAX, 0u), __LINE__);
}

/* What a tally is after an answer. */
static int counts(gemthatch_tally tally, uint32_t answer, uint32_t accepted, uint32_t refused)
{
    return gemthatch_counted(&tally, answer) == answer && tally.accepted == accepted && tally.refused == refused;
}

static void tallies(void)
{
    const uint32_t most = GEMTHATCH_TALLY_MAX;
    const gemthatch_tally none = { 0, 0 }, nearly = { GEMTHATCH_TALLY_MAX - 1u, GEMTHATCH_TALLY_MAX - 1u };
    const gemthatch_tally full = { GEMTHATCH_TALLY_MAX, GEMTHATCH_TALLY_MAX };
    /* The one in the middle is counted in. */
    gemthatch_tally row[3] = { { 1, 2 }, { 7, 9 }, { 3, 4 } };
    check(sizeof(gemthatch_tally) == 8u && offsetof(gemthatch_tally, refused) == 4u && most == UINT32_MAX, __LINE__);
    gemthatch_count(&row[1], GEMTHATCH_ACCEPTED);
    check(row[1].accepted == 8u && row[1].refused == 9u, __LINE__);
    gemthatch_count(&row[1], GEMTHATCH_REFUSED_SIZE);
    gemthatch_count(&row[1], 256u);
    gemthatch_count(&row[1], GEMTHATCH_REFUSED);
    gemthatch_count(&row[1], UINT32_MAX);
    check(row[1].accepted == 8u && row[1].refused == 13u, __LINE__);
    check(row[0].accepted == 1u && row[0].refused == 2u && row[2].accepted == 3u && row[2].refused == 4u, __LINE__);
    /* By an answer: a number, whatever it is, is accepted. */
    check(counts(none, 0u, 1u, 0u) && counts(none, 1u, 1u, 0u) && counts(none, GEMTHATCH_REFUSED - 1u, 1u, 0u), __LINE__);
    check(counts(none, GEMTHATCH_REFUSED + GEMTHATCH_REFUSED_SIZE, 0u, 1u), __LINE__);
    check(counts(none, GEMTHATCH_REFUSED + GEMTHATCH_REFUSED_PARAMETER, 0u, 1u), __LINE__);
    check(counts(nearly, 0u, most, most - 1u) && counts(nearly, GEMTHATCH_REFUSED + 1u, most - 1u, most), __LINE__);
    check(counts(full, 0u, most, most) && counts(full, GEMTHATCH_REFUSED + 1u, most, most), __LINE__);
}

static int is_refusal(uint32_t number)
{
    return number <= GEMTHATCH_REFUSED_MAP || number == GEMTHATCH_REFUSED_DESTINATION;
}

int main(void)
{
    uint32_t refusal, other;
    bursts();
    destinations();
    parameters();
    tables();
    offsets();
    log_records();
    maps_at_open();
    maps_spoilt();
    maps_kept();
    maps_past_the_limit();
    searches_by_map();
    searches();
    walks();
    tallies();
    /* Every refusal has a text of its own, and no other number has one. */
    for (refusal = 0; refusal <= GEMTHATCH_REFUSED_DESTINATION; refusal++) {
        check((strcmp(gemthatch_refusal_text(refusal), gemthatch_refusal_text(UINT32_MAX)) != 0) == is_refusal(refusal), __LINE__);
        for (other = 0; other < refusal && is_refusal(refusal); other++)
            check(strcmp(gemthatch_refusal_text(refusal), gemthatch_refusal_text(other)) != 0, __LINE__);
    }
    IS(gemthatch_refusal_of(GEMTHATCH_REFUSED - 1u), 0u);
    IS(gemthatch_refusal_of(GEMTHATCH_REFUSED + 22u), (uint32_t)GEMTHATCH_REFUSED_PARAMETER);
    return failed;
}
