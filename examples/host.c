/*
 * A C host: one worker that serves three airfields' channels with the same scratch list, through a day at month's end.
 *
 *     gcc -Iinclude examples/host.c target/staticlib/libgemthatch.a -o host && ./host
 *
 * It says what it does line by line, shows its tables by a walk and slots by their maps, keeps a log of what one channel's table was asked
 * and replays it, and keeps a tally of the day's calls, its own checks aside. Its exit status is not 0 where something came out otherwise
 * than this file says. examples/draw.c draws a map.
 */
#include <stdio.h>
#include <string.h>

#include "gemthatch.h"

#define RECORDS 4u
#define OCTETS (RECORDS * GEMTHATCH_RECORD_OCTETS)
#define M1 GEMTHATCH_M1_DEFAULT

static const uint8_t rates[GEMTHATCH_RATES] = GEMTHATCH_TABLE_1_33;
static const double limit = GEMTHATCH_LIMIT_DEFAULT;

/* The one list that the worker lends to every channel's searches. */
static uint8_t scratch[GEMTHATCH_LIST_MAX];

/* The day's tally; and to hold it against, how many calls were counted and how many refusals this file calls for. */
static gemthatch_tally day = { 0, 0 };
static uint32_t calls = 0, called_for = 0;

static int surprises = 0;

/* What this file says must come out. */
static void expect(int so, const char *what)
{
    if (!so) {
        printf("  NOT SO: %s\n", what);
        surprises = surprises + 1;
    }
}

/* A refusal that this file calls for. */
static void expect_refused(uint32_t answer, uint32_t refusal, const char *why)
{
    expect(gemthatch_refusal_of(answer) == refusal, why);
    called_for = called_for + 1;
}

/* Counts a call by its bare refusal. */
static void count_call(uint32_t refusal)
{
    calls = calls + 1;
    gemthatch_count(&day, refusal);
}

/* Counts a call that returns a number, and hands the number on. */
static uint32_t counted(uint32_t answer)
{
    calls = calls + 1;
    return gemthatch_counted(&day, answer);
}

/* Says how a call went, its number behind what it counts (or nothing), and hands the answer on. */
static uint32_t told(const char *call, uint32_t answer, const char *counts)
{
    const uint32_t refusal = gemthatch_refusal_of(answer);
    printf("  %-34s ", call);
    if (refusal != GEMTHATCH_ACCEPTED)
        printf("refused %u: %s\n", (unsigned)refusal, gemthatch_refusal_text(refusal));
    else if (counts == NULL)
        printf("accepted\n");
    else
        printf("%s: %u\n", counts, (unsigned)answer);
    return answer;
}

/* A slot's state by the table; and by the map, which ends a superframe from now and costs no call. */
static uint32_t told_slot(const gemthatch_channel *channel, uint32_t slot)
{
    static const char *const states[] = { "free", "reusable", "taken" };
    const uint32_t answer = counted(gemthatch_channel_slot_state(channel, slot));
    const uint32_t refusal = gemthatch_refusal_of(answer);
    const uint32_t place = slot - channel->now;
    printf("  slot %-29u %s", (unsigned)slot, refusal == GEMTHATCH_ACCEPTED ? states[answer] : gemthatch_refusal_text(refusal));
    if (place < channel->map_octets) {
        printf(", and %u in the map\n", channel->map[place]);
        expect(channel->map[place] == answer, "the map says what the table says");
    } else
        printf(", behind the map\n");
    return answer;
}

static int all_zero(const uint8_t *octets, size_t count)
{
    size_t i;
    for (i = 0; i < count; i++)
        if (octets[i] != 0)
            return 0;
    return 1;
}

/* The log of a channel's day: what its table was asked, log record after log record, refused or not. */
static uint8_t entries[16][GEMTHATCH_ENTRY_OCTETS];
static size_t logged = 0;
static const gemthatch_channel *recorded = NULL;

static void put_number(uint8_t *octets, uint32_t number)
{
    int i;
    for (i = 0; i < 4; i++)
        octets[i] = (uint8_t)(number >> 8 * i);
}

/* Logs a call that is asked of the recorded channel. What its operation does not use is 0. */
static void log_call(const gemthatch_channel *channel, uint32_t operation, uint32_t rate, uint32_t superframes, uint32_t length,
                     uint32_t station, uint32_t slot, uint32_t miles, uint32_t limit_miles, int32_t bo)
{
    uint8_t *entry;
    if (channel != recorded)
        return;
    if (logged == sizeof entries / sizeof entries[0]) {
        expect(0, "the log has room for the day");
        return;
    }
    entry = entries[logged];
    entry[0] = (uint8_t)operation;
    entry[1] = (uint8_t)rate;
    entry[2] = (uint8_t)superframes;
    entry[3] = (uint8_t)length;
    put_number(entry + 4, station);
    put_number(entry + 8, slot);
    put_number(entry + 12, miles);
    put_number(entry + 16, limit_miles);
    put_number(entry + 20, (uint8_t)bo);
    logged = logged + 1u;
}

static uint32_t set_clock(gemthatch_channel *channel, uint32_t slot)
{
    log_call(channel, GEMTHATCH_OPERATION_CLOCK, 0u, 0u, 0u, 0u, slot, 0u, 0u, 0);
    return counted(gemthatch_channel_clock(channel, slot));
}

/* A log has whole miles, and no offsets: what is logged of an offset is its length. */
static uint32_t set_offset(gemthatch_channel *channel, uint32_t station, double east, double north, uint32_t miles)
{
    log_call(channel, GEMTHATCH_OPERATION_DISTANCE, 0u, 0u, 0u, station, 0u, miles, (uint32_t)limit, 0);
    return counted(gemthatch_channel_distance(channel, station, GEMTHATCH_KIND_OFFSET, east, north, limit));
}

static uint32_t wipe(gemthatch_channel *channel, uint32_t station)
{
    log_call(channel, GEMTHATCH_OPERATION_WIPE, 0u, 0u, 0u, station, 0u, 0u, 0u, 0);
    return counted(gemthatch_channel_wipe(channel, station));
}

/* A table's records by a walk, which counts as one call. */
static void show(const char *name, const gemthatch_channel *channel)
{
    gemthatch_place place;
    uint32_t i;
    printf("  a walk over %s: M1 %u, now %u, records: %u\n", name, (unsigned)channel->m1, (unsigned)channel->now,
           (unsigned)channel->count);
    for (i = 0; (place = gemthatch_channel_record_at(channel, i)).handed; i++)
        printf("    station %u, first slot %u, rate %u, superframes %u, length %u, %s, block offset %d\n", (unsigned)place.record.station,
               (unsigned)place.record.first, (unsigned)place.record.rate, (unsigned)place.record.superframes,
               (unsigned)place.record.length, place.record.far ? "far" : "not far", place.record.bo);
    count_call(place.refusal);
    expect(place.refusal == GEMTHATCH_ACCEPTED && i == channel->count, "a walk hands out every record, and then no more");
}

/* The octets that the records lie in, a record to a line. */
static void show_octets(const gemthatch_channel *channel)
{
    size_t i;
    printf("  its octets:\n");
    for (i = 0; i < channel->octets; i++)
        printf("%s%02x%s", i % GEMTHATCH_RECORD_OCTETS == 0 ? "    " : " ", channel->memory[i],
               i % GEMTHATCH_RECORD_OCTETS == GEMTHATCH_RECORD_OCTETS - 1 ? "\n" : "");
}

/* Whether a place has a station's record as the bursts below ask for it: rate 4, blocks of 5 slots, block offset -2. */
static int holds(gemthatch_place place, uint32_t station, uint32_t first, uint32_t superframes, uint32_t far)
{
    const gemthatch_record record = place.record;
    return place.handed == 1u && record.station == station && record.first == first && record.rate == 4u &&
           record.superframes == superframes && record.length == 5u && record.far == far && record.bo == -2;
}

/* Whether no record is the station's. A table that is refused hands out none, and says nothing about it. */
static int is_without(const gemthatch_channel *channel, uint32_t station)
{
    gemthatch_place place;
    uint32_t i;
    for (i = 0; (place = gemthatch_channel_record_at(channel, i)).handed; i++)
        if (place.record.station == station)
            return 0;
    return place.refusal == GEMTHATCH_ACCEPTED;
}

/* What a burst says. Where nobody is to re-broadcast it, its first three octets end the information field, and are no address. */
static gemthatch_block show_burst(const uint8_t *octets)
{
    const gemthatch_reading read = gemthatch_read(octets, GEMTHATCH_BURST_OCTETS);
    const gemthatch_block block = read.block;
    count_call(read.refusal);
    expect(read.refusal == GEMTHATCH_ACCEPTED, "the burst is read");
    printf("  blocks of %u slots, rate code %u, block start %u, block offset %d; ", (unsigned)(block.blg + 1u), (unsigned)block.br,
           (unsigned)block.bs, (int)block.bo);
    if (block.destination == GEMTHATCH_DESTINATION_NO_REBROADCAST)
        printf("no re-broadcast, the information field ends in %02x %02x %02x\n", block.information[0], block.information[1],
               block.information[2]);
    else
        printf("station %u is to re-broadcast it\n", (unsigned)block.d);
    return block;
}

/* A burst of our own goes out, if its fields can be written. */
static uint32_t write_burst(gemthatch_block block, uint8_t *octets)
{
    const gemthatch_writing written = gemthatch_write(block);
    count_call(written.refusal);
    memcpy(octets, written.octets, GEMTHATCH_BURST_OCTETS);
    return written.refusal == GEMTHATCH_ACCEPTED ? 0u : GEMTHATCH_REFUSED + written.refusal;
}

/* A burst comes in: its nine octets are read, and what they announce is reserved for the station that sent it. */
static uint32_t take_burst(gemthatch_channel *channel, uint32_t station, const uint8_t *octets, uint32_t superframes)
{
    const gemthatch_reading read = gemthatch_read(octets, GEMTHATCH_BURST_OCTETS);
    uint32_t rate;
    count_call(read.refusal);
    if (read.refusal != GEMTHATCH_ACCEPTED)
        return GEMTHATCH_REFUSED + read.refusal;
    rate = counted(gemthatch_rate(rates, sizeof rates, read.block.br));
    if (rate >= GEMTHATCH_REFUSED)
        return rate;
    log_call(channel, GEMTHATCH_OPERATION_RESERVE, rate, superframes, read.block.blg + 1u, station, read.block.bs, GEMTHATCH_ENTRY_UNKNOWN,
             (uint32_t)limit, read.block.bo);
    return counted(gemthatch_channel_reserve(channel, station, rate, superframes, read.block.bs, read.block.blg + 1u, read.block.bo,
                                             GEMTHATCH_KIND_UNKNOWN, 0.0, 0.0, limit));
}

/* One slot, bs slots from now. */
static uint32_t reserve_one(gemthatch_channel *channel, uint32_t station, uint32_t bs)
{
    return counted(gemthatch_channel_reserve(channel, station, 1u, 1u, bs, 1u, 0, GEMTHATCH_KIND_UNKNOWN, 0.0, 0.0, limit));
}

/* Replays the log on a channel: of each log record its place, and how it went. */
static void replay(gemthatch_channel *channel)
{
    size_t i;
    for (i = 0; i < logged; i++) {
        const uint32_t answer = counted(gemthatch_channel_replay_step(channel, entries[i], GEMTHATCH_ENTRY_OCTETS));
        if (answer < GEMTHATCH_REFUSED)
            printf("    %u ok %u\n", (unsigned)(i + 1u), (unsigned)answer);
        else
            printf("    %u refused %u\n", (unsigned)(i + 1u), (unsigned)gemthatch_refusal_of(answer));
    }
}

/* Finds a place for a block of our own, picks one by a random number, and says which. The list is wiped by the next search. */
static uint32_t place_block(const char *name, const gemthatch_channel *channel, uint32_t lo, uint32_t hi, uint32_t length, uint32_t random)
{
    uint32_t i, place, start;
    const uint32_t found = counted(gemthatch_channel_search(channel, lo, hi, length, 3u, scratch, sizeof scratch));
    (void)told("search for 3 starts", found, "found");
    if (found >= GEMTHATCH_REFUSED) {
        expect(all_zero(scratch, sizeof scratch), "a refused search leaves an empty list");
        return found;
    }
    printf("  %s may start at", name);
    for (i = 0; i < found; i++)
        printf(" %u", (unsigned)gemthatch_list_slot(scratch, i));
    place = counted(gemthatch_pick(found, random));
    start = gemthatch_list_slot(scratch, place);
    printf(", and picks %u\n", (unsigned)start);
    expect(all_zero(scratch + found * GEMTHATCH_LIST_SLOT_OCTETS, sizeof scratch - found * GEMTHATCH_LIST_SLOT_OCTETS),
           "behind the answer the list is zero");
    return start;
}

int main(void)
{
    static uint8_t memories[5][OCTETS], maps[5][M1];
    /* 00 00 01 20 02 03 05 FE 12: destination 1, blocks of 5 slots, rate code 3, block start 5, block offset -2; and the same with block
       start 1. */
    static const uint8_t burst[GEMTHATCH_BURST_OCTETS] = { 0x00, 0x00, 0x01, 0x20, 0x02, 0x03, 0x05, 0xFE, 0x12 };
    static const uint8_t noise[GEMTHATCH_BURST_OCTETS] = { 0x00, 0x00, 0x01, 0x20, 0x02, 0x03, 0x01, 0xFE, 0x12 };
    /* 41 54 43 20 05 03 05 FE 12: the same blocks with a re-broadcast offset that equals the block start, and text in front. */
    static const uint8_t quiet[GEMTHATCH_BURST_OCTETS] = { 0x41, 0x54, 0x43, 0x20, 0x05, 0x03, 0x05, 0xFE, 0x12 };
    const uint32_t tenant = 7001u, resident = 7002u, visitor = 7003u;
    gemthatch_channel alder, birch, cedar, twin, night;
    gemthatch_block block;
    uint8_t octets[GEMTHATCH_BURST_OCTETS];
    uint32_t answer, refused_before, i;

    memset(memories, 0xAA, sizeof memories); /* what the worker had there before */
    memset(maps, 0xAA, sizeof maps);

    printf("Morning: the channels open, each with room for %u records, and with a map that has an octet for each slot of a superframe\n",
           (unsigned)RECORDS);
    (void)told("Alder, M1 4500", counted(gemthatch_channel_open(&alder, memories[0], OCTETS, maps[0], M1, M1)), NULL);
    (void)told("Birch, M1 4500", counted(gemthatch_channel_open(&birch, memories[1], OCTETS, maps[1], M1, M1)), NULL);
    answer = told("Cedar, M1 4510", counted(gemthatch_channel_open(&cedar, memories[2], OCTETS, maps[2], M1, 4510u)), NULL);
    expect_refused(answer, GEMTHATCH_REFUSED_FIGURE, "M1 goes by steps of 60");
    answer = told("Cedar, M1 60 with a map of 4500", counted(gemthatch_channel_open(&cedar, memories[2], OCTETS, maps[2], M1, 60u)), NULL);
    expect_refused(answer, GEMTHATCH_REFUSED_MAP, "a map has M1 octets, no more");
    expect(maps[2][0] == 0xAA, "and is untouched where it is refused");
    (void)told("Cedar, M1 60 with one of 60", counted(gemthatch_channel_open(&cedar, memories[2], OCTETS, maps[2], 60u, 60u)), NULL);
    /* The twin sees Birch's day without the tenant, to hold Birch against at the end. */
    (void)told("Birch's twin, M1 4500", counted(gemthatch_channel_open(&twin, memories[3], OCTETS, maps[3], M1, M1)), NULL);
    expect(all_zero(memories[0], 4u * OCTETS), "an opened table is all zero");
    expect(all_zero(maps[0], M1) && all_zero(maps[1], M1) && all_zero(maps[2], 60u) && all_zero(maps[3], M1), "and so is its map");
    recorded = &birch;

    printf("\nTwo bursts, as they are read, and the second written again\n");
    block = show_burst(burst);
    expect(block.destination == GEMTHATCH_DESTINATION_ADDRESS && block.d == 1u, "the first has an address");
    block = show_burst(quiet);
    expect(block.destination == GEMTHATCH_DESTINATION_NO_REBROADCAST && block.d == 0u, "the second has none");
    expect(memcmp(block.information, "ATC", sizeof block.information) == 0, "but three octets of text");
    (void)told("written with its three octets", write_burst(block, octets), NULL);
    expect(memcmp(octets, quiet, sizeof octets) == 0, "the octets are the same");
    block.destination = GEMTHATCH_DESTINATION_ADDRESS;
    block.d = visitor;
    answer = told("written to the visitor, 7003", write_burst(block, octets), NULL);
    expect_refused(answer, GEMTHATCH_REFUSED_DESTINATION, "an address can't go with that offset");
    expect(all_zero(octets, sizeof octets), "and nothing is written");
    block.roff = 4u;
    (void)told("written so with offset 4", write_burst(block, octets), NULL);
    expect(show_burst(octets).d == visitor, "the visitor is to re-broadcast it");

    printf("\nSlot 100: bursts come in\n");
    (void)told("Alder's clock", set_clock(&alder, 100u), "records over");
    (void)told("Birch's clock", set_clock(&birch, 100u), "records over");
    (void)told("the twin's clock", set_clock(&twin, 100u), "records over");
    (void)told("Alder: the visitor, 7003", take_burst(&alder, visitor, quiet, 2u), NULL);
    (void)told("Birch: the tenant, 7001", take_burst(&birch, tenant, burst, 3u), NULL);
    (void)told("Birch: the resident, 7002", take_burst(&birch, resident, burst, 2u), NULL);
    (void)told("the twin: the resident, 7002", take_burst(&twin, resident, burst, 2u), NULL);
    answer = told("Birch: the resident, once more", take_burst(&birch, resident, burst, 2u), NULL);
    expect_refused(answer, GEMTHATCH_REFUSED_HELD, "it is held already");
    answer = told("the twin: the same", take_burst(&twin, resident, burst, 2u), NULL);
    expect_refused(answer, GEMTHATCH_REFUSED_HELD, "and so at the twin");
    answer = told("Birch: a burst with bs 1", take_burst(&birch, visitor, noise, 2u), NULL);
    expect_refused(answer, GEMTHATCH_REFUSED_BS, "bs 1 is refused");

    printf("\nAlder: the visitor has slots 105..109, and so every 1125 slots on; after two superframes its blocks move back by 2\n");
    expect(told_slot(&alder, 104u) == GEMTHATCH_FREE, "no block has 104");
    expect(told_slot(&alder, 105u) == GEMTHATCH_TAKEN, "105 is the first block's");
    expect(maps[0][0] == GEMTHATCH_FREE && maps[0][5] == GEMTHATCH_TAKEN, "the map begins at now, which is 100");
    expect(told_slot(&alder, 9103u) == GEMTHATCH_TAKEN, "9103 is the first one's that moved");
    expect(told_slot(&alder, 9108u) == GEMTHATCH_FREE, "which is over at 9107");
    answer = place_block("Alder", &alder, 105u, 111u, 2u, 4710u);
    expect(answer == 110u, "110 and 111 are free, and 4710 mod 2 is 0");

    printf("\nThe visitor is 200 miles out: its slots may be used again, after the free ones\n");
    answer = counted(gemthatch_channel_distance(&alder, visitor, GEMTHATCH_KIND_RANGE, 200.0, 0.0, limit));
    (void)told("Alder: the visitor's distance", answer, "records");
    expect(answer == 1u, "it has one record");
    show("Alder", &alder);
    expect(holds(gemthatch_channel_record_at(&alder, 0u), visitor, 105u, 2u, 1u), "the visitor's record is far");
    expect(told_slot(&alder, 105u) == GEMTHATCH_REUSABLE, "all who hold 105 are far");
    expect(maps[0][5] == GEMTHATCH_REUSABLE, "which its map says too");
    answer = place_block("Alder", &alder, 105u, 111u, 2u, 4712u);
    expect(answer == 105u, "105 comes third, and 4712 mod 3 is 2");

    printf("\nBirch gets the same scratch list, and finds nothing in its range\n");
    answer = place_block("Birch", &birch, 105u, 105u, 2u, 4712u);
    expect_refused(answer, GEMTHATCH_REFUSED_NONE, "105 is taken at Birch, and of Alder's answer no trace is left");

    printf("\nCedar fills up\n");
    for (i = 0; i < RECORDS; i++)
        (void)told("a station reserves one slot", reserve_one(&cedar, i, 20u + i), NULL);
    answer = told("and one more", reserve_one(&cedar, 9u, 30u), NULL);
    expect_refused(answer, GEMTHATCH_REFUSED_FULL, "there is no room");
    answer = told("Cedar's clock, slot 22", set_clock(&cedar, 22u), "records over");
    expect(answer == 2u, "those at 20 and 21 are over");
    show("Cedar", &cedar);
    expect(gemthatch_channel_record_at(&cedar, 0u).record.first == 22u && gemthatch_channel_record_at(&cedar, 1u).record.first == 23u,
           "those at 22 and 23 moved up, in their order");
    expect(told_slot(&cedar, 22u) == GEMTHATCH_TAKEN, "22 is now");
    expect(maps[2][0] == GEMTHATCH_TAKEN && maps[2][1] == GEMTHATCH_TAKEN && all_zero(maps[2] + 2, 58u), "the map begins at the new now");

    printf("\nLater: the tenant reserves again, and time goes on\n");
    (void)told("Birch's clock, slot 5000", set_clock(&birch, 5000u), "records over");
    (void)told("the twin's clock, slot 5000", set_clock(&twin, 5000u), "records over");
    (void)told("Birch: the tenant, 7001", take_burst(&birch, tenant, burst, 1u), NULL);
    answer = set_offset(&birch, tenant, 90.0, 120.0, 150u);
    (void)told("Birch: the tenant's distance", answer, "records");
    expect(answer == 2u, "it has two records");
    (void)told("Birch: the visitor, 7003", take_burst(&birch, visitor, burst, 3u), NULL);
    (void)told("the twin: the visitor, 7003", take_burst(&twin, visitor, burst, 3u), NULL);
    (void)told("Birch's clock, slot 13000", set_clock(&birch, 13000u), "records over");
    (void)told("the twin's clock, slot 13000", set_clock(&twin, 13000u), "records over");
    show("Birch", &birch);
    expect(holds(gemthatch_channel_record_at(&birch, 0u), tenant, 105u, 3u, 1u), "the tenant's record comes first, and is far");
    expect(holds(gemthatch_channel_record_at(&birch, 1u), visitor, 5005u, 3u, 0u), "then the visitor's, which is not far");
    expect(gemthatch_channel_record_at(&birch, 2u).handed == 0u, "and then no more");
    expect(told_slot(&birch, 13603u) == GEMTHATCH_REUSABLE, "13603 is the tenant's alone, the first of its blocks that moved");

    printf("\nMonth's end: the tenant leaves Birch\n");
    answer = told("Birch: the tenant is wiped", wipe(&birch, tenant), "records removed");
    expect(answer == 1u, "its other one was over");
    expect(told_slot(&birch, 13603u) == GEMTHATCH_FREE, "13603 is nobody's");
    show("Birch", &birch);
    show_octets(&birch);
    show("its twin, which never saw the tenant", &twin);
    show_octets(&twin);
    expect(is_without(&birch, tenant), "no record is the tenant's");
    expect(birch.now == twin.now && birch.count == twin.count, "clock and count are those without the tenant");
    expect(memcmp(memories[1], memories[3], OCTETS) == 0, "the octets are those without the tenant");
    expect(memcmp(maps[1], maps[3], M1) == 0, "and so are the map's");

    printf("\nSomething else writes over an octet of Birch's map\n");
    maps[1][1130] = 3u;
    answer = place_block("Birch", &birch, 13002u, 13100u, 5u, 4710u);
    expect_refused(answer, GEMTHATCH_REFUSED_MAP, "the map is not that of the table");
    expect(maps[1][1130] == 3u && memcmp(memories[1], memories[3], OCTETS) == 0, "map and table are untouched");

    printf("\nNight: the log of Birch's day is replayed on another table\n");
    (void)told("a table, M1 4500", counted(gemthatch_channel_open(&night, memories[4], OCTETS, maps[4], M1, M1)), NULL);
    refused_before = day.refused;
    replay(&night);
    expect(logged == 10u && day.refused == refused_before + 1u, "one of its ten calls was refused, as by day");
    called_for = called_for + 1;
    show("what it leaves", &night);
    expect(night.now == birch.now && night.count == birch.count, "clock and count are Birch's");
    expect(memcmp(memories[4], memories[1], OCTETS) == 0, "the octets are Birch's");
    printf("  and Birch takes its map over\n");
    memcpy(maps[1], maps[4], M1);
    answer = place_block("Birch", &birch, 13002u, 13100u, 5u, 4710u);
    expect(answer == 13002u, "it is served again, and 4710 mod 3 is 0");
    expect(memcmp(maps[1], maps[3], M1) == 0, "its map is the twin's once more");

    printf("\nThe worker's list, lent once more\n");
    answer = counted(gemthatch_channel_search(&birch, 13000u, 13100u, 5u, GEMTHATCH_WANTED_MAX, scratch, sizeof scratch - 1u));
    (void)told("a search with a list too short", answer, "found");
    expect_refused(answer, GEMTHATCH_REFUSED_SIZE, "fifteen places and three octets are too few");
    expect(all_zero(scratch, sizeof scratch), "the scratch list holds no slot of anybody");

    expect(day.refused == called_for, "the calls refused are those that had to be");
    expect(day.accepted == calls - called_for, "and all others are accepted");
    if (surprises == 0)
        printf("\nBirch, its twin and the replayed table are the same in every octet, their maps too, and the scratch list is empty.\n");
    else
        printf("\n%d things came out otherwise.\n", surprises);
    printf("The day's tally: %u calls accepted, %u refused (a burst that comes in is up to three calls, a walk counts as one)\n",
           (unsigned)day.accepted, (unsigned)day.refused);
    return surprises == 0 ? 0 : 1;
}
