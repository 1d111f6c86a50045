/*
 * gemthatch.h - slot reservation for VDL Mode 4 ground stations
 *
 * This header is the manual of libgemthatch.a. It speaks C99 and C++. The archive is for x86-64.
 *
 *     gcc -Iinclude host.c target/staticlib/libgemthatch.a
 *
 * WHAT IT DOES
 * A superframe block reservation is nine octets of a burst: read and write them. A channel's reservations stand in a table of records in
 * memory that you lend. A slot is free, reusable or taken, as the stored reservations say; a map that you lend beside the table says it
 * of every slot of the next superframe, and can be drawn at any time between two calls. A search lists where a block of slots may be
 * placed, and a pick chooses one. A station that leaves is wiped without trace. A channel's log is replayed, one log record after the
 * other. A walk hands out a table's records one by one, and a tally counts accepted and refused calls.
 *
 * WHAT EVERY CALL PROMISES
 * Every call takes any numbers and any octets, and ends. Bad input gets a numbered refusal, the first that applies in the order given
 * with the call. A refused call changes no octet of the table or of its map, and the state stays what it was (but for a refused opening,
 * which empties it). After every accepted call the map is the one that the table as it then is gives. A search's list is wiped with zeros
 * at every call, refused or not, and then holds the answer only. All of this is proved of the library's code, for every input.
 *
 * WHO OWNS WHAT
 * All memory is yours. The library allocates nothing, keeps no pointer after a call, and has no state of its own: what it knows is what
 * you hand it. Calls on different memories may run at the same time in different threads. Of calls that are given the same memory and
 * map, those that only look (slot state, search, record at) may run at the same time; any other must run alone. Nor is a map to be drawn
 * from while a call other than those runs on it: half of it may be the old one, half the new one. Counting changes the tally: calls that
 * are given the same tally must run one at a time.
 *
 * What a call is lent is a pointer and the number of octets behind it. No alignment is asked. NULL is allowed where that number is 0.
 * What is lent to one call must not overlap: memory, map, and a search's list or a log record. A tally is lent by its pointer alone: it
 * must point to a tally, aligned as any struct of C, and not be NULL. A channel, too, must not be NULL, and must have been through
 * gemthatch_channel_open. The place that gemthatch_list_slot is given must be below the number found. These, and that so many octets are
 * really there, are the only things that the library can't test for you.
 *
 * The table's memory, its map and the state go together: hand back memory and map as the last call left them, with the state that its
 * answer gives. `gemthatch_channel`, at the end of this file, does that for you.
 *
 * Distances are compared in double precision, each operation rounded once to nearest: leave the processor's rounding mode as C starts it.
 */
#ifndef GEMTHATCH_H
#define GEMTHATCH_H

#include <stddef.h>
#include <stdint.h>

#ifdef __cplusplus
extern "C" {
#endif

/* An answer that is dropped is a warning; gcc gives it behind a cast to void too. */
#if defined(__GNUC__) || defined(__clang__)
#define GEMTHATCH_MUST_USE __attribute__((warn_unused_result))
#else
#define GEMTHATCH_MUST_USE
#endif

/* ---- sizes and limits --------------------------------------------------------------------------------------------------------------- */

#define GEMTHATCH_BURST_OCTETS 9u           /* a superframe block reservation, n-10 to n-2 of the burst; n is its last octet */
#define GEMTHATCH_RATES 16u                 /* entries of a rate list, one for each code */
#define GEMTHATCH_RECORD_OCTETS 16u         /* a record of the table */
#define GEMTHATCH_RECORDS_MAX 2048u         /* records of a table, at least 1 */
#define GEMTHATCH_MEMORY_MAX (GEMTHATCH_RECORDS_MAX * GEMTHATCH_RECORD_OCTETS)
#define GEMTHATCH_MAP_MAX GEMTHATCH_M1_MAX  /* octets of a map; it has M1 of them, one to a slot */
#define GEMTHATCH_ENTRY_OCTETS 24u          /* a log record */
#define GEMTHATCH_LIST_SLOT_OCTETS 4u       /* a slot in a search's list */
#define GEMTHATCH_WANTED_MAX 16u            /* starts that a search gives, at least 1 */
#define GEMTHATCH_LIST_MAX (GEMTHATCH_WANTED_MAX * GEMTHATCH_LIST_SLOT_OCTETS) /* octets that a search's list ever needs */

#define GEMTHATCH_M1_MIN 60u                /* slots in a superframe, by steps of 60 */
#define GEMTHATCH_M1_MAX 15360u
#define GEMTHATCH_M1_DEFAULT 4500u
#define GEMTHATCH_SLOT_MAX 1000000000u      /* the last slot of the clock and of a search */
#define GEMTHATCH_STATION_MAX 134217727u    /* a 27-bit address */
#define GEMTHATCH_RATE_MAX 60u              /* blocks in a superframe, at least 1 */
#define GEMTHATCH_SUPERFRAMES_MAX 3u        /* at least 1 */
#define GEMTHATCH_LENGTH_MAX 32u            /* slots in a block, at least 1 */
#define GEMTHATCH_BS_MIN 2u                 /* slots from now to the first block */
#define GEMTHATCH_BS_MAX 255u
#define GEMTHATCH_BO_MAX 127                /* slots that a block offset moves the further superframe of blocks, on or back */
#define GEMTHATCH_MILES_MAX 4096.0          /* a range, or a part of an offset, beyond this is never far; also the highest reuse limit */
#define GEMTHATCH_LIMIT_DEFAULT 150.0       /* the technical manual's default reuse limit, its Q2a */
#define GEMTHATCH_TALLY_MAX 4294967295u     /* where each count of a tally stops */
#define GEMTHATCH_STACK 36864u              /* octets of stack that a call needs at most */

/* ---- answers and refusals ----------------------------------------------------------------------------------------------------------- */

/* Every call that returns a plain uint32_t returns its number, or GEMTHATCH_REFUSED plus the refusal. No number comes near it. */
#define GEMTHATCH_REFUSED 2000000000u

/* Each is given exactly when its line says so, and no earlier one of the call's order applies. */
enum gemthatch_refusal {
    GEMTHATCH_ACCEPTED = 0,
    GEMTHATCH_REFUSED_SIZE = 1,            /* not nine octets; at open, memory not 1..2,048 whole records; a list shorter than wanted */
    GEMTHATCH_REFUSED_EXTENDED_ID = 2,     /* octet 9 bits 8-4 not 00010 */
    GEMTHATCH_REFUSED_CODE = 3,            /* br code 7, 14, 15 or above 15; in the rate lookup also one whose entry is 0 */
    GEMTHATCH_REFUSED_ROFF = 4,            /* roff outside 2..255 */
    GEMTHATCH_REFUSED_BS = 5,              /* bs outside 2..255 */
    GEMTHATCH_REFUSED_BO = 6,              /* bo outside -127..127 (octet 128) */
    GEMTHATCH_REFUSED_RATE_LIST = 7,       /* not sixteen entries, one above 60, or one not 0 at 7, 14 or 15 */
    GEMTHATCH_REFUSED_ADDRESS = 8,         /* address 2^27 or more */
    GEMTHATCH_REFUSED_FIELD = 9,           /* blg above 31, bt or superframes above 3, length 0 or above 32 */
    GEMTHATCH_REFUSED_FIGURE = 10,         /* the figure doesn't fit its parameter's row */
    GEMTHATCH_REFUSED_NOT_SOUND = 11,      /* the table isn't sound, as told at `the table` below */
    GEMTHATCH_REFUSED_BEHIND = 12,         /* clock, or slot asked about, behind now */
    GEMTHATCH_REFUSED_LATE = 13,           /* clock, or slot asked about, above 1,000,000,000 */
    GEMTHATCH_REFUSED_RATE = 14,           /* rate 0 or above 60 */
    GEMTHATCH_REFUSED_NO_SUPERFRAMES = 15, /* superframes 0 */
    GEMTHATCH_REFUSED_HELD = 16,           /* same station, first slot, rate, superframes, length and bo already held */
    GEMTHATCH_REFUSED_FULL = 17,           /* as many records as the memory has room for */
    GEMTHATCH_REFUSED_LIMIT = 18,          /* reuse limit NaN or outside 0..4096 */
    GEMTHATCH_REFUSED_SEARCH_RANGE = 19,   /* lo before now, lo above hi, hi above 1,000,000,000, or hi - lo at least M1 */
    GEMTHATCH_REFUSED_WANTED = 20,         /* wanted outside 1..16; pick from n outside 1..16 */
    GEMTHATCH_REFUSED_NONE = 21,           /* no start in the range has a block without a taken slot */
    GEMTHATCH_REFUSED_PARAMETER = 22,      /* parameter number not 1..3 */
    GEMTHATCH_REFUSED_ENTRY = 23,          /* a log record not 24 octets, its operation not 1..4, or what that doesn't use not 0 */
    GEMTHATCH_REFUSED_EARLY = 24,          /* the further superframe of blocks, which bo calls for, would begin before now */
    GEMTHATCH_REFUSED_MAP = 25,            /* the map isn't M1 octets, or isn't that of the table as it stands; at open, its size alone */
    GEMTHATCH_REFUSED_DESTINATION = 34     /* an address with roff equal to bs, or no re-broadcast with roff not equal to bs */
};

/* The refusal in an answer: 0, GEMTHATCH_ACCEPTED, where it is a number. */
static inline uint32_t gemthatch_refusal_of(uint32_t answer)
{
    return answer < GEMTHATCH_REFUSED ? 0u : answer - GEMTHATCH_REFUSED;
}

/* A refusal in a few words, for a log. */
static inline const char *gemthatch_refusal_text(uint32_t refusal)
{
    switch (refusal) {
    case GEMTHATCH_ACCEPTED: return "accepted";
    case GEMTHATCH_REFUSED_SIZE: return "wrong size";
    case GEMTHATCH_REFUSED_EXTENDED_ID: return "no superframe block reservation";
    case GEMTHATCH_REFUSED_CODE: return "bad rate code";
    case GEMTHATCH_REFUSED_ROFF: return "roff outside 2..255";
    case GEMTHATCH_REFUSED_BS: return "bs outside 2..255";
    case GEMTHATCH_REFUSED_BO: return "bo outside -127..127";
    case GEMTHATCH_REFUSED_RATE_LIST: return "bad rate list";
    case GEMTHATCH_REFUSED_ADDRESS: return "address above 27 bits";
    case GEMTHATCH_REFUSED_FIELD: return "blg, bt, superframes or length out of range";
    case GEMTHATCH_REFUSED_FIGURE: return "figure does not fit its parameter";
    case GEMTHATCH_REFUSED_NOT_SOUND: return "table not sound";
    case GEMTHATCH_REFUSED_BEHIND: return "behind now";
    case GEMTHATCH_REFUSED_LATE: return "above the last slot";
    case GEMTHATCH_REFUSED_RATE: return "rate outside 1..60";
    case GEMTHATCH_REFUSED_NO_SUPERFRAMES: return "no superframes";
    case GEMTHATCH_REFUSED_HELD: return "already held";
    case GEMTHATCH_REFUSED_FULL: return "table full";
    case GEMTHATCH_REFUSED_LIMIT: return "reuse limit outside 0..4096";
    case GEMTHATCH_REFUSED_SEARCH_RANGE: return "bad search range";
    case GEMTHATCH_REFUSED_WANTED: return "wanted or n outside 1..16";
    case GEMTHATCH_REFUSED_NONE: return "no block to use";
    case GEMTHATCH_REFUSED_PARAMETER: return "no such parameter";
    case GEMTHATCH_REFUSED_ENTRY: return "no log record";
    case GEMTHATCH_REFUSED_EARLY: return "further blocks before now";
    case GEMTHATCH_REFUSED_MAP: return "map not M1 octets, or not that of the table";
    case GEMTHATCH_REFUSED_DESTINATION: return "destination does not go with roff and bs";
    default: return "no refusal of this library";
    }
}

/* ---- the nine octets ---------------------------------------------------------------------------------------------------------------- */

/* The kind of a destination. */
enum gemthatch_destination {
    GEMTHATCH_DESTINATION_ADDRESS = 0,       /* the station of address d is to re-broadcast the burst; roff does not equal bs */
    GEMTHATCH_DESTINATION_NO_REBROADCAST = 1 /* nobody is, which the burst says by roff equal to bs; it has no address */
};

/*
 * The fields of a superframe block reservation. Of d and information, the one that the kind does not use is 0 in a reading. The octet
 * behind information is a gap that may hold anything: compare two blocks by their fields.
 */
typedef struct gemthatch_block {
    uint32_t destination;   /* the kind of destination; at the writer any other number is read as an address */
    uint32_t d;             /* the destination's address, below 2^27 */
    uint8_t information[3]; /* with no re-broadcast: the three octets n-10 to n-8, which belong to the burst's information field */
    uint32_t blg;           /* 0..31, one less than the slots of a block */
    uint32_t roff;          /* re-broadcast offset, 2..255 */
    uint32_t br;            /* block repeat rate code, 0..13 without 7 */
    uint32_t bs;            /* block start, 2..255 */
    int32_t bo;             /* block offset, -127..127: where the blocks move next */
    uint32_t bt;            /* 0..3 */
} gemthatch_block;

/* What reading gives: the bare refusal, 0 where it is accepted, and the fields; where it is refused address 0, and all others 0. */
typedef struct gemthatch_reading {
    uint32_t refusal;
    gemthatch_block block;
} gemthatch_reading;

/* What writing gives: the bare refusal, 0 where it is accepted, and the octets, all 0 where it is refused. */
typedef struct gemthatch_writing {
    uint32_t refusal;
    uint8_t octets[GEMTHATCH_BURST_OCTETS];
} gemthatch_writing;

/*
 * Reads a reservation. The reserved bits (octet 6 bits 8-5, octet 9 bit 3, and octet 4 bits 3-1 where roff equals bs) are ignored.
 * Where roff equals bs, octets 1 to 3 are no address, whatever they look like, but the end of the information field:
 *     FF FF FF FF FF 0D FF 7F 13  is destination 1, d 0, information FF FF FF, blg 31, roff 255, br 13, bs 255, bo 127, bt 3
 * A host puts the three octets behind those that it has of the information field, looks at no d, and reserves by br, bs and blg as from any
 * other burst.
 * Refused, in this order: 1 octets not 9, 2, 3, 4, 5, 6.
 */
GEMTHATCH_MUST_USE gemthatch_reading gemthatch_read(const uint8_t *burst, size_t octets);

/*
 * Writes a reservation, the reserved bits 0. Of d and information, the one that the destination's kind does not use is ignored.
 * Reading what was written gives the same fields; writing what was read gives the same octets with the reserved bits cleared.
 * Refused, in this order: 8 d of an address, 9 blg or bt, 3, 4, 5, 6, 34.
 */
GEMTHATCH_MUST_USE gemthatch_writing gemthatch_write(gemthatch_block block);

/* The rates of the technical manual's Table 1-33, by code: `static const uint8_t rates[GEMTHATCH_RATES] = GEMTHATCH_TABLE_1_33;` */
#define GEMTHATCH_TABLE_1_33 { 1, 2, 3, 4, 5, 6, 8, 0, 10, 12, 15, 20, 30, 60, 0, 0 }

/*
 * The rate, 1..60, that a code stands for in a list of sixteen, in which 0 means no rate.
 * Refused, in this order: 7, 3.
 */
GEMTHATCH_MUST_USE uint32_t gemthatch_rate(const uint8_t *rates, size_t entries, uint32_t code);

/*
 * 0 where a figure fits a parameter: 1 M1 (60..15,360 by 60), 2 M2inc (1..256 by 1), 3 M2limit (1..65,536 by 1).
 * Refused, in this order: 22, 10.
 */
GEMTHATCH_MUST_USE uint32_t gemthatch_parameter(uint32_t number, uint32_t figure);

/* ---- the table ---------------------------------------------------------------------------------------------------------------------- */

/*
 * The memory is GEMTHATCH_RECORD_OCTETS for each record that it shall hold, 1 to GEMTHATCH_RECORDS_MAX. The map is M1 octets, so 4,500 for
 * the usual M1. The state beside them is three numbers: M1, now and count. Form the next state from an accepted answer as each call says; a
 * refused call leaves memory, map and state as they were (but for a refused opening, which empties the state).
 *
 * A record reserves, for k below superframes and j below rate, the `length` slots from first + k*M1 + j*(M1/rate), the division's
 * remainder dropped. Where its block offset bo isn't 0 it reserves one further superframe of blocks, the `length` slots from
 * first + superframes*M1 + bo + j*(M1/rate): those of the superframe that comes next, moved on or back by bo. They may lie over the others,
 * and where M1 is 60 or 120 before them too. A record is over when the last slot of all its blocks is before now.
 *
 * Every call on a table first tests it whole, and refuses it with 11 where it is not sound: memory of a right size, M1 fits, now at most
 * 1,000,000,000, count at most the capacity, every record's fields in their ranges, its three zeros 0, none of its blocks before slot 0,
 * and not over, all octets after the records 0.
 *
 * The map has an octet for each slot from now to now + M1 - 1, the first for now: 0 free, 1 reusable, 2 taken (enum gemthatch_slot). It
 * belongs to its table: a worker may share a search's list among channels, but not a map. Every call that takes it, but open, works it out
 * afresh from the table, and refuses with 25 one that is not the same; so a map that was written over is found at the next call. After an
 * accepted call it is the map of the next state: after a clock it begins at the new now. Of slots past 1,000,000,000, which slot state
 * refuses, it says what they are by the same rule.
 *
 * No call mends a map. Where the table is sound, set each octet i to gemthatch_slot_state of slot now + i, as far as that goes; or replay
 * the channel's log on a table opened anew. What wrote over the map may have written elsewhere too.
 *
 * Working the map out is most of what a call costs. With M1 4500 a call takes half a microsecond or less on a table of one record, some
 * microseconds on 64 records, some tens of them on a full table, and up to a quarter of a millisecond where every record of it has 60
 * blocks to a superframe. In superframes of less than 1,920 slots, where such blocks may lie a few slots apart, it can be a millisecond or
 * two.
 * docs/BENCH.md has the figures, and says how many channels one processor core serves.
 * A call needs at most GEMTHATCH_STACK octets of stack, which a thread with a small one has to have left.
 */

/*
 * Opens a table: every octet of memory and map 0, whatever was there. Next state: m1, 0, 0; where it is refused 0, 0, 0, and memory and map
 * are untouched.
 * Returns 0. Refused, in this order: 10 M1, 1 size of the memory, 25 size of the map not m1.
 */
GEMTHATCH_MUST_USE uint32_t gemthatch_open(uint8_t *memory, size_t octets, uint8_t *map, size_t map_octets, uint32_t m1);

/*
 * Sets now to a slot, which may be now again, and drops the records that are over then; the others keep their order, octets behind them
 * are 0. Next state: m1, slot, count less the number returned.
 * Returns how many were dropped. Refused, in this order: 11, 25, 12, 13.
 */
GEMTHATCH_MUST_USE uint32_t gemthatch_clock(uint8_t *memory, size_t octets, uint8_t *map, size_t map_octets, uint32_t m1, uint32_t now,
                                            uint32_t count, uint32_t slot);

/* How a distance is handed over. Any other kind is read as unknown. */
enum gemthatch_kind {
    GEMTHATCH_KIND_UNKNOWN = 0, /* a and b are ignored */
    GEMTHATCH_KIND_RANGE = 1,   /* a is a range in nautical miles, b is ignored */
    GEMTHATCH_KIND_OFFSET = 2   /* a is how far to the east, b how far to the north */
};

/*
 * Adds one record at the end: station, first slot now + bs, rate, superframes, length, block offset bo, and whether the station is far. A
 * range is far if limit <= a <= 4096; an offset if both parts lie in -4096..4096 and a*a + b*b >= limit*limit. Unknown and NaN are never
 * far. From a burst that was read: rate is gemthatch_rate of br, bs is bs, length is blg + 1, bo is bo. The station is the one that sent
 * it, not d; superframes is the host's to say, not bt.
 * Next state: m1, now, count + 1.
 * Returns 0. Refused, in this order: 11, 25, 8, 14, 15, 9 superframes or length, 5, 6, 24, 18, 16, 17.
 */
GEMTHATCH_MUST_USE uint32_t gemthatch_reserve(uint8_t *memory, size_t octets, uint8_t *map, size_t map_octets, uint32_t m1, uint32_t now,
                                              uint32_t count, uint32_t station, uint32_t rate, uint32_t superframes, uint32_t bs,
                                              uint32_t length, int32_t bo, uint32_t kind, double a, double b, double limit);

/*
 * Says anew whether a station is far, in all its records. The state stays.
 * Returns how many records it has; 0 is no refusal. Refused, in this order: 11, 25, 8, 18.
 */
GEMTHATCH_MUST_USE uint32_t gemthatch_distance(uint8_t *memory, size_t octets, uint8_t *map, size_t map_octets, uint32_t m1, uint32_t now,
                                               uint32_t count, uint32_t station, uint32_t kind, double a, double b, double limit);

/*
 * Removes a station's records; the others keep their order, octets behind them are 0. Unless another station's reservation was refused
 * because the table was full (17) since the opening, memory, map and state are then what they would be had the station never called.
 * Next state: m1, now, count less the number returned.
 * Returns how many were removed; 0 is no refusal. Refused, in this order: 11, 25, 8.
 */
GEMTHATCH_MUST_USE uint32_t gemthatch_wipe(uint8_t *memory, size_t octets, uint8_t *map, size_t map_octets, uint32_t m1, uint32_t now,
                                           uint32_t count, uint32_t station);

/* ---- the log ------------------------------------------------------------------------------------------------------------------------ */

/* What a log record asks for: its first octet, and which of its fields that uses. */
enum gemthatch_operation {
    GEMTHATCH_OPERATION_CLOCK = 1,    /* slot */
    GEMTHATCH_OPERATION_RESERVE = 2,  /* all, with bs in the slot's place */
    GEMTHATCH_OPERATION_DISTANCE = 3, /* station, distance, limit */
    GEMTHATCH_OPERATION_WIPE = 4      /* station */
};

/* What an unknown distance is in a log record. Any other number is a range. */
#define GEMTHATCH_ENTRY_UNKNOWN 4294967295u

/*
 * Applies a log record to a table, that is, makes the call that it asks for. It is GEMTHATCH_ENTRY_OCTETS octets, numbers little-endian:
 *
 *     0           operation
 *     1, 2, 3     rate, superframes, length
 *     4 to 7      station
 *     8 to 11     slot, or bs
 *     12 to 15    distance in whole nautical miles
 *     16 to 19    reuse limit in whole nautical miles
 *     20          bo, in two's complement
 *     21 to 23    0
 *
 * Fields that its operation does not use are 0. Memory and map are left, and the number returned, as by the call. The next state is
 * formed as the call says; the answer alone does not tell which call that is, so this takes the log record's operation, and of a clock
 * its slot: gemthatch_channel_replay_step does it.
 * Refused: 23, before anything else; then as the call is.
 */
GEMTHATCH_MUST_USE uint32_t gemthatch_replay_step(uint8_t *memory, size_t octets, uint8_t *map, size_t map_octets, uint32_t m1,
                                                  uint32_t now, uint32_t count, const uint8_t *entry, size_t entry_octets);

/* ---- slots -------------------------------------------------------------------------------------------------------------------------- */

/* A slot's state. */
enum gemthatch_slot {
    GEMTHATCH_FREE = 0,     /* no record reserves it */
    GEMTHATCH_REUSABLE = 1, /* some do, and all those are far */
    GEMTHATCH_TAKEN = 2     /* otherwise */
};

/*
 * Returns the state of a slot from now on, by the table alone: it takes no map, and reaches beyond one.
 * Refused, in this order: 11, 12, 13.
 */
GEMTHATCH_MUST_USE uint32_t gemthatch_slot_state(const uint8_t *memory, size_t octets, uint32_t m1, uint32_t now, uint32_t count,
                                                 uint32_t slot);

/*
 * Lists where a block of `length` slots may start in lo..hi: first the starts whose slots are all free, ascending, then those with no
 * taken slot, ascending; cut after `wanted`. Only the start has to lie in the range. The list is octets, GEMTHATCH_LIST_SLOT_OCTETS to a
 * slot, little-endian; octets left over at its end count for no place. All of it is wiped at every call, refused or not. Slot 0 is a slot
 * like any other: the number found says how many entries the list has. To reserve a start that was found, bs is start - now, so only
 * starts in now + 2 .. now + 255 can be reserved: choose lo and hi accordingly. Where the blocks lie wholly in the map's slots (hi +
 * length - 1 is at most now + M1 - 1), the search goes along the map. Any other is worked out from the table, which takes as long again
 * at most, and gives what a map that reached so far would give.
 * Returns the number found, 1..wanted. Refused, in this order: 11, 25, 19, 9 length, 20, 1 list shorter than wanted, 21 none found.
 */
GEMTHATCH_MUST_USE uint32_t gemthatch_search(const uint8_t *memory, size_t octets, const uint8_t *map, size_t map_octets, uint32_t m1,
                                             uint32_t now, uint32_t count, uint32_t lo, uint32_t hi, uint32_t length, uint32_t wanted,
                                             uint8_t *list, size_t list_octets);

/* The slot at a place, from 0, of a search's list. The place must be below the number found: this is not tested. */
static inline uint32_t gemthatch_list_slot(const uint8_t *list, size_t place)
{
    const uint8_t *at = list + place * GEMTHATCH_LIST_SLOT_OCTETS;
    return (uint32_t)at[0] | (uint32_t)at[1] << 8 | (uint32_t)at[2] << 16 | (uint32_t)at[3] << 24;
}

/*
 * Which of the n starts found to use, by a random number r: the place r mod n, always below n.
 * Returns the place in the list. Refused: 20 n outside 1..16.
 */
GEMTHATCH_MUST_USE uint32_t gemthatch_pick(uint32_t n, uint32_t r);

/* ---- the walk ----------------------------------------------------------------------------------------------------------------------- */

/* A record of the table: no struct has a gap here, so records may be compared by their octets. */
typedef struct gemthatch_record {
    uint32_t station;    /* address, below 2^27 */
    uint32_t first;      /* first slot, at most 1,000,000,255 */
    uint8_t rate;        /* blocks in a superframe, 1..60 */
    uint8_t superframes; /* 1..3 */
    uint8_t length;      /* slots in a block, 1..32 */
    uint8_t far;         /* 1 where the station is far, otherwise 0 */
    int8_t bo;           /* block offset, -127..127 */
    uint8_t zeros[3];    /* 0 */
} gemthatch_record;

/* What a walk hands out at a place. */
typedef struct gemthatch_place {
    uint32_t refusal;        /* bare, 0 where it is accepted */
    uint32_t handed;         /* 1 where there is a record; 0 where there is no more, and where it is refused */
    gemthatch_record record; /* all 0 where there is none */
} gemthatch_place;

/*
 * Hands out record i, from 0, in the order of the table. From count on there is no more, however large i is. Nothing is changed. A walk,
 * with a channel, as at the end of this file:
 *
 *     gemthatch_place place;
 *     uint32_t i;
 *     for (i = 0; (place = gemthatch_channel_record_at(&channel, i)).handed; i++)
 *         printf("%u\n", (unsigned)place.record.station);
 *
 * After the loop place.refusal says why it ended: 0, all records were handed out; 11, the table isn't sound and none was. A call that
 * removes records moves the later ones to lower places: walk again then. Each call tests the table whole first, as every table call does,
 * so the time of a walk grows with the square of the count: some 10 to 20 ms for 2,048 records.
 * Refused: 11.
 */
GEMTHATCH_MUST_USE gemthatch_place gemthatch_record_at(const uint8_t *memory, size_t octets, uint32_t m1, uint32_t now, uint32_t count,
                                                       uint32_t i);

/* ---- the tally ---------------------------------------------------------------------------------------------------------------------- */

/* How many of the calls that you had counted were accepted, and how many refused. Start it with { 0, 0 }. */
typedef struct gemthatch_tally {
    uint32_t accepted;
    uint32_t refused;
} gemthatch_tally;

/*
 * Counts a call by its bare refusal, as reading, writing and the walk give it: 0 is accepted, any other number refused. That count goes up
 * by 1, or stays where it is GEMTHATCH_TALLY_MAX; the other stays. An answer that is a plain number would be taken for a refusal: those go
 * to gemthatch_counted. It counts calls, and has nothing to do with a table's count.
 * Returns nothing. Never refused.
 */
void gemthatch_count(gemthatch_tally *tally, uint32_t refusal);

/*
 * Counts an answer by its refusal and hands it on, so it can stand around any call that returns a plain uint32_t:
 * `answer = gemthatch_counted(&tally, gemthatch_channel_clock(&channel, slot));`
 */
GEMTHATCH_MUST_USE static inline uint32_t gemthatch_counted(gemthatch_tally *tally, uint32_t answer)
{
    gemthatch_count(tally, gemthatch_refusal_of(answer));
    return answer;
}

/* ---- a channel: a table with its map and its state --------------------------------------------------------------------------------- */

/*
 * The calls above with the state kept for you: each forms the next state from its answer, as proved in the library (its claims
 * `state_formed` and `entry_formed`). Memory and map stay yours, and must live as long as the channel is used.
 */
typedef struct gemthatch_channel {
    uint8_t *memory;
    size_t octets;
    uint8_t *map;
    size_t map_octets;
    uint32_t m1;
    uint32_t now;
    uint32_t count;
} gemthatch_channel;

/* The map is m1 octets. Refused, the channel is empty: all its calls are refused with 11. */
GEMTHATCH_MUST_USE static inline uint32_t gemthatch_channel_open(gemthatch_channel *channel, uint8_t *memory, size_t octets, uint8_t *map,
                                                                 size_t map_octets, uint32_t m1)
{
    const uint32_t answer = gemthatch_open(memory, octets, map, map_octets, m1);
    channel->memory = memory;
    channel->octets = octets;
    channel->map = map;
    channel->map_octets = map_octets;
    channel->m1 = answer < GEMTHATCH_REFUSED ? m1 : 0u;
    channel->now = 0u;
    channel->count = 0u;
    return answer;
}

GEMTHATCH_MUST_USE static inline uint32_t gemthatch_channel_clock(gemthatch_channel *channel, uint32_t slot)
{
    const uint32_t answer = gemthatch_clock(channel->memory, channel->octets, channel->map, channel->map_octets, channel->m1, channel->now,
                                            channel->count, slot);
    if (answer < GEMTHATCH_REFUSED) {
        channel->now = slot;
        channel->count -= answer;
    }
    return answer;
}

GEMTHATCH_MUST_USE static inline uint32_t gemthatch_channel_reserve(gemthatch_channel *channel, uint32_t station, uint32_t rate,
                                                                    uint32_t superframes, uint32_t bs, uint32_t length, int32_t bo,
                                                                    uint32_t kind, double a, double b, double limit)
{
    const uint32_t answer = gemthatch_reserve(channel->memory, channel->octets, channel->map, channel->map_octets, channel->m1,
                                              channel->now, channel->count, station, rate, superframes, bs, length, bo, kind, a, b, limit);
    if (answer < GEMTHATCH_REFUSED)
        channel->count += 1u;
    return answer;
}

GEMTHATCH_MUST_USE static inline uint32_t gemthatch_channel_distance(gemthatch_channel *channel, uint32_t station, uint32_t kind, double a,
                                                                     double b, double limit)
{
    return gemthatch_distance(channel->memory, channel->octets, channel->map, channel->map_octets, channel->m1, channel->now,
                              channel->count, station, kind, a, b, limit);
}

GEMTHATCH_MUST_USE static inline uint32_t gemthatch_channel_wipe(gemthatch_channel *channel, uint32_t station)
{
    const uint32_t answer = gemthatch_wipe(channel->memory, channel->octets, channel->map, channel->map_octets, channel->m1, channel->now,
                                           channel->count, station);
    if (answer < GEMTHATCH_REFUSED)
        channel->count -= answer;
    return answer;
}

GEMTHATCH_MUST_USE static inline uint32_t gemthatch_channel_replay_step(gemthatch_channel *channel, const uint8_t *entry,
                                                                        size_t entry_octets)
{
    const uint32_t answer = gemthatch_replay_step(channel->memory, channel->octets, channel->map, channel->map_octets, channel->m1,
                                                  channel->now, channel->count, entry, entry_octets);
    if (answer < GEMTHATCH_REFUSED)
        switch (entry[0]) {
        case GEMTHATCH_OPERATION_CLOCK:
            channel->now = (uint32_t)entry[8] | (uint32_t)entry[9] << 8 | (uint32_t)entry[10] << 16 | (uint32_t)entry[11] << 24;
            channel->count -= answer;
            break;
        case GEMTHATCH_OPERATION_RESERVE: channel->count += 1u; break;
        case GEMTHATCH_OPERATION_WIPE: channel->count -= answer; break;
        default: break; /* a distance leaves the state */
        }
    return answer;
}

GEMTHATCH_MUST_USE static inline uint32_t gemthatch_channel_slot_state(const gemthatch_channel *channel, uint32_t slot)
{
    return gemthatch_slot_state(channel->memory, channel->octets, channel->m1, channel->now, channel->count, slot);
}

GEMTHATCH_MUST_USE static inline uint32_t gemthatch_channel_search(const gemthatch_channel *channel, uint32_t lo, uint32_t hi,
                                                                   uint32_t length, uint32_t wanted, uint8_t *list, size_t list_octets)
{
    return gemthatch_search(channel->memory, channel->octets, channel->map, channel->map_octets, channel->m1, channel->now, channel->count,
                            lo, hi, length, wanted, list, list_octets);
}

GEMTHATCH_MUST_USE static inline gemthatch_place gemthatch_channel_record_at(const gemthatch_channel *channel, uint32_t i)
{
    return gemthatch_record_at(channel->memory, channel->octets, channel->m1, channel->now, channel->count, i);
}

#ifdef __cplusplus
}
#endif

#endif
