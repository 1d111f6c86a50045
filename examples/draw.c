/*
 * The operators' picture: a channel's next superframe, drawn from its map, on the terminal and as an SVG file.
 *
 *     gcc -Iinclude examples/draw.c target/staticlib/libgemthatch.a -o draw && ./draw superframe.svg
 *
 * Without a name it draws on the terminal only. Behind the name may stand another M1 than 4500.
 *
 * The traffic is made up, and the same at every run. The functions that draw take a map with its numbers and call nothing of the library,
 * so a host can take them over as they are. No call that changes the map may run beside them. The exit status is not 0 where something
 * could not be written, or where the picture is not that of the table.
 */
#include <errno.h>
#include <stdio.h>
#include <stdlib.h>
#include <string.h>

#include "gemthatch.h"

/* ---- the pictures ------------------------------------------------------------------------------------------------------------------- */

#define ROW 75u        /* slots in a row; with the usual M1 that is a second, as a superframe is a minute */
#define RULER_STEP 5u  /* slots from one mark of the ruler to the next */
#define RULER_LONG 15u /* and to the next long one */

/* The states by their numbers in a map: how each is called and drawn. They are told apart without their colours too, by a character, and by
   cells that are light, hatched and dark; the colours are a blue and an orange, which look different to colour-blind eyes too. */
#define STATES 3u
static const char *const names[STATES] = { "free", "reusable", "taken" };
static const char marks[] = ".o#";
static const char *const fills[STATES] = { "#e9edf1", "url(#hatched)", "#0b3766" };

/* How many slots of a map are in each state. 0 where it can't be drawn, as it is empty or has an octet that is no state. */
static int count_states(const uint8_t *map, size_t octets, uint32_t counts[])
{
    size_t place;
    memset(counts, 0, STATES * sizeof counts[0]);
    for (place = 0; place < octets; place++) {
        if (map[place] >= STATES)
            return 0;
        counts[map[place]]++;
    }
    return octets > 0;
}

static double percent(uint32_t count, size_t octets)
{
    return 100.0 * count / (double)octets;
}

/* The place behind the row that begins at a place. The last row may be shorter. */
static size_t row_end(size_t place, size_t octets)
{
    return octets - place < ROW ? octets : place + ROW;
}

/* How long it is from now to a place, with a decimal where rows are no whole seconds. */
static const char *time_text(char *text, size_t room, size_t place, size_t octets)
{
    snprintf(text, room, "+%.*f s", ROW * 60u % octets == 0 ? 0 : 1, 60.0 * (double)place / (double)octets);
    return place == 0 ? "now" : text;
}

/* The terminal's picture: a line for each row. 0 where the map can't be drawn. */
static int draw_text(FILE *out, const char *channel, const uint8_t *map, size_t octets, uint32_t now, uint32_t records)
{
    uint32_t counts[STATES], state, column;
    size_t place, at;
    char text[16];
    if (!count_states(map, octets, counts))
        return 0;
    fprintf(out, "%s: the next superframe, slots %u to %u. M1 %u, now %u, records: %u\n", channel, (unsigned)now,
            (unsigned)(now + octets - 1u), (unsigned)octets, (unsigned)now, (unsigned)records);
    fprintf(out, "\n%21s", "");
    for (column = 0; column < ROW; column += RULER_LONG)
        fprintf(out, "%-*u", (int)RULER_LONG, (unsigned)column);
    fprintf(out, "\n%10s  %7s  ", "from slot", "time");
    for (column = 0; column < ROW; column++)
        putc(column % RULER_LONG == 0 ? '|' : column % RULER_STEP == 0 ? '+' : '-', out);
    for (place = 0; place < octets; place = row_end(place, octets)) {
        fprintf(out, "\n%10u  %7s %c", (unsigned)(now + place), time_text(text, sizeof text, place, octets), place == 0 ? '>' : ' ');
        for (at = place; at < row_end(place, octets); at++)
            putc(marks[map[at]], out);
    }
    fprintf(out, "\n\n");
    for (state = 0; state < STATES; state++)
        fprintf(out, "%21c  %-8s %6u slots %6.1f %%\n", marks[state], names[state], (unsigned)counts[state],
                percent(counts[state], octets));
    return 1;
}

/* Where things stand in the SVG, in pixels. */
#define CELL 12u         /* from a slot to the next, and from a row to the next */
#define CELL_HEIGHT 10u  /* what a row fills of that */
#define LEFT 156u        /* where the slots begin: the rows' labels stand before them */
#define SLOT_LABEL 84u   /* where a row's slot ends */
#define TIME_LABEL 140u  /* and its time */
#define TOP 138u         /* where the rows begin: title, legend and ruler stand above them */
#define MARGIN 28u       /* right of the rows, and below them */

/* Text between tags. */
static void put_text(FILE *out, const char *text)
{
    for (; *text != '\0'; text++)
        switch (*text) {
        case '&': fputs("&amp;", out); break;
        case '<': fputs("&lt;", out); break;
        case '>': fputs("&gt;", out); break;
        default: putc(*text, out); break;
        }
}

/* The cells of a state: a rectangle for each run of them in a row. */
static void draw_cells(FILE *out, const uint8_t *map, size_t octets, uint32_t state)
{
    size_t row, place, end;
    fprintf(out, "<g id=\"%s\" fill=\"%s\">\n", names[state], fills[state]);
    for (row = 0; row < octets; row = row_end(row, octets))
        for (place = row; place < row_end(row, octets); place = end) {
            for (end = place + 1u; end < row_end(row, octets) && map[end] == map[place]; end++)
                ;
            if (map[place] == state)
                fprintf(out, "<rect x=\"%u\" y=\"%u\" width=\"%u\" height=\"%u\"/>\n", (unsigned)(LEFT + (place - row) * CELL),
                        (unsigned)(TOP + row / ROW * CELL), (unsigned)((end - place) * CELL), CELL_HEIGHT);
        }
    fprintf(out, "</g>\n");
}

/* The SVG picture: the same rows. 0 where the map can't be drawn. */
static int draw_svg(FILE *out, const char *channel, const uint8_t *map, size_t octets, uint32_t now, uint32_t records)
{
    const unsigned bottom = TOP + (unsigned)((octets + ROW - 1u) / ROW) * CELL;
    const unsigned width = LEFT + ROW * CELL + MARGIN, height = bottom + MARGIN;
    uint32_t counts[STATES], state, column, i;
    size_t place;
    char text[16];
    if (!count_states(map, octets, counts))
        return 0;
    fprintf(out, "<?xml version=\"1.0\" encoding=\"UTF-8\"?>\n");
    fprintf(out, "<svg xmlns=\"http://www.w3.org/2000/svg\" width=\"%u\" height=\"%u\" viewBox=\"0 0 %u %u\" role=\"img\"", width,
            height, width, height);
    fprintf(out, " font-family=\"sans-serif\" font-size=\"11\" fill=\"#1a1a1a\">\n<title>");
    put_text(out, channel);
    fprintf(out, ": the next superframe from slot %u</title>\n", (unsigned)now);
    fprintf(out, "<defs><pattern id=\"hatched\" width=\"5\" height=\"5\" patternUnits=\"userSpaceOnUse\" patternTransform=\"rotate(45)\">"
                 "<rect width=\"5\" height=\"5\" fill=\"#ffe3b0\"/><rect width=\"2\" height=\"5\" fill=\"#b35a00\"/></pattern></defs>\n");
    fprintf(out, "<rect width=\"100%%\" height=\"100%%\" fill=\"#ffffff\"/>\n");

    fprintf(out, "<text x=\"%u\" y=\"36\" font-size=\"22\" font-weight=\"bold\">", LEFT);
    put_text(out, channel);
    fprintf(out, ": the next superframe</text>\n");
    fprintf(out, "<text x=\"%u\" y=\"58\" font-size=\"14\">M1 %u, now %u, slots %u to %u, records: %u</text>\n", LEFT, (unsigned)octets,
            (unsigned)now, (unsigned)now, (unsigned)(now + octets - 1u), (unsigned)records);
    for (state = 0; state < STATES; state++) {
        const unsigned x = LEFT + state * 20u * CELL;
        fprintf(out, "<rect x=\"%u\" y=\"73\" width=\"36\" height=\"14\" fill=\"%s\" stroke=\"#1a1a1a\" stroke-width=\"0.5\"/>"
                     "<text x=\"%u\" y=\"85\" font-size=\"14\">%s: %u, %.1f %%</text>\n",
                x, fills[state], x + 44u, names[state], (unsigned)counts[state], percent(counts[state], octets));
    }

    /* A slot's number is that of its row and that of its column, added. */
    fprintf(out, "<text x=\"%u\" y=\"%u\" text-anchor=\"end\">from slot</text><text x=\"%u\" y=\"%u\" text-anchor=\"end\">time</text>\n",
            SLOT_LABEL, TOP - 12u, TIME_LABEL, TOP - 12u);
    for (column = 0; column < ROW; column += RULER_STEP)
        fprintf(out, "<text x=\"%u\" y=\"%u\" text-anchor=\"middle\">%s%u</text>\n", LEFT + column * CELL + CELL / 2u, TOP - 12u,
                column == 0 ? "" : "+", (unsigned)column);
    for (place = 0; place < octets; place = row_end(place, octets)) {
        const unsigned y = TOP + (unsigned)(place / ROW) * CELL + CELL_HEIGHT - 1u;
        const char *weight = place == 0 ? " font-weight=\"bold\"" : "";
        fprintf(out, "<text x=\"%u\" y=\"%u\" text-anchor=\"end\"%s>%u</text><text x=\"%u\" y=\"%u\" text-anchor=\"end\"%s>%s</text>\n",
                SLOT_LABEL, y, weight, (unsigned)(now + place), TIME_LABEL, y, weight, time_text(text, sizeof text, place, octets));
    }
    for (state = 0; state < STATES; state++)
        draw_cells(out, map, octets, state);

    /* Between two slots a thin line, so that they can be counted, and at the ruler's marks a wider one. */
    fprintf(out, "<g stroke=\"#ffffff\">\n");
    for (column = 1; column < ROW; column++)
        fprintf(out, "<path d=\"M%u %uV%u\" stroke-width=\"%s\"/>\n", LEFT + column * CELL, TOP, bottom,
                column % RULER_STEP == 0 ? "2" : "0.7");
    fprintf(out, "</g>\n");
    fprintf(out, "<g fill=\"none\" stroke=\"#1a1a1a\">\n");
    for (column = 0; column < ROW; column += RULER_STEP)
        fprintf(out, "<path d=\"M%u %uv-5\"/>\n", LEFT + column * CELL, TOP - 2u);
    fprintf(out, "</g>\n");

    /* Now is the first slot: an arrow points at it, and a frame stands around it, which white lines part from a dark cell. */
    for (i = 0; i < 2u; i++)
        fprintf(out, "<rect x=\"%u\" y=\"%u\" width=\"%u\" height=\"%u\" fill=\"none\" stroke=\"%s\" stroke-width=\"%u\"/>\n", LEFT - 1u,
                TOP - 1u, CELL + 2u, CELL_HEIGHT + 2u, i == 0u ? "#ffffff" : "#c4005f", i == 0u ? 5u : 2u);
    fprintf(out, "<path d=\"M%u %ul-10 -6v12z\" fill=\"#c4005f\"/>\n", LEFT - 3u, TOP + CELL_HEIGHT / 2u);
    fprintf(out, "</svg>\n");
    return 1;
}

/* ---- a channel that has something to draw ------------------------------------------------------------------------------------------- */

#define RECORDS 64u
#define STATIONS 48u

/* What stations ask for, one after the other: blocks in a superframe, slots in a block, superframes, block offset. */
static const struct {
    uint32_t rate, length, superframes;
    int32_t bo;
} habits[] = {
    { 60u, 2u, 3u, 0 },  /* a ground station, every second */
    { 6u, 1u, 2u, 0 },   /* aircraft that report their positions */
    { 12u, 1u, 3u, -1 },
    { 1u, 32u, 1u, 0 },  /* a long message */
    { 10u, 2u, 2u, 4 },
    { 4u, 12u, 2u, 0 },
    { 30u, 1u, 3u, 0 },
    { 3u, 20u, 1u, -30 },
    { 20u, 1u, 1u, 2 }
};

/* One second after the other a station looks for a place, which a search finds along the map, and reserves it. A channel may be so full
   that there is none. 0 where anything else is refused. */
static int make_traffic(gemthatch_channel *channel)
{
    static uint8_t list[GEMTHATCH_LIST_MAX];
    uint32_t i;
    for (i = 0; i < STATIONS; i++) {
        const uint32_t habit = i % (sizeof habits / sizeof habits[0]);
        const uint32_t lo = channel->now + GEMTHATCH_BS_MIN + i * 47u % 150u, hi = lo + GEMTHATCH_M1_MIN - 1u;
        const uint32_t found = gemthatch_channel_search(channel, lo, hi, habits[habit].length, GEMTHATCH_WANTED_MAX, list, sizeof list);
        if (found < GEMTHATCH_REFUSED) {
            const uint32_t place = gemthatch_pick(found, i * 7919u);
            const uint32_t bs = gemthatch_list_slot(list, place) - channel->now;
            const double miles = i * 53u % 260u; /* from 150 on a station is far */
            if (gemthatch_channel_reserve(channel, 7000u + i, habits[habit].rate, habits[habit].superframes, bs, habits[habit].length,
                                          habits[habit].bo, GEMTHATCH_KIND_RANGE, miles, 0.0, GEMTHATCH_LIMIT_DEFAULT) >= GEMTHATCH_REFUSED)
                return 0;
        } else if (gemthatch_refusal_of(found) != GEMTHATCH_REFUSED_NONE)
            return 0;
        if (gemthatch_channel_clock(channel, channel->now + channel->m1 / 60u) >= GEMTHATCH_REFUSED)
            return 0;
    }
    return 1;
}

/* Whether the map says of every slot what the table says. */
static int is_of_table(const gemthatch_channel *channel)
{
    uint32_t i;
    for (i = 0; i < channel->m1; i++)
        if (gemthatch_channel_slot_state(channel, channel->now + i) != channel->map[i])
            return 0;
    return 1;
}

static int failed(const char *what, const char *why)
{
    fprintf(stderr, "draw: %s: %s\n", what, why);
    return 1;
}

int main(int arguments, char **argument)
{
    static uint8_t memory[RECORDS * GEMTHATCH_RECORD_OCTETS], map[GEMTHATCH_MAP_MAX];
    const char *const name = "Alder";
    gemthatch_channel channel;
    uint32_t m1 = GEMTHATCH_M1_DEFAULT;
    if (arguments > 3)
        return failed("usage", "draw [file.svg [M1]]");
    if (arguments == 3) {
        char *end;
        const unsigned long figure = strtoul(argument[2], &end, 10);
        if (*end != '\0' || figure > GEMTHATCH_M1_MAX || gemthatch_parameter(1u, (uint32_t)figure) != 0u)
            return failed(argument[2], "no M1, which is 60 to 15360 by steps of 60");
        m1 = (uint32_t)figure;
    }
    if (gemthatch_channel_open(&channel, memory, sizeof memory, map, m1, m1) >= GEMTHATCH_REFUSED || !make_traffic(&channel))
        return failed(name, "a call was refused");
    if (!is_of_table(&channel))
        return failed(name, "the map is not that of the table");

    if (!draw_text(stdout, name, channel.map, channel.map_octets, channel.now, channel.count))
        return failed("standard output", "the map can't be drawn");
    if (fflush(stdout) != 0 || ferror(stdout))
        return failed("standard output", strerror(errno));
    if (arguments > 1) {
        FILE *const file = fopen(argument[1], "w");
        int drawn, whole;
        if (file == NULL)
            return failed(argument[1], strerror(errno));
        drawn = draw_svg(file, name, channel.map, channel.map_octets, channel.now, channel.count);
        whole = !ferror(file);
        if (fclose(file) != 0 || !whole)
            return failed(argument[1], strerror(errno));
        if (!drawn)
            return failed(argument[1], "the map can't be drawn");
    }
    return 0;
}
