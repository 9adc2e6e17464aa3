/* What members in memory take, for bench/measure_embed.py: times EDITS EVENTS. It prints a line for each measure, of its name and a number:
 * nanoseconds of a processor for one edit or event, seconds for all, KB and bytes. */
#include "groupdesign.h"

#include <malloc.h>
#include <stdio.h>
#include <stdlib.h>
#include <string.h>
#include <time.h>

/* One shape for so many edits: the others move one of these. */
enum { NEW = 10, TOGETHER = 500, MOST = 65535 };

static uint8_t bytes[1 << 20];
static uint64_t needed;
static uint32_t seed;

static uint32_t draw(uint32_t below)
{
    seed = seed * 1103515245u + 12345u;
    return (seed >> 8) % below;
}

static double seconds(void)
{
    struct timespec at;
    clock_gettime(CLOCK_PROCESS_CPUTIME_ID, &at);
    return (double)at.tv_sec + (double)at.tv_nsec / 1e9;
}

static int64_t done(int64_t answer)
{
    if (answer < 0) {
        fprintf(stderr, "the answer %lld\n", (long long)answer);
        exit(1);
    }
    return answer;
}

/* Edit number `clock` of site `site`, of which edits 1, 11, 21 and so on make a shape. */
static int typed(char *line, long clock, int site)
{
    if ((clock - 1) % NEW == 0)
        return sprintf(line, "create rect %u %u 10 10", draw(1000), draw(1000));
    long made = (clock + NEW - 1) / NEW;
    return sprintf(line, "move %ld.%d %u %u", 1 + NEW * (long)draw((uint32_t)made), site, draw(1000), draw(1000));
}

/* The lines of edits, put together before any of them is timed. */
typedef struct {
    char text[48];
    int length;
} typed_line;

static typed_line *typed_lines(long edits, int site)
{
    typed_line *lines = malloc((size_t)edits * sizeof(typed_line));
    for (long clock = 1; clock <= edits; clock++)
        lines[clock - 1].length = typed(lines[clock - 1].text, clock, site);
    return lines;
}

static void edit(gd_member *member, const typed_line *line)
{
    done(gd_line(member, (const uint8_t *)line->text, (size_t)line->length));
}

/* What the journal lacks, which counts as kept. */
static int64_t keep(gd_member *member, uint8_t *journal, uint64_t *length)
{
    uint64_t place = 0;
    int64_t count = done(gd_unwritten(member, &place, journal ? journal + *length - 1 : bytes, 1 << 20, &needed));
    done(gd_written(member, (uint64_t)count));
    if (count > 0 && journal)
        *length = place + (uint64_t)count;
    return count > 0 ? count - 1 : 0;
}

static long memory_kb(const char *what)
{
    char line[256];
    long found = 0;
    FILE *status = fopen("/proc/self/status", "r");
    while (fgets(line, sizeof line, status))
        if (strncmp(line, what, strlen(what)) == 0)
            found = atol(line + strlen(what));
    fclose(status);
    return found;
}

/* Frames, each right behind the one before, as many as there are edits. The last one needs room for the longest. */
typedef struct {
    uint8_t *bytes;
    int64_t *lengths;
} frames;

enum { USUAL_FRAME = 128 };

static frames no_frames(long edits)
{
    size_t room = (size_t)edits * USUAL_FRAME + GD_FRAME_BYTES;
    frames made = {malloc(room), calloc((size_t)edits, sizeof(int64_t))};
    memset(made.bytes, 0, room);
    memset(made.lengths, 0, (size_t)edits * sizeof(int64_t));
    return made;
}

/* One edit after another, each with its record and its frame. The seconds of all, and the bytes of the records. */
static double make(long edits, frames *made, long *recorded, int64_t *shown)
{
    gd_member mine = {0};
    uint16_t behind = 0;
    typed_line *lines = typed_lines(edits, 1);
    uint8_t *frame = made->bytes;
    done(gd_new(&mine, 1, 2, 7));
    double start = seconds();
    for (long clock = 1; clock <= edits; clock++) {
        edit(&mine, &lines[clock - 1]);
        *recorded += keep(&mine, NULL, NULL);
        made->lengths[clock - 1] = done(gd_frame(&mine, 2, &behind, frame, GD_FRAME_BYTES, &needed));
        frame += made->lengths[clock - 1];
    }
    double took = seconds() - start;
    *shown = done(gd_json(&mine));
    gd_free(&mine);
    free(lines);
    return took;
}

static double take(long edits, const frames *made, int64_t *shown)
{
    gd_member other = {0};
    const uint8_t *frame = made->bytes;
    done(gd_new(&other, 2, 2, 7));
    double start = seconds();
    for (long at = 0; at < edits; at++) {
        done(gd_take(&other, frame, (size_t)made->lengths[at]));
        frame += made->lengths[at];
        keep(&other, NULL, NULL);
    }
    double took = seconds() - start;
    *shown = done(gd_json(&other));
    gd_free(&other);
    return took;
}

static void measure_edits(long edits)
{
    frames made = no_frames(edits);
    long recorded = 0, framed = 0;
    int64_t shown, other;
    double making = make(edits, &made, &recorded, &shown), taking = take(edits, &made, &other);
    if (shown != other)
        exit(1);
    for (long at = 0; at < edits; at++)
        framed += made.lengths[at];
    printf("edit %.1f\nremote %.1f\nrecord %.2f\nframe %.2f\n", making / (double)edits * 1e9, taking / (double)edits * 1e9,
           (double)recorded / (double)edits, (double)framed / (double)edits);
    free(made.bytes);
    free(made.lengths);
}

/* The frames of all events of a site, each right behind the one before. Returns how many there are. */
static long frames_of(int site, long edits, frames *made)
{
    gd_member there = {0};
    uint16_t behind = 0;
    uint8_t *frame = made->bytes;
    long count = 0;
    typed_line *lines = typed_lines(edits, site);
    done(gd_new(&there, (uint8_t)site, 3, 7));
    for (long clock = 1; clock <= edits; clock++) {
        edit(&there, &lines[clock - 1]);
        keep(&there, NULL, NULL);
    }
    free(lines);
    while (behind < edits) {
        made->lengths[count] = done(gd_frame(&there, 3, &behind, frame, GD_FRAME_BYTES, &needed));
        frame += made->lengths[count++];
    }
    gd_free(&there);
    return count;
}

/* Takes the frames of two sites in turn, and keeps what the journal lacks after each. Returns the bytes of all frames. */
static long take_in_turn(gd_member *away, const frames made[2], const long counts[2], uint8_t *journal, uint64_t *length)
{
    const uint8_t *next[] = {made[0].bytes, made[1].bytes};
    for (long at = 0; at < counts[0] || at < counts[1]; at++) {
        for (int site = 0; site < 2; site++) {
            if (at >= counts[site])
                continue;
            done(gd_take(away, next[site], (size_t)made[site].lengths[at]));
            keep(away, journal, length);
            next[site] += made[site].lengths[at];
        }
    }
    return (next[0] - made[0].bytes) + (next[1] - made[1].bytes);
}

/* A member that was away takes all events of two others, in frames, and one that goes on from the journal of all. */
static void measure_catching_up(long events)
{
    gd_member away = {0}, again = {0};
    uint8_t why[GD_WHY_BYTES];
    frames made[] = {no_frames(events / 2), no_frames(events / 2)};
    long counts[] = {frames_of(1, events / 2, &made[0]), frames_of(2, events / 2, &made[1])};
    uint8_t *journal = malloc((size_t)events * 64 + (1 << 20));
    /* What the senders had is given back, so that it isn't used again unseen. */
    malloc_trim(0);
    long before = memory_kb("VmRSS:");
    done(gd_new(&away, 3, 3, 7));
    uint64_t length = (uint64_t)done(gd_journal_head(&away, journal, 64, &needed));
    double start = seconds();
    long framed = take_in_turn(&away, made, counts, journal, &length);
    double taking = seconds() - start;
    long behind_kb = memory_kb("VmRSS:");
    start = seconds();
    done(gd_open(&again, journal, length, 3, 3, 7, why, sizeof why, &needed));
    double opened = seconds() - start;
    start = seconds();
    int64_t shown = done(gd_json(&away));
    double reading = seconds() - start;
    if (shown != done(gd_json(&again)))
        exit(1);
    printf("catching %.4f\nopening %.4f\nshowing %.4f\njournal %llu\nframes %ld\nmemory %ld\n", taking, opened, reading,
           (unsigned long long)length, framed, behind_kb - before);
    gd_free(&away);
    gd_free(&again);
    free(journal);
    for (int site = 0; site < 2; site++) {
        free(made[site].bytes);
        free(made[site].lengths);
    }
}

int main(int count, char **words)
{
    if (count != 3 || atol(words[1]) > MOST || atol(words[2]) > 2 * MOST)
        return 2;
    seed = 7;
    measure_edits(atol(words[1]));
    measure_catching_up(atol(words[2]));
    return 0;
}
