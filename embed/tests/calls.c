/* Each call of groupdesign.h, each answer that can be had without a want of memory, and what is written. It prints what is wrong, and
 * ends with 1 then. */
#include "groupdesign.h"

#include <stdio.h>
#include <stdlib.h>
#include <string.h>

static int wrong;

#define IS(value, wanted) is(__LINE__, #value, (value), (wanted))

static void is(int line, const char *what, int64_t found, int64_t wanted)
{
    if (found != wanted) {
        printf("calls.c:%d: %s is %lld, and not %lld\n", line, what, (long long)found, (long long)wanted);
        wrong++;
    }
}

static uint8_t text[1 << 16];
static uint64_t needed;

#define OUT text, sizeof text, &needed

static int64_t line(gd_member *member, const char *typed)
{
    return gd_line(member, (const uint8_t *)typed, strlen(typed));
}

static int64_t gesture(gd_member *member, const char *typed)
{
    return gd_gesture(member, (const uint8_t *)typed, strlen(typed));
}

/* Whether the member says this. */
static int says(gd_member *member, const char *wanted)
{
    int64_t length = gd_said(member, OUT);
    int is_so = length == (int64_t)strlen(wanted) && memcmp(text, wanted, strlen(wanted)) == 0;
    if (!is_so)
        printf("said: %.*s", length < 0 ? 0 : (int)length, text);
    return is_so;
}

/* A journal in memory. */
typedef struct {
    uint8_t bytes[1 << 16];
    uint64_t length;
} journal;

/* Keeps what is unwritten. */
static void keep(gd_member *member, journal *to)
{
    uint64_t place = 0;
    int64_t count = gd_unwritten(member, &place, OUT);
    if (count > 0) {
        memcpy(to->bytes + place, text, count);
        to->length = place + count;
    }
    IS(gd_written(member, count), 0);
}

static journal begun(gd_member *member)
{
    journal made = {{0}, 0};
    made.length = gd_journal_head(member, made.bytes, sizeof made.bytes, &needed);
    return made;
}

/* Hands a frame from one member to another. */
static int64_t pass(gd_member *from, gd_member *to, uint8_t site)
{
    uint8_t frame[GD_FRAME_BYTES];
    uint16_t behind = 0;
    int64_t length = gd_frame(from, site, &behind, frame, sizeof frame, &needed);
    return length < 0 ? length : gd_take(to, frame, length);
}

static void test_empty(void)
{
    gd_member none = {0};
    uint8_t byte = 0;
    uint16_t behind = 5;
    uint64_t place = 5;
    gd_standing standing = {0};
    gd_noted noted = {0};
    IS(gd_free(&none), GD_EMPTY);
    IS(gd_journal_head(&none, OUT), GD_EMPTY);
    IS(line(&none, "show"), GD_EMPTY);
    IS(gesture(&none, ""), GD_EMPTY);
    IS(gd_take(&none, &byte, 0), GD_EMPTY);
    IS(gd_frame(&none, 1, &behind, OUT), GD_EMPTY);
    IS(gd_unwritten(&none, &place, OUT), GD_EMPTY);
    IS(gd_written(&none, 0), GD_EMPTY);
    IS(gd_said(&none, OUT), GD_EMPTY);
    IS(gd_json(&none), GD_EMPTY);
    IS(gd_text(&none), GD_EMPTY);
    IS(gd_events(&none, &byte, 0), GD_EMPTY);
    IS(gd_snapshot(&none), GD_EMPTY);
    IS(gd_status(&none, &standing), GD_EMPTY);
    IS(gd_note(&none, 1, &noted), GD_EMPTY);
    IS(gd_parted(&none, 1), GD_EMPTY);
    IS(none.at == NULL && !none.is_live && behind == 5 && place == 5, 1);
}

static void test_sites(void)
{
    gd_member none = {0};
    IS(gd_new(&none, 0, 1, 7), GD_NO_SITE);
    IS(gd_new(&none, 2, 1, 7), GD_NO_SITE);
    IS(gd_new(&none, 1, 17, 7), GD_NO_SITE);
    IS(gd_new(&none, 17, 17, 7), GD_NO_SITE);
    IS(none.is_live, 0);
    IS(gd_new(&none, 16, 16, 4294967295u), 0);
    IS(gd_new(&none, 1, 1, 7), GD_OCCUPIED);
    IS(gd_free(&none), 0);
    IS(gd_free(&none), GD_EMPTY);
}

static void test_lines(void)
{
    gd_member mine = {0};
    IS(gd_new(&mine, 1, 2, 7), 0);
    IS(line(&mine, "create rect 0 0 9 9 House"), 7);
    IS(says(&mine, "ok 1.1\n"), 1);
    IS(line(&mine, "creat"), GD_REFUSED);
    IS(says(&mine, "refused: UnknownCommand\n"), 1);
    IS(line(&mine, "move 9.1 0 0"), GD_REFUSED);
    IS(says(&mine, "refused: NoObject\n"), 1);
    IS(line(&mine, "redo"), GD_REFUSED);
    IS(says(&mine, "refused: NothingBack\n"), 1);
    IS(line(&mine, "undo"), 13);
    IS(says(&mine, "ok 2.1\nend 1\n"), 1);
    IS(line(&mine, "redo"), 13);
    IS(line(&mine, "name Ana"), 8);
    IS(says(&mine, "noted 1\n"), 1);
    IS(line(&mine, "focus 1.1"), 8);
    IS(line(&mine, "who"), 26);
    IS(says(&mine, "who 1 Ana focus 1.1\nend 1\n"), 1);
    IS(line(&mine, "status") > 0, 1);
    IS(says(&mine, "held 3 kept 3 line 0 clock 3\n"), 1);
    IS(line(&mine, ""), GD_NOT_HERE);
    IS(line(&mine, " "), GD_NOT_HERE);
    IS(line(&mine, "show"), GD_NOT_HERE);
    IS(line(&mine, "poll"), GD_NOT_HERE);
    IS(line(&mine, "begin"), GD_NOT_HERE);
    IS(line(&mine, "end"), GD_NOT_HERE);
    IS(line(&mine, "quit"), GD_NOT_HERE);
    IS(gesture(&mine, "create line 0 0 1 1\nshow\n\ncreat\nraise 4.1"), 63);
    IS(says(&mine, "ok 4.1\nrefused: InGesture\nrefused: UnknownCommand\nok 5.1\nend 4\n"), 1);
    IS(line(&mine, "undo"), 20);
    IS(gd_free(&mine), 0);
}

static void test_frames(void)
{
    gd_member a = {0}, b = {0};
    uint8_t frame[GD_FRAME_BYTES];
    uint16_t behind = 0;
    IS(gd_new(&a, 1, 2, 7), 0);
    IS(gd_new(&b, 2, 2, 7), 0);
    journal of_a = begun(&a), of_b = begun(&b);
    IS(of_a.length, 12);
    line(&a, "create rect 1 2 3 4 x");
    IS(gd_frame(&a, 2, &behind, frame, sizeof frame, &needed), GD_UNWRITTEN);
    IS(gd_written(&a, 1), GD_NOT_THESE);
    keep(&a, &of_a);
    IS(gd_frame(&a, 1, &behind, frame, sizeof frame, &needed), GD_NO_SITE);
    IS(gd_frame(&a, 3, &behind, frame, sizeof frame, &needed), GD_NO_SITE);
    IS(gd_frame(&a, 2, &behind, frame, 10, &needed), GD_ROOM);
    IS(behind, 0);
    int64_t length = gd_frame(&a, 2, &behind, frame, sizeof frame, &needed);
    IS(length, needed);
    IS(behind, 1);
    IS(gd_take(&b, frame, length) > 0, 1);
    IS(says(&b, "echo 1.1 applied create rect 1 2 3 4 x\n"), 1);
    keep(&b, &of_b);
    IS(gd_take(&b, frame, length), 0);
    frame[20] ^= 1;
    IS(gd_take(&b, frame, length), GD_REFUSED);
    IS(gd_said(&b, OUT) > 0 && memcmp(text, "frame refused: Check at ", 24) == 0, 1);
    IS(gd_take(&b, text, 8193), GD_REFUSED);
    IS(says(&b, "frame refused: TooLong\n"), 1);
    IS(pass(&b, &a, 1), 0);
    gd_standing standing;
    IS(gd_status(&a, &standing), 0);
    IS(standing.held, 1);
    IS(standing.clock, 1);
    IS(standing.parted, 0);
    IS(gd_parted(&a, 2), GD_NOT_PARTED);
    IS(gd_parted(&a, 3), GD_NO_SITE);
    gd_noted noted;
    IS(gd_note(&a, 2, &noted), GD_NO_NOTE);
    IS(gd_note(&a, 3, &noted), GD_NO_SITE);
    line(&b, "name Ben");
    IS(pass(&b, &a, 1), 0);
    IS(gd_note(&a, 2, &noted), 3);
    IS(noted.number == 1 && noted.clock == 0 && noted.site == 0, 1);
    IS(says(&a, "Ben"), 1);
    gd_free(&a);
    gd_free(&b);
}

static void test_texts(void)
{
    gd_member mine = {0};
    IS(gd_new(&mine, 1, 1, 7), 0);
    line(&mine, "create rect 5 5 10 10");
    IS(gd_said(&mine, text, 2, &needed), GD_ROOM);
    IS(needed, 7);
    IS(gd_json(&mine), 116);
    IS(says(&mine, "[{\"at\":[5,5],\"fill\":null,\"id\":\"1.1\",\"in\":null,\"kind\":\"rect\",\"label\":\"\",\"size\":[10,10],\"stroke\":\"000000\","
                   "\"width\":1}]\n"), 1);
    IS(gd_text(&mine) > 0, 1);
    IS(says(&mine, "rect 1.1 in - at 5 5 size 10 10 stroke 000000 fill none width 1\nend 1\n"), 1);
    IS(gd_snapshot(&mine) > 0, 1);
    IS(gd_said(&mine, OUT) > 4 && memcmp(text, "GDOS", 4) == 0, 1);
    gd_free(&mine);
}

static void test_journal(void)
{
    gd_member mine = {0}, again = {0};
    uint8_t why[GD_WHY_BYTES];
    IS(gd_new(&mine, 1, 2, 7), 0);
    journal kept = begun(&mine);
    IS(gd_unwritten(&mine, &needed, OUT), 0);
    line(&mine, "create rect 5 5 10 10");
    gesture(&mine, "move 1.1 1 1\nmove 1.1 2 2\n");
    uint64_t place = 0;
    IS(gd_unwritten(&mine, &place, text, 3, &needed), GD_ROOM);
    keep(&mine, &kept);
    line(&mine, "move 1.1 3 3");
    keep(&mine, &kept);
    IS(gd_open(&again, kept.bytes, kept.length, 1, 2, 7, why, sizeof why, &needed), 0);
    IS(gd_open(&again, kept.bytes, kept.length, 1, 2, 7, why, sizeof why, &needed), GD_OCCUPIED);
    IS(line(&again, "undo"), GD_REFUSED);
    IS(gd_events(&again, kept.bytes, kept.length) > 0, 1);
    IS(gd_events(&again, kept.bytes, 5), GD_BAD_JOURNAL);
    IS(says(&again, "bad log at 5: Short\n"), 1);
    IS(gd_text(&again), gd_text(&mine));
    gd_said(&mine, OUT);
    IS(gd_said(&again, text + needed, needed, &needed), needed);
    IS(memcmp(text, text + needed, needed), 0);
    line(&again, "move 1.1 4 4");
    keep(&again, &kept);
    gd_free(&again);
    IS(gd_open(&again, kept.bytes, kept.length, 2, 2, 7, why, sizeof why, &needed), GD_OTHER_JOURNAL);
    IS(gd_open(&again, kept.bytes, kept.length, 1, 2, 8, why, sizeof why, &needed), GD_OTHER_JOURNAL);
    IS(gd_open(&again, kept.bytes, 5, 1, 2, 7, why, sizeof why, &needed), GD_BAD_JOURNAL);
    IS(needed == 20 && memcmp(why, "bad log at 5: Short\n", needed) == 0, 1);
    IS(gd_open(&again, kept.bytes, kept.length, 1, 0, 7, why, sizeof why, &needed), GD_NO_SITE);
    kept.bytes[20] ^= 1;
    IS(gd_open(&again, kept.bytes, kept.length, 1, 2, 7, why, sizeof why, &needed), GD_BAD_JOURNAL);
    IS(again.is_live, 0);
    gd_free(&mine);
}

/* A member that went on from an older copy of its journal, and tells other events under old numbers. */
static void test_parted(void)
{
    gd_member a = {0}, b = {0}, old = {0};
    uint8_t why[GD_WHY_BYTES];
    gd_new(&a, 1, 2, 7);
    gd_new(&b, 2, 2, 7);
    journal of_a = begun(&a), of_b = begun(&b), of_old = begun(&a);
    line(&a, "create rect 5 5 10 10");
    keep(&a, &of_a);
    IS(pass(&a, &b, 2) > 0, 1);
    keep(&b, &of_b);
    IS(gd_open(&old, of_old.bytes, of_old.length, 1, 2, 7, why, sizeof why, &needed), 0);
    line(&old, "create line 7 7 10 10");
    keep(&old, &of_old);
    IS(pass(&old, &b, 2), GD_REFUSED);
    IS(says(&b, "parted from 1 at 1\n"), 1);
    IS(pass(&old, &b, 2), GD_REFUSED);
    IS(says(&b, ""), 1);
    IS(gd_parted(&b, 1), 1);
    gd_free(&a);
    gd_free(&b);
    gd_free(&old);
}

int main(void)
{
    test_empty();
    test_sites();
    test_lines();
    test_frames();
    test_texts();
    test_journal();
    test_parted();
    printf("%d wrong\n", wrong);
    return wrong != 0;
}
