/* Every allocation of every call refused in turn. Linked with -Wl,--wrap=malloc,--wrap=realloc,--wrap=free. After each refusal the
 * member is as it was, and the call made again does what it does of one that nothing was refused; or the member is spent, and does
 * nothing any more but being freed. In the end no block is left. */
#include "groupdesign.h"

#include <stdio.h>
#include <stdlib.h>
#include <string.h>

void *__real_malloc(size_t size);
void *__real_realloc(void *block, size_t size);
void __real_free(void *block);

/* So many allocations succeed before one is refused, or all of them where it is negative; and so many blocks are there. */
static long left = -1, blocks;

static int is_refused(void)
{
    if (left < 0)
        return 0;
    return left-- == 0;
}

void *__wrap_malloc(size_t size)
{
    if (is_refused())
        return NULL;
    blocks++;
    return __real_malloc(size);
}

void *__wrap_realloc(void *block, size_t size)
{
    if (is_refused())
        return NULL;
    blocks += block == NULL;
    return __real_realloc(block, size);
}

void __wrap_free(void *block)
{
    blocks -= block != NULL;
    __real_free(block);
}

static int wrong;

static void must(int is_so, const char *what, const char *call, long number)
{
    if (!is_so) {
        printf("%s, at allocation %ld of %s\n", what, number, call);
        wrong++;
    }
}

static uint8_t bytes[1 << 20];
static uint64_t needed;

#define OUT bytes, sizeof bytes, &needed

/* A world of two members, of which the first one is tried. */
typedef struct {
    gd_member mine, other;
    uint8_t journal[1 << 16];
    size_t length;
    uint8_t frame[GD_FRAME_BYTES];
    size_t frame_length;
} world;

static int64_t line(gd_member *member, const char *typed)
{
    return gd_line(member, (const uint8_t *)typed, strlen(typed));
}

static void keep(world *the)
{
    uint64_t place = 0;
    int64_t count = gd_unwritten(&the->mine, &place, OUT);
    if (count > 0) {
        memcpy(the->journal + place, bytes, count);
        the->length = place + count;
    }
    gd_written(&the->mine, count);
}

static void settle(gd_member *member)
{
    uint64_t place = 0;
    gd_written(member, gd_unwritten(member, &place, OUT));
}

/* Objects, gestures, notes and a frame of the other site with several events; the journal has them all. */
static void begin(world *the)
{
    const char *made = "create rect 0 0 9 9 a\ncreate ellipse 1 1 8 8 b\nconnect 1.1 2.1 c\n";
    uint16_t behind = 0;
    memset(the, 0, sizeof *the);
    gd_new(&the->mine, 1, 2, 7);
    gd_new(&the->other, 2, 2, 7);
    the->length = gd_journal_head(&the->mine, the->journal, sizeof the->journal, &needed);
    gd_gesture(&the->mine, (const uint8_t *)made, strlen(made));
    line(&the->mine, "move 1.1 5 5");
    line(&the->mine, "delete 2.1");
    line(&the->mine, "undo");
    line(&the->mine, "name Ana");
    keep(the);
    for (int i = 0; i < 30; i++)
        line(&the->other, "create rect 3 3 3 3 other");
    settle(&the->other);
    the->frame_length = gd_frame(&the->other, 1, &behind, the->frame, sizeof the->frame, &needed);
}

static void end(world *the)
{
    gd_free(&the->mine);
    gd_free(&the->other);
}

/* What a member is, as a text of its events, its drawing and where it stands. */
static char *seen(gd_member *member)
{
    static const char *const none = "spent";
    gd_standing standing;
    uint64_t place = 0;
    if (gd_status(member, &standing) < 0)
        return strdup(none);
    char *all = __real_malloc(1 << 20);
    size_t at = sprintf(all, "%llu %llu %llu %llu %llu\n", (unsigned long long)standing.held, (unsigned long long)standing.kept,
                        (unsigned long long)standing.line, (unsigned long long)standing.clock, (unsigned long long)standing.parted);
    gd_json(member);
    at += gd_said(member, (uint8_t *)all + at, 1 << 18, &needed);
    at += gd_unwritten(member, &place, (uint8_t *)all + at, 1 << 18, &needed);
    for (size_t i = 0; i < at; i++)
        if (all[i] == 0)
            all[i] = 1;
    all[at] = 0;
    return all;
}

typedef int64_t call(world *the);

static int64_t call_create(world *the) { return line(&the->mine, "create text 1 2 3 4 a label"); }
static int64_t call_group(world *the) { return line(&the->mine, "group 1.1 2.1 3.1"); }
static int64_t call_undo(world *the) { return line(&the->mine, "undo"); }
static int64_t call_redo(world *the) { return line(&the->mine, "redo"); }
static int64_t call_name(world *the) { return line(&the->mine, "name Ben"); }
static int64_t call_who(world *the) { return line(&the->mine, "who"); }
static int64_t call_status(world *the) { return line(&the->mine, "status"); }
static int64_t call_refused(world *the) { return line(&the->mine, "move 9.9 1 1"); }
static int64_t call_take(world *the) { return gd_take(&the->mine, the->frame, the->frame_length); }
static int64_t call_json(world *the) { return gd_json(&the->mine); }
static int64_t call_text(world *the) { return gd_text(&the->mine); }
static int64_t call_events(world *the) { return gd_events(&the->mine, the->journal, the->length); }
static int64_t call_snapshot(world *the) { return gd_snapshot(&the->mine); }
static int64_t call_said(world *the) { return gd_said(&the->mine, OUT); }

static int64_t call_gesture(world *the)
{
    const char *lines = "move 1.1 0 0\ncreat\nfill 1.1 00FF00\nungroup 9.9\ncreate line 0 0 5 5 far\n";
    return gd_gesture(&the->mine, (const uint8_t *)lines, strlen(lines));
}

static int64_t call_frame(world *the)
{
    uint16_t behind = 0;
    return gd_frame(&the->mine, 2, &behind, OUT);
}

static int64_t call_unwritten(world *the)
{
    uint64_t place;
    return gd_unwritten(&the->mine, &place, OUT);
}

static int64_t call_note(world *the)
{
    gd_noted noted;
    return gd_note(&the->mine, 1, &noted);
}

static int64_t call_new(world *the)
{
    gd_free(&the->mine);
    return gd_new(&the->mine, 1, 2, 7);
}

static int64_t call_open(world *the)
{
    uint8_t why[GD_WHY_BYTES];
    gd_free(&the->mine);
    return gd_open(&the->mine, the->journal, the->length, 1, 2, 7, why, sizeof why, &needed);
}

/* Tries a call with each of its allocations refused in turn, up to one at which none was. */
static void try_call(const char *name, call *made, int is_opening)
{
    static world the;
    long spent = 0, kept = 0;
    begin(&the);
    char *before = seen(&the.mine);
    int64_t wanted = made(&the);
    char *behind = seen(&the.mine);
    end(&the);
    for (long number = 0;; number++) {
        begin(&the);
        __real_free(seen(&the.mine));
        left = number;
        int64_t answer = made(&the);
        int is_over = left >= 0;
        left = -1;
        char *now = seen(&the.mine);
        if (is_over) {
            must(answer == wanted && strcmp(now, behind) == 0, "another answer where nothing was refused", name, number);
        } else if (answer == GD_NO_MEMORY && strcmp(now, "spent") == 0 && !is_opening) {
            must(line(&the.mine, "show") == GD_SPENT && gd_json(&the.mine) == GD_SPENT, "a spent member that does something", name, number);
            spent++;
        } else if (answer == GD_NO_MEMORY) {
            must(is_opening ? !the.mine.is_live : strcmp(now, before) == 0, "not as it was", name, number);
            answer = made(&the);
            __real_free(now);
            now = seen(&the.mine);
            must(answer == wanted && strcmp(now, behind) == 0, "other than without a refusal", name, number);
            kept++;
        } else {
            must(answer == wanted && strcmp(now, behind) == 0, "neither done nor out of memory", name, number);
        }
        __real_free(now);
        end(&the);
        if (is_over || number == 20000)
            break;
    }
    __real_free(before);
    __real_free(behind);
    printf("%s: as it was %ld times, spent %ld times\n", name, kept, spent);
}

int main(void)
{
    try_call("gd_new", call_new, 1);
    try_call("gd_open", call_open, 1);
    try_call("create", call_create, 0);
    try_call("group", call_group, 0);
    try_call("undo", call_undo, 0);
    try_call("redo", call_redo, 0);
    try_call("name", call_name, 0);
    try_call("who", call_who, 0);
    try_call("status", call_status, 0);
    try_call("refused", call_refused, 0);
    try_call("gd_gesture", call_gesture, 0);
    try_call("gd_take", call_take, 0);
    try_call("gd_frame", call_frame, 0);
    try_call("gd_unwritten", call_unwritten, 0);
    try_call("gd_said", call_said, 0);
    try_call("gd_json", call_json, 0);
    try_call("gd_text", call_text, 0);
    try_call("gd_events", call_events, 0);
    try_call("gd_snapshot", call_snapshot, 0);
    try_call("gd_note", call_note, 0);
    if (blocks != 0) {
        printf("%ld blocks are left\n", blocks);
        wrong++;
    }
    printf("%d wrong\n", wrong);
    return wrong != 0;
}
