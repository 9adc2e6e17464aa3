/* groupdesign: a member of a shared drawing in memory, for programs in C and C++.
 *
 * A member is one site of a session of up to 16. It takes the edits of its user as typed lines, gives frames for the other
 * sites and takes theirs, in any order and as often as they come, and shows the drawing of all events that it holds. It opens
 * no file and no socket: you keep its journal and carry its frames. What lines, texts, frames and journals look like is said
 * in docs/LINES.md and docs/FORMATS.md; embed/README.md leads through these calls.
 *
 * Each call is proved: what it does is what the reference site does, whatever it is called with. What you must keep to is
 * this alone, and nothing here tests it:
 *
 *   1. A gd_member is all bytes 0 before its first call, and from then on only these calls change it. Don't copy one and use
 *      both copies, and don't read or write what it points to.
 *   2. One call at a time is given a member: no two threads at once, no signal handler, not the forked child of a process that
 *      had threads. Different members may be used by different threads.
 *   3. Each pointer leads to as many bytes as its length says, and to no byte of another argument. It isn't NULL, also where the
 *      length is 0.
 *   4. malloc, realloc and free are one allocator's, and align as C asks for.
 *
 * Answers. Each call answers a number. What 0 and up say stands at the call. Each negative number has one cause, in the list below,
 * and leaves the member as it was, unless the call says otherwise. A call that writes to a buffer sets *needed to the bytes of
 * all that there is to write; where the buffer is smaller it answers GD_ROOM, and writes none of them.
 *
 * Texts. What a call has to say (the replies to a line, a drawing as JSON) is kept in the member until the next call that says
 * something. The call answers how many bytes it has, and gd_said hands them out.
 *
 * Kept before told. What was told to others must never be lost, or the session parts from this member for good. So the order is
 *
 *     gd_line, gd_gesture or gd_take          the member has new events
 *     gd_unwritten                            their bytes, and where they go in the journal
 *     keep them, durably                      in a file: all but the first byte at place + 1, sync; then the first byte at
 *                                             place, sync. A crash at any moment then leaves all of them or none
 *     gd_written                              the member knows that they are kept
 *     show the replies, gd_frame, send        gd_frame is refused while anything is unwritten
 *
 * A journal begins with the bytes of gd_journal_head, and is gone on with by gd_open. Who wants no journal calls gd_written at
 * once; such a member must not come back under its number once it has gone.
 */
#ifndef GROUPDESIGN_H
#define GROUPDESIGN_H

#include <stdbool.h>
#include <stddef.h>
#include <stdint.h>

#ifdef __cplusplus
extern "C" {
#endif

/* A member, or none: all bytes are 0 while it is empty. `gd_member mine = {0};` is an empty one. */
typedef struct {
    uint8_t *at;
    bool is_live;
} gd_member;

/* The negative answers. */
enum {
    GD_EMPTY = -1,         /* the gd_member is empty */
    GD_SPENT = -2,         /* memory ran out in the midst of an earlier call: only gd_free does anything now. The journal has what was
                              kept, and gd_open goes on from it */
    GD_OCCUPIED = -3,      /* gd_new, gd_open: the gd_member isn't empty */
    GD_NO_MEMORY = -4,     /* memory ran out */
    GD_ROOM = -5,          /* the buffer is smaller than *needed */
    GD_REFUSED = -6,       /* the line or the datagram is refused, and gd_said says why */
    GD_NOT_HERE = -7,      /* gd_line: the line is blank, or `show`, `poll`, `begin`, `end` or `quit`, for which there are calls */
    GD_UNWRITTEN = -8,     /* gd_frame: there are events that the journal doesn't have, as far as gd_written was told */
    GD_NOT_THESE = -9,     /* gd_written: what is unwritten now has another length */
    GD_NO_SITE = -10,      /* there is no such site; of gd_frame also: it is the member's own */
    GD_NO_NOTE = -11,      /* gd_note: nothing is known of that site's user */
    GD_NOT_PARTED = -12,   /* gd_parted: the member hasn't parted from that site */
    GD_BAD_JOURNAL = -13,  /* the bytes are no log with its closing gate; a text says at which place, and why */
    GD_OTHER_JOURNAL = -14 /* the journal is of another session, site, number of sites or version */
};

enum {
    GD_MOST_SITES = 16,
    GD_FRAME_BYTES = 1200, /* the most bytes of a frame */
    GD_LINE_BYTES = 1024,  /* the most bytes of a line */
    GD_GESTURE_LINES = 512, /* the most lines of a gesture that are carried out */
    GD_WHY_BYTES = 64      /* room for any `why` of gd_open */
};

/* Where a member stands. */
typedef struct {
    uint64_t held;   /* so many events it holds, its own among them */
    uint64_t kept;   /* so many of them may still be reordered against late ones */
    uint64_t line;   /* the line: what lies below it is final */
    uint64_t clock;  /* its clock */
    uint64_t parted; /* from so many sites it has parted */
} gd_standing;

/* What a user said of itself. */
typedef struct {
    uint64_t number; /* the notes of a site are numbered from 1 */
    uint64_t clock;  /* the focus, as clock and site of an object's id; 0 and 0 where there is none */
    uint64_t site;
} gd_noted;

/* Puts a new member into an empty gd_member: site `me` of a session of `sites`, which has that number. It holds no event. 0, or
 * GD_OCCUPIED, GD_NO_SITE, GD_NO_MEMORY, and then it stays as it was. */
int64_t gd_new(gd_member *member, uint8_t me, uint8_t sites, uint32_t session);

/* Puts the member into an empty gd_member that goes on from a journal's bytes: it holds the events of the log, knows of the other sites
 * what these show, and has nothing to undo. What stands behind the log's closing gate is passed over. 0, or GD_OCCUPIED,
 * GD_NO_SITE, GD_BAD_JOURNAL, GD_OTHER_JOURNAL, GD_NO_MEMORY, and then the gd_member stays as it was. At GD_BAD_JOURNAL the text
 * `bad log at P: WHY` is written to `why`, where it has room for it, and *needed is set to its bytes; GD_WHY_BYTES are enough. */
int64_t gd_open(gd_member *member, const uint8_t *journal, size_t length, uint8_t me, uint8_t sites, uint32_t session,
                uint8_t *why, size_t room, uint64_t *needed);

/* Frees the member, and leaves the gd_member empty. 0, or GD_EMPTY. */
int64_t gd_free(gd_member *member);

/* Writes the bytes of a journal without events: what a new member's journal begins with. Their number, or GD_EMPTY, GD_SPENT,
 * GD_ROOM. */
int64_t gd_journal_head(gd_member *member, uint8_t *out, size_t room, uint64_t *needed);

/* Carries out a line (docs/LINES.md, 3) without its line feed: an edit, `undo`, `redo`, `name`, `focus`, `status` or `who`. The
 * bytes of its replies, for gd_said, or GD_EMPTY, GD_SPENT, GD_REFUSED (the text is `refused: WHY`, and nothing was changed),
 * GD_NOT_HERE, GD_NO_MEMORY. Behind GD_NO_MEMORY the member is as it was, or spent. */
int64_t gd_line(gd_member *member, const uint8_t *line, size_t length);

/* Carries out several lines as one gesture, as between `begin` and `end` (docs/LINES.md, 3): each ends with a line feed, but the last
 * one may lack it. Lines that are refused are passed over, and `undo` takes back all others together. The bytes of the
 * replies, one line for each line that isn't blank and `end K` behind them, or GD_EMPTY, GD_SPENT, GD_NO_MEMORY. Behind
 * GD_NO_MEMORY the member is spent. */
int64_t gd_gesture(gd_member *member, const uint8_t *lines, size_t length);

/* Takes a datagram, as it came. The bytes of what there is to say of it, an echo for each event that was taken, so often 0; or
 * GD_EMPTY, GD_SPENT, GD_REFUSED, GD_NO_MEMORY. GD_REFUSED: it is no frame, or none for this member, or the member parts from its sender,
 * or has parted from it; the text says which, and is empty where that was said before. Behind GD_NO_MEMORY the member is as it was, or
 * spent. */
int64_t gd_take(gd_member *member, const uint8_t *datagram, size_t length);

/* Writes a frame for site `to`: the own events behind the first *behind, as many as fit. *behind is first raised to what that site has
 * acknowledged, so give 0 for the first frame; then it is how many own events the site has once it took this frame and those
 * before it, so that the next call goes on with the next ones. The frame's bytes, or GD_EMPTY, GD_SPENT, GD_NO_SITE, GD_UNWRITTEN,
 * GD_ROOM, and then *behind is as it was. A frame goes out in one datagram, whether it has events or not: it also acknowledges. */
int64_t gd_frame(gd_member *member, uint8_t to, uint16_t *behind, uint8_t *out, size_t room, uint64_t *needed);

/* Writes the bytes that the journal lacks, and sets *place to where they go. Their number, 0 where it lacks none, or GD_EMPTY,
 * GD_SPENT, GD_ROOM. */
int64_t gd_unwritten(gd_member *member, uint64_t *place, uint8_t *out, size_t room, uint64_t *needed);

/* Tells the member that the journal has what gd_unwritten wrote, `length` bytes. 0, or GD_EMPTY, GD_SPENT, GD_NOT_THESE. */
int64_t gd_written(gd_member *member, uint64_t length);

/* Writes the text that was said last. Its bytes, or GD_EMPTY, GD_SPENT, GD_ROOM. */
int64_t gd_said(gd_member *member, uint8_t *out, size_t room, uint64_t *needed);

/* Has the member say its drawing as JSON, or as lines, or its snapshot, as bytes (docs/FORMATS.md). The bytes of that, for gd_said, or
 * GD_EMPTY, GD_SPENT, GD_NO_MEMORY. */
int64_t gd_json(gd_member *member);
int64_t gd_text(gd_member *member);
int64_t gd_snapshot(gd_member *member);

/* Has the member say the events of the bytes of its journal as JSON. The bytes of that, for gd_said, or GD_EMPTY, GD_SPENT,
 * GD_BAD_JOURNAL (the text is `bad log at P: WHY`), GD_OTHER_JOURNAL, GD_NO_MEMORY. */
int64_t gd_events(gd_member *member, const uint8_t *journal, size_t length);

/* Sets *out to where the member stands. 0, or GD_EMPTY, GD_SPENT. */
int64_t gd_status(gd_member *member, gd_standing *out);

/* Sets *out to the newest note of a site, the member's own too, and has the member say its name. The bytes of the name, for gd_said,
 * 0 where it has none, or GD_EMPTY, GD_SPENT, GD_NO_SITE, GD_NO_NOTE, GD_NO_MEMORY. */
int64_t gd_note(gd_member *member, uint8_t site, gd_noted *out);

/* At which count of that site's events this member has parted from it, or GD_EMPTY, GD_SPENT, GD_NO_SITE, GD_NOT_PARTED. */
int64_t gd_parted(gd_member *member, uint8_t site);

#ifdef __cplusplus
}
#endif

#endif
