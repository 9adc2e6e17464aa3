/* Two members of a session draw together, in one process. */
#include <groupdesign.h>

#include <stdio.h>
#include <stdlib.h>
#include <string.h>

static uint8_t bytes[1 << 16];
static uint64_t needed;

/* Ends the program where a call was answered by a negative number. */
static int64_t done(int64_t answer)
{
    if (answer < 0) {
        fprintf(stderr, "the answer %lld\n", (long long)answer);
        exit(1);
    }
    return answer;
}

static void print_said(gd_member *member, const char *who)
{
    int64_t length = done(gd_said(member, bytes, sizeof bytes, &needed));
    printf("%s%.*s", length > 0 ? who : "", (int)length, (const char *)bytes);
}

/* Appends to a file what the journal lacks, so that a crash leaves all of it or nothing. Without syncs, since this is an example. */
static void keep(gd_member *member, FILE *journal)
{
    uint64_t place = 0;
    int64_t length = done(gd_unwritten(member, &place, bytes, sizeof bytes, &needed));
    if (length > 0) {
        fseek(journal, (long)place + 1, SEEK_SET);
        fwrite(bytes + 1, 1, (size_t)length - 1, journal);
        fflush(journal);
        fseek(journal, (long)place, SEEK_SET);
        fwrite(bytes, 1, 1, journal);
        fflush(journal);
    }
    done(gd_written(member, (uint64_t)length));
}

static void edit(gd_member *member, FILE *journal, const char *line)
{
    done(gd_line(member, (const uint8_t *)line, strlen(line)));
    keep(member, journal);
    print_said(member, "edited: ");
}

static void send(gd_member *from, gd_member *to, uint8_t site, FILE *journal)
{
    uint8_t frame[GD_FRAME_BYTES];
    uint16_t behind = 0;
    int64_t length = done(gd_frame(from, site, &behind, frame, sizeof frame, &needed));
    done(gd_take(to, frame, (size_t)length));
    keep(to, journal);
    print_said(to, "heard: ");
}

static FILE *journal_of(gd_member *member)
{
    FILE *journal = tmpfile();
    if (journal == NULL)
        exit(1);
    fwrite(bytes, 1, (size_t)done(gd_journal_head(member, bytes, sizeof bytes, &needed)), journal);
    return journal;
}

int main(void)
{
    gd_member ana = {0}, ben = {0};
    done(gd_new(&ana, 1, 2, 7));
    done(gd_new(&ben, 2, 2, 7));
    FILE *of_ana = journal_of(&ana), *of_ben = journal_of(&ben);
    edit(&ana, of_ana, "create rect 0 0 100 50 House");
    send(&ana, &ben, 2, of_ben);
    edit(&ben, of_ben, "fill 1.1 FFCC00");
    edit(&ana, of_ana, "move 1.1 10 10");
    send(&ana, &ben, 2, of_ben);
    send(&ben, &ana, 1, of_ana);
    done(gd_text(&ben));
    print_said(&ben, "Ben sees:\n");
    done(gd_text(&ana));
    print_said(&ana, "Ana sees:\n");
    gd_free(&ana);
    gd_free(&ben);
    fclose(of_ana);
    fclose(of_ben);
    return 0;
}
