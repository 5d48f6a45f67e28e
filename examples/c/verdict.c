/* Judges charts and checks logs through include/lonukepi.h, and prints what is
 * answered. The status is 0 where all answers are those that are expected. */
#include <stdio.h>
#include <string.h>

#include "lonukepi.h"

static const char late[] =
    "msc late;\n"
    "instance log;\n  out text to bus;\nendinstance;\n"
    "instance bus;\n  in text from log;\n  in ring from siren;\nendinstance;\n"
    "instance siren;\n  out ring to bus;\n  action sound;\nendinstance;\n"
    "endmsc;\n";

static const char cross[] =
    "msc cross;\n"
    "instance a;\n  in p from b;\n  out q to b;\nendinstance;\n"
    "instance b;\n  in q from a;\n  out p to a;\nendinstance;\n"
    "endmsc;\n";

static const char slip[] = "msc slip;\ninstance a;\n  send m to b;\n";

/* Logs of late. The head counts 3 instances and 5 events; an entry has an
 * instance, a kind (1 out, 2 in, 3 action) and the number of the message or
 * action; the end counts the entries. */
static const uint8_t whole[] = {
    3, 0, 1, 0, 3, 5, 0,    /* head */
    4, 0, 2, 0, 0, 1, 0, 0, /* log: out text */
    4, 0, 2, 0, 1, 2, 0, 0, /* bus: in text */
    4, 0, 2, 0, 2, 1, 1, 0, /* siren: out ring */
    4, 0, 2, 0, 1, 2, 1, 0, /* bus: in ring */
    4, 0, 2, 0, 2, 3, 0, 0, /* siren: action sound */
    2, 0, 3, 0, 5, 0,       /* end */
};

static const uint8_t begun[] = {
    3, 0, 1, 0, 3, 5, 0,    /* head */
    4, 0, 2, 0, 0, 1, 0, 0, /* log: out text */
    2, 0, 3, 0, 1, 0,       /* end */
};

static const uint8_t early[] = {
    3, 0, 1, 0, 3, 5, 0,    /* head */
    4, 0, 2, 0, 0, 1, 0, 0, /* log: out text */
    4, 0, 2, 0, 1, 2, 0, 0, /* bus: in text */
    4, 0, 2, 0, 1, 2, 1, 0, /* bus: in ring, before the siren has sent it */
    2, 0, 3, 0, 3, 0,       /* end */
};

static char said[256];
static int wrong = 0;

/* Prints what was said, and notes where it is not what is expected. */
static void expect(const char *wanted)
{
    printf("%s\n", said);
    if (strcmp(said, wanted) != 0) {
        printf("  expected: %s\n", wanted);
        wrong = 1;
    }
}

static void judge(const char *text, const char *wanted)
{
    lonukepi_judgement j =
        lonukepi_judge((const uint8_t *)text, strlen(text));
    size_t used = 0;
    size_t k;

    switch (j.word) {
    case LONUKEPI_RUNS:
        snprintf(said, sizeof said, "runs");
        break;
    case LONUKEPI_STUCK:
        used += (size_t)snprintf(said, sizeof said, "stuck");
        for (k = 0; k < j.count && used < sizeof said; k++)
            used += (size_t)snprintf(said + used, sizeof said - used,
                                     " %lu %.*s",
                                     (unsigned long)j.ring[k].instance,
                                     (int)j.ring[k].length,
                                     text + j.ring[k].start);
        break;
    default:
        snprintf(said, sizeof said, "refused %lu at %lu",
                 (unsigned long)j.number, (unsigned long)j.byte);
    }
    expect(wanted);
}

static void check(const char *text, const uint8_t *log, size_t length,
                  const char *wanted)
{
    lonukepi_log_answer a = lonukepi_check_log((const uint8_t *)text,
                                               strlen(text), log, length);

    switch (a.word) {
    case LONUKEPI_FULL:
        snprintf(said, sizeof said, "full");
        break;
    case LONUKEPI_PART:
        snprintf(said, sizeof said, "part");
        break;
    case LONUKEPI_TEXT_REFUSED:
        snprintf(said, sizeof said, "text refused %lu at %lu",
                 (unsigned long)a.number, (unsigned long)a.byte);
        break;
    default:
        snprintf(said, sizeof said, "log refused %lu at record %lu, for %lu",
                 (unsigned long)a.number, (unsigned long)a.index,
                 (unsigned long)a.instance);
    }
    expect(wanted);
}

int main(void)
{
    judge(late, "runs");
    judge(cross, "stuck 0 a 1 b");
    judge(slip, "refused 23 at 24");
    check(late, whole, sizeof whole, "full");
    check(late, begun, sizeof begun, "part");
    check(late, early, sizeof early, "log refused 43 at record 3, for 2");
    check(late, whole, sizeof whole - 1, "log refused 51 at record 6, for 0");
    check(cross, whole, sizeof whole, "log refused 53 at record 0, for 0");
    check(slip, whole, sizeof whole, "text refused 23 at 24");
    return wrong;
}
