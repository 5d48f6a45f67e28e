/* Lonukepi for C: judges a chart text, and checks a log by a chart text.
 *
 * Messages may arrive in any order. Both calls answer for all bytes that they
 * are given; they allocate nothing, keep nothing, and change nothing of the
 * caller's. The same bytes give the same answer, on every thread.
 * They need 1.5 MiB of stack, as was measured on x86-64.
 *
 * A pointer must not be null, also where its length is 0, and no other thread
 * may write the bytes during the call.
 */
#ifndef LONUKEPI_H
#define LONUKEPI_H

#include <stddef.h>
#include <stdint.h>

#ifdef __cplusplus
extern "C" {
#endif

/* An instance of a ring: its number, counted from 0 in the order of the text,
 * and where its name stands: its first byte, and its length. */
typedef struct lonukepi_member {
    size_t instance;
    size_t start;
    size_t length;
} lonukepi_member;

/* The words of a judgement. */
#define LONUKEPI_RUNS 1u    /* all events can happen */
#define LONUKEPI_STUCK 2u   /* not all events can happen: see ring */
#define LONUKEPI_REFUSED 3u /* the text is refused: see number and byte */

/* What judge says of a chart text. A field that the word does not speak of is
 * 0. */
typedef struct lonukepi_judgement {
    uint32_t word;
    /* refused, why:
     *   11 over 32 instances          12 over 4,096 events
     *   17 two events of a kind have the same message
     *   18 a message's two events do not match
     *   21 a byte that is not allowed 22 a word of over 16 bytes
     *   23 another word is wanted     24 the text ends early
     *   25 an instance is named twice 26 a peer is no instance
     *   27 a table of the library is too short
     *   28 something stands after the end */
    uint32_t number;
    /* refused, where: the first byte is 0 */
    size_t byte;
    /* stuck: how many instances the ring has, 1 to 32 */
    size_t count;
    /* stuck: the instances of the ring. When no event can happen any more,
     * each waits for the next, and the last for the first. */
    lonukepi_member ring[32];
} lonukepi_judgement;

/* The words of an answer to a log. */
#define LONUKEPI_FULL 1u         /* all events of the chart have happened */
#define LONUKEPI_PART 2u         /* not all have; what is logged is allowed */
#define LONUKEPI_TEXT_REFUSED 3u /* as above: see number and byte */
#define LONUKEPI_LOG_REFUSED 4u  /* see number, index and instance */

/* What the check says of a log. A field that the word does not speak of is
 * 0. */
typedef struct lonukepi_log_answer {
    uint32_t word;
    /* text refused: why, as above
     * log refused, why:
     *   43 the event must wait        51 the log ends early
     *   52 no record, or not one that may stand there
     *   53 its chart has another size 54 not the next event of its instance
     *   55 the end counts another number of entries */
    uint32_t number;
    /* text refused, where: the first byte is 0 */
    size_t byte;
    /* log refused, where: the record, of which the first is 0 */
    size_t index;
    /* 43: the instance that must step first */
    size_t instance;
} lonukepi_log_answer;

/* Whether all events of the chart can happen, that is written in the length
 * bytes at text. */
lonukepi_judgement lonukepi_judge(const uint8_t *text, size_t length);

/* Whether the log_length bytes at log are a log of the chart that is written in
 * the text_length bytes at text. */
lonukepi_log_answer lonukepi_check_log(const uint8_t *text, size_t text_length,
                                       const uint8_t *log, size_t log_length);

#ifdef __cplusplus
}
#endif

#endif
