/*
 * The point memory machine for C (C99 and later) and C++: check a text, run a text, run a schedule of records, write
 * the one text for either. `sh tools/static_library.sh` builds the library, target/staticlib/libpublic_point_memory.a;
 * examples/link.c shows how it is linked. Every function is proved to answer what the definitions say that are written
 * from document 01 and the first four requests of document 02, for all bytes, records and lengths handed in;
 * docs/TRUST.md says what that rests on.
 *
 * What a caller must ensure:
 *
 * - A pointer is valid for its length through the whole call: for that many bytes, or that many records. It is not
 *   null and is aligned (records: 4 bytes) also where the length is 0.
 * - The text and the records are not written to by anyone during the call. The buffer is read and written by this call
 *   alone, and does not overlap the text or the records.
 * - No length exceeds 2^63 - 1 bytes; for records that is 12 bytes each.
 * - There are 256 KB of stack for the call.
 *
 * Beyond that there is nothing to ensure. Any bytes may stand in a text and in the buffer, any numbers in a record. No
 * state is handed in, and none is kept between calls. Nothing is locked and nothing is allocated on the heap, so
 * several threads may call at once, each with a buffer of its own. A call neither keeps nor frees what it was lent.
 *
 * The numbers. Of 1 to 10, 16 and 17 the first faulty line counts, and in it the one that is judged first: 16 is judged
 * after 4 and before 5, 17 after 5 and before 6, the others in their order. docs/MANUAL.md says how to mend each:
 *
 *    0  accepted; line is the count of all lines, or of all records
 *    1  text over 65,536 bytes (line 0)
 *    2  last line without its line feed, or unknown first field
 *    3  the kind cannot stand here, or the text ends too early (line is one past the last); a record of another kind
 *    4  wrong count of fields, or a bad number
 *    5  33rd update, 17th move, 4,001st entry or record; the n steps of a run are n entries
 *    6  P, N, B, S or C outside its range
 *    7  a job's card not below P, or its priority over 255
 *    8  same card and priority as an earlier job
 *    9  a move's word not below B times S
 *   10  the update writes more than C blocks
 *   11  call: no such job or no such update
 *   12  call: job active
 *   13  step: card not below P
 *   14  step: no job active on the card
 *   15  report, or text that is to be written, longer than the buffer (line 0)
 *   16  a run `step card n` with n not from 1 to 4,000
 *   17  a line `update n` with n not the next number from 0
 *
 * 1 to 10, 16 and 17 are judged before any entry runs, and leave no report. 11 to 14 stop the run; the report is of the
 * state before that entry, and the line of a step in a run is the run's. 15 is decided last, and leaves the buffer
 * untouched. Where something is refused no text is written. Lines, and places of records, count from 1.
 */
#ifndef POINT_MEMORY_H
#define POINT_MEMORY_H

#include <stddef.h>
#include <stdint.h>

#ifdef __cplusplus
extern "C" {
#endif

/* A buffer of so many bytes is long enough for every report: it is proved that none is longer than 75,101 bytes. It is
   long enough for every text that is written, too: none is longer than a text may be. */
#define POINT_MEMORY_REPORT_ROOM 80000

/* What a check answers: a number, 0 to 10, 16 or 17, and its line. */
typedef struct {
    size_t number;
    size_t line;
} point_memory_answer;

/* What a run or the writer answers: a number from 0 to 17, its line or the record's place, and the length of the report
   or of the text, which stands in the first bytes of the buffer; 0 where none is written. */
typedef struct {
    size_t number;
    size_t line;
    size_t length;
} point_memory_ended;

/* The kinds of an entry record. */
#define POINT_MEMORY_CALL 0
#define POINT_MEMORY_STEP 1

/* An entry as a record: a call of job `first` with update `second`, or one step of card `first`; a step's `second` is
   not looked at. */
typedef struct {
    uint32_t kind;
    uint32_t first;
    uint32_t second;
} point_memory_entry;

/* Checks a text, without running its entries: 0 and the count of its lines, or 1 to 10, 16 or 17 and the line. */
point_memory_answer point_memory_check(const uint8_t *text, size_t text_length);

/* The same for a plan's text, in which an entry line is 3. */
point_memory_answer point_memory_check_plan(const uint8_t *text, size_t text_length);

/* Checks a text, runs its entries up to the first refused one, and writes the report into the first bytes of the
   buffer. The bytes past the report keep what they held; where no report is written, all of them do. */
point_memory_ended point_memory_run(
    const uint8_t *text, size_t text_length, uint8_t *buffer, size_t buffer_length);

/* The same for a plan's text with the entries as records. After the text's check and before any record runs, over 4,000
   records give 5 at place 4,001, else the first record of another kind gives 3 at its place, both without a report. For
   these and for 11 to 14 the line is the record's place; acceptance gives the count of records. */
point_memory_ended point_memory_run_schedule(
    const uint8_t *text, size_t text_length, const point_memory_entry *records, size_t count, uint8_t *buffer,
    size_t buffer_length);

/* Checks a text, runs its entries, and writes the one text for its plan and entries into the first bytes of the buffer:
   the lines in their order, steps of one card that follow each other joined into the longest runs, a run of one without
   a count. It has the same plan and the same single entries, and its report is the text's but for the line in `end`;
   texts that agree in plan and single entries are written alike. A refused text or entry gives its number and line,
   however short the buffer is; else 15 is a buffer shorter than what is to be written. Both leave the whole buffer as
   it was, and the length is 0. Acceptance gives the count of the lines read, and the bytes past what is written keep
   what they held. */
point_memory_ended point_memory_write(
    const uint8_t *text, size_t text_length, uint8_t *buffer, size_t buffer_length);

/* The same for a plan's text with the entries as records, which are refused as in point_memory_run_schedule. A step's
   `second` is not in what is written. Acceptance gives the count of records. */
point_memory_ended point_memory_write_schedule(
    const uint8_t *text, size_t text_length, const point_memory_entry *records, size_t count, uint8_t *buffer,
    size_t buffer_length);

#ifdef __cplusplus
}
#endif

#endif
