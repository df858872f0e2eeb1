/* vorruda.h - calls of the proved library libvorruda.a.
 *
 * A buffer is a pointer and a length; NULL with length 0 is an empty buffer. What the caller owes:
 * each pointer is valid for its length, and a buffer that a call may change overlaps no other buffer
 * of the call. Buffers that are only read, as job and certificate, may overlap. There is no other
 * condition. Nothing is allocated and nothing is kept between calls; calls on different buffers may
 * run at the same time.
 *
 * Every call returns a number: 0 is success, 1 to 99 is a refusal, 100 and above is told at the
 * call. Results beside it go to the caller's array `out`. Where `out_len` is too short for them,
 * nothing of `out` is written and the returned number is the same.
 */
#ifndef VORRUDA_H
#define VORRUDA_H

#include <stddef.h>
#include <stdint.h>

/* ---- Version, limits, lengths -----------------------------------------------------------------
 *
 * vorruda_text.h has a text for each refusal. The files are told byte by byte in FORMAT.md, which is
 * installed beside ROUTINES.md, from a routine in C to a listing, in share/doc/vorruda. */

#define VORRUDA_VERSION "0.1.0" /* as pkg-config --modversion vorruda tells it */

#define VORRUDA_MOST_NUMBER      65535 /* in a file */
#define VORRUDA_MOST_BYTES       65536 /* of a job, of a certificate */
#define VORRUDA_MOST_VARIABLES   8
#define VORRUDA_MOST_STATES      64
#define VORRUDA_MOST_TRANSITIONS 256
#define VORRUDA_MOST_FORBIDDEN   64
#define VORRUDA_MOST_MEMBERS     512
#define VORRUDA_MOST_CELLS       12  /* of a shape in a file */
#define VORRUDA_MOST_FACTS       288 /* of a shape in a file */
#define VORRUDA_MOST_OPEN        16  /* `while` and `if` of a listing, at once */

/* How many entries of `out` a call tells. */
#define VORRUDA_READ_NUMBER_OUT   2
#define VORRUDA_WRITE_NUMBERS_OUT 1
#define VORRUDA_VERDICT_OUT       4
#define VORRUDA_JOIN_OUT          8
#define VORRUDA_TALLY_VERDICT_OUT 4
#define VORRUDA_TALLY_REPORT_OUT  2
#define VORRUDA_FORBID_OUT        1 /* each vorruda_forbid_* */
#define VORRUDA_TRANSLATE_OUT     1

/* How many entries of `marks` vorruda_translate tells, and what stands there for a mark that a
 * listing hasn't. */
#define VORRUDA_MARKS   64
#define VORRUDA_NO_MARK 64

#ifdef __cplusplus
extern "C" {
#endif

/* ---- Numbers ----------------------------------------------------------------------------------
 *
 * Files are lists of numbers from 0 to 65,535. A number is written low seven bits first, 128 added
 * to a byte where another follows, in the fewest bytes:
 *
 *   127 is 127        128 is 128 1        65,535 is 255 255 3
 */

#define VORRUDA_UNREADABLE 3  /* no number can be read at that place */
#define VORRUDA_TOO_LARGE  11 /* a number to write is above 65,535 */
#define VORRUDA_NO_ROOM    12 /* the output is too short */

/* Reads the number that begins at place `at`.
 *   0: out[0] is the number, out[1] the place after it.
 *   VORRUDA_UNREADABLE: past the end, above 65,535 or longer than needed;
 *      out[0] is `at`, out[1] is 0.
 * `at` may be any place, also past the end. out has two entries. */
uint32_t vorruda_read_number(const uint8_t *bytes, size_t len, size_t at,
                             uint64_t *out, size_t out_len);

/* Writes `count` numbers to the first bytes of `bytes` and touches none beyond.
 *   0: out[0] is how many bytes were filled.
 *   VORRUDA_TOO_LARGE: out[0] is the index of the first number above 65,535.
 *   VORRUDA_NO_ROOM: out[0] is the length needed.
 * Where it isn't 0, no byte is touched. out has one entry. */
uint32_t vorruda_write_numbers(const uint64_t *numbers, size_t count,
                               uint8_t *bytes, size_t len,
                               uint64_t *out, size_t out_len);

/* ---- Stepper ----------------------------------------------------------------------------------
 *
 * A heap has 64 cells with one link each, and 1 to 8 variables. In bytes:
 *
 *   heap[0]            how many variables there are, V
 *   heap[1 .. 8]       where variable 1 to 8 stands; 0 for variables above V
 *   heap[9 .. 72]      1 where cell 0 to 63 is used, 0 where it isn't
 *   heap[73 .. 136]    where the link of cell 0 to 63 stands; 0 where the cell is unused
 *
 * A variable, or the link of a used cell, stands at # (null), at * (dangling) or at a used cell.
 * The empty heap of V variables has every variable at * and zeros behind them.
 *
 * A used cell may have a value, from 0 to 65,535. Values stand beside the bytes, as 64 numbers:
 *
 *   values[0 .. 63]    v + 1 where cell 0 to 63 has the value v, 0 where it has none
 */

#define VORRUDA_HEAP_BYTES     137
#define VORRUDA_HEAP_CELLS     64
#define VORRUDA_HEAP_VARIABLES 1  /* where the slot of variable 1 is */
#define VORRUDA_HEAP_MARKS     9  /* where the mark of cell 0 is */
#define VORRUDA_HEAP_LINKS     73 /* where the link of cell 0 is */

/* Codes of places. 0, nowhere, is no place of a variable or of a used link. */
#define VORRUDA_NULL     1
#define VORRUDA_DANGLING 2
#define VORRUDA_CELL(i)  (3 + (i))

/* Kinds of operations on operands a and b: 0 is null, 1 to V are variables.
 * Each moves where its condition holds and is blocked elsewhere. */
#define VORRUDA_EQUAL     1 /* a = b        neither at *, same place;           a, b from 0 */
#define VORRUDA_DIFFERENT 2 /* a != b       neither at *, different places;     a, b from 0 */
#define VORRUDA_ASSIGN    3 /* a := b       b not at *;                         b from 0 */
#define VORRUDA_LOAD      4 /* a := b.next  b at a cell whose link isn't *                  */
#define VORRUDA_STORE     5 /* a.next := b  a at a cell, b not at *;            b from 0 */
#define VORRUDA_NEW       6 /* new(a)       always; b is 0                                  */
#define VORRUDA_DELETE    7 /* delete(a)    a at a cell; b is 0                             */

/* Kinds that test or write values of cells. The variables named must be at cells. */
#define VORRUDA_EQUAL_VALUE 8  /* a's value = b's value      both have one, and they are equal   */
#define VORRUDA_BELOW_VALUE 9  /* a's value < b's value      both have one, a's below b's        */
#define VORRUDA_COPY        10 /* a's value := b's value     b's cell has one                    */
#define VORRUDA_LARGER      11 /* a's value := a larger one  b's cell has one, below `value`     */
#define VORRUDA_SMALLER     12 /* a's value := a smaller one b's cell has one, above `value`     */
#define VORRUDA_READ        13 /* a's value := any value     b is 0                              */

#define VORRUDA_BLOCKED   100 /* the operation isn't enabled; no refusal */
#define VORRUDA_BAD_HEAP  13  /* not 137 bytes, not 64 values, or not a heap as described above */
#define VORRUDA_BAD_STEP  14  /* no such kind, or an operand that it doesn't take */
#define VORRUDA_HEAP_FULL 15  /* new with all 64 cells used */

/* One step. `new` takes the lowest unused cell, links it to * and gives it no value; `delete` frees
 * the cell, its value goes with it, and every variable and link that stood at it stands at *
 * afterwards. VORRUDA_LARGER, VORRUDA_SMALLER and VORRUDA_READ write `value`, which the other kinds
 * ignore.
 *   0: moved; heap and values are those after the step.
 *   VORRUDA_BLOCKED: not enabled.
 *   VORRUDA_BAD_HEAP, VORRUDA_BAD_STEP, VORRUDA_HEAP_FULL: refused, by the first that applies.
 * Where it isn't 0, heap and values stay as they are. */
uint32_t vorruda_step_values(uint8_t *heap, size_t heap_len, uint32_t *values, size_t values_len,
                             uint32_t kind, uint32_t a, uint32_t b, uint16_t value);

/* The same on a heap whose cells have no values, by VORRUDA_EQUAL to VORRUDA_DELETE; any other kind
 * is VORRUDA_BAD_STEP. */
uint32_t vorruda_step(uint8_t *heap, size_t heap_len, uint32_t kind, uint32_t a, uint32_t b);

/* ---- Checker ----------------------------------------------------------------------------------
 *
 * A job says what a routine does: its variables, states and transitions, and the shapes of heaps
 * that are forbidden at its states. A certificate has shapes of its own, the members, and shows
 * with covers that each forbidden shape, and each shape from which a transition leads to a member,
 * is covered by a member, and that the empty heap at the start satisfies none.
 *
 * Where a pair is accepted, no heap on any run of the job, whatever its size, satisfies a shape
 * that is forbidden at the state the run is then in. Whoever made the certificate need not be
 * trusted.
 *
 * The refusals, in the order in which they are tried: */

#define VORRUDA_JOB_LENGTH      1  /* the job is empty or longer than 65,536 bytes */
#define VORRUDA_CERT_LENGTH     2  /* the certificate is empty or longer than 65,536 bytes */
#define VORRUDA_JOB_UNREADABLE  3  /* a number of the job can't be read */
#define VORRUDA_JOB_RANGE       4  /* a number of the job breaks its range */
#define VORRUDA_JOB_LEFT        5  /* bytes are left after the job */
#define VORRUDA_CERT_UNREADABLE 6  /* a number of the certificate can't be read */
#define VORRUDA_CERT_RANGE      7  /* a number of the certificate breaks its range */
#define VORRUDA_START_MEMBER    8  /* the empty heap satisfies a member at the start state */
#define VORRUDA_COVER           9  /* a cover reads but doesn't hold */
#define VORRUDA_CERT_LEFT       10 /* bytes are left after the last cover */

/* Files of version 2 have facts, that the value of one cell of a shape is below or equal to that of
 * another, and transitions that test or write values. Tried after VORRUDA_JOB_LEFT, and before
 * anything in the certificate past its version: */

#define VORRUDA_VERSIONS_DIFFER 20 /* job and certificate are of different versions */

/* Checks a certificate against a job, both of version 1 or both of version 2; both are only read.
 *   0: accepted.
 *   VORRUDA_JOB_LENGTH to VORRUDA_CERT_LEFT, VORRUDA_VERSIONS_DIFFER: refused, by the first that
 *      applies.
 * A call needs less than 4 KiB of stack. */
uint32_t vorruda_check(const uint8_t *job, size_t job_len, const uint8_t *cert, size_t cert_len);

/* What a cover that doesn't hold breaks. The first rule counts that is broken at any cell or variable,
 * and the lowest of these is named. */

#define VORRUDA_RULE_STATE    1 /* the member is at another state; the name is 0 */
#define VORRUDA_RULE_IMAGE    2 /* a cell, from 0, has the image of another one */
#define VORRUDA_RULE_VARIABLE 3 /* a variable, from 1, stands elsewhere */
#define VORRUDA_RULE_LINK     4 /* the link of a cell misses */
#define VORRUDA_RULE_PATH     5 /* the path of a cell shares a cell with that of a lower one */
#define VORRUDA_RULE_FACT     6 /* a cell is the first of a fact that does not follow for the images */

/* The same as vorruda_check, with what belongs to the number.
 *   0: out[0], out[1] and out[2] are how many forbidden shapes, members and covers there are;
 *      out[3] is how many links are followed for all covers together: for a cover the lengths of
 *      its member's paths, at most 14.
 *   VORRUDA_COVER: out[0] is the place, out[1] the rule that the cover breaks, out[2] the name,
 *      out[3] is 0.
 *   Other refusals: out[0] is the place, out[1], out[2] and out[3] are 0.
 * The place is the first byte of the number, the member (8) or the cover (9); the first byte left (5,
 * 10); 0 for a length or for versions that differ (20). out has four entries. */
uint32_t vorruda_verdict(const uint8_t *job, size_t job_len, const uint8_t *cert, size_t cert_len,
                         uint64_t *out, size_t out_len);

/* ---- Two jobs as one ---------------------------------------------------------------------------
 *
 * A first job, as one that loads, comes to an end at one of its states, the hand-over, which is also
 * the start of a second one, as one that edits; otherwise their states are apart. The second starts
 * with whatever heap the first leaves, so the empty heap may satisfy its members at the start. They
 * are owed instead: the first job has to list each of them among its own forbidden shapes, at the
 * hand-over and equal number for number, facts as listed (none in a file of version 1).
 *
 * Where two pairs are joined, no run of both jobs as one, from the empty heap at the first's start
 * and over heaps of any size, meets a shape that the second forbids at the state the run is then in,
 * the hand-over being its start, nor one that the first forbids at any of its states but the
 * hand-over. The second may lead back to the hand-over; the first has no transition from there.
 *
 * Tried after the checks of both pairs, in this order: */

#define VORRUDA_JOIN_STATE      24 /* the hand-over is no state of the first job */
#define VORRUDA_JOIN_VARIABLES  25 /* the jobs have different numbers of variables */
#define VORRUDA_JOIN_TRANSITION 26 /* the first job has a transition from the hand-over, be it to itself */
#define VORRUDA_JOIN_OWED       27 /* the first job doesn't list an owed shape at the hand-over */

/* Joins two pairs at a state of the first; all four files are only read. The first pair is checked as
 * by vorruda_check, and then the second without VORRUDA_START_MEMBER. Each may be of either version.
 *   0: joined. out[0] to out[3] are the counts of the first pair as vorruda_verdict tells them,
 *      out[4] to out[7] those of the second.
 *   VORRUDA_JOB_LENGTH to VORRUDA_CERT_LEFT, VORRUDA_VERSIONS_DIFFER: a pair is refused. out[0] is 1
 *      for the first pair and 2 for the second, out[1] the place in its file, out[2] the rule and
 *      out[3] the name for VORRUDA_COVER and else 0; out[4] to out[7] are 0.
 *   VORRUDA_JOIN_STATE to VORRUDA_JOIN_OWED: each pair is right, but not both together; out[0] to
 *      out[7] are 0.
 * out has eight entries. The call needs less than 8 KiB of stack. */
uint32_t vorruda_join(const uint8_t *job1, size_t job1_len, const uint8_t *cert1, size_t cert1_len,
                      const uint8_t *job2, size_t job2_len, const uint8_t *cert2, size_t cert2_len,
                      uint32_t state, uint64_t *out, size_t out_len);

/* ---- Tally ------------------------------------------------------------------------------------
 *
 * One tally takes in the verdicts of a release as they fall. It is 35 numbers that the host lends;
 * all zero is one that has begun, and any 35 numbers are a tally:
 *
 *   tally[0]           verdicts taken in
 *   tally[1]           accepted ones
 *   tally[2]           the sum of their members
 *   tally[3]           the sum of their covers
 *   tally[3 + k]       how many were refused with number k, 1 to 31
 *
 * In a tally that began with zeros, the accepted and the refused together are the verdicts, and the
 * order in which these fell doesn't matter if none got VORRUDA_TALLY_FULL. */

#define VORRUDA_TALLY_NUMBERS    35
#define VORRUDA_TALLY_VERDICTS   0
#define VORRUDA_TALLY_ACCEPTED   1
#define VORRUDA_TALLY_MEMBERS    2
#define VORRUDA_TALLY_COVERS     3
#define VORRUDA_TALLY_REFUSAL(k) (3 + (k))

#define VORRUDA_TALLY_FULL 23 /* a count or a sum would pass 4,294,967,295 */

/* Judges a pair as vorruda_verdict does, and takes the verdict in: one verdict more, and one accepted
 * with its members and covers added, or one more with the refusal's number.
 *   0, VORRUDA_JOB_LENGTH to VORRUDA_CERT_LEFT, VORRUDA_VERSIONS_DIFFER: the verdict, with the four
 *      values of vorruda_verdict. The first 35 numbers are the tally after it; none beyond is touched.
 *   VORRUDA_NO_ROOM: `tally_len` is below 35. Nothing is judged; out[0] is 35, out[1], out[2] and
 *      out[3] are 0.
 *   VORRUDA_TALLY_FULL: a number that the verdict would change would pass its limit. out[0] is the
 *      verdict's number, 0 where the pair is accepted; out[1], out[2] and out[3] are 0.
 * For VORRUDA_NO_ROOM and VORRUDA_TALLY_FULL no number of `tally` is changed. out has four entries;
 * where it is too short, the verdict is taken in all the same.
 * The call needs less than 4 KiB of stack. */
uint32_t vorruda_tally_verdict(const uint8_t *job, size_t job_len,
                               const uint8_t *cert, size_t cert_len,
                               uint32_t *tally, size_t tally_len,
                               uint64_t *out, size_t out_len);

#define VORRUDA_REPORT_BYTES 56 /* no report is longer */

/* Reports a tally, which is only read: the share of accepted verdicts, and the mean of the covers of
 * an accepted certificate, as fractions in lowest terms,
 *
 *   share 1/2 covers 1/1
 *
 * without a line end and without a 0 behind it. A fraction that is zero is 0/1; one that would be
 * divided by 0 is the word none: `share none covers none` ahead of the first verdict, `share 0/1
 * covers none` where none was accepted.
 *   0: out[0] is how many bytes were filled, from the first of `text`, none beyond is touched; out[1]
 *      is 0.
 *   VORRUDA_NO_ROOM: out[0] is 35 and out[1] is 1 where `tally_len` is below 35, which is tried first;
 *      out[0] is the length needed and out[1] is 0 where `text` is too short.
 * Where it isn't 0, no byte of `text` is touched. out has two entries.
 * The call needs less than 4 KiB of stack. */
uint32_t vorruda_tally_report(const uint32_t *tally, size_t tally_len,
                              uint8_t *text, size_t len, uint64_t *out, size_t out_len);

/* ---- Forbidden shapes, ready cut --------------------------------------------------------------
 *
 * Each call writes a job again with the usual forbidden shapes after its own. What then holds, if
 * the job that was written is accepted with some certificate, beside what the job forbade before:
 *
 *   not list     on every run, whenever it is at that state, # is met by following links from the
 *                variable (a variable at # counts as met)
 *   lost block   on every run, whenever it is at that state, every cell is met by following links
 *                from the variable
 *   bad steps    on every run, before each a := b.next the variable b, and before each a.next := b
 *                the variable a, stands at a cell: there is no step through null or dangling
 *
 * A call answers
 *   0: out[0] is how many bytes were filled, from the first of `bytes`; none beyond is touched.
 *   VORRUDA_JOB_LENGTH, VORRUDA_JOB_UNREADABLE, VORRUDA_JOB_RANGE, VORRUDA_JOB_LEFT: this is no
 *      job; out[0] is the place.
 *   VORRUDA_OUTSIDE: the job has no such variable, from 1, or state, from 0; out[0] is 0.
 *   VORRUDA_TOO_MANY: more than 64 forbidden shapes in all; out[0] is 0.
 *   VORRUDA_NO_ROOM: out[0] is the length needed.
 * by the first that applies. Where it isn't 0, no byte is touched. out has one entry. */

#define VORRUDA_OUTSIDE  16 /* a variable or a state outside the job */
#define VORRUDA_TOO_MANY 31 /* more than 64 forbidden shapes */

/* "Not a proper list", four shapes: x at *; x's cell linked to *; x's cell linked to itself; x's
 * cell linked to a cell that links to itself. */
uint32_t vorruda_forbid_not_list(const uint8_t *job, size_t job_len,
                                 uint32_t variable, uint32_t state,
                                 uint8_t *bytes, size_t len, uint64_t *out, size_t out_len);

/* "Lost block", six shapes: one loose cell beside each of those four, beside x at #, and beside x's
 * cell linked to #. */
uint32_t vorruda_forbid_lost_block(const uint8_t *job, size_t job_len,
                                   uint32_t variable, uint32_t state,
                                   uint8_t *bytes, size_t len, uint64_t *out, size_t out_len);

/* "Step through null" and "step through dangling", for every transition that steps: its variable
 * at #, then at *, at the state that it leaves. */
uint32_t vorruda_forbid_bad_steps(const uint8_t *job, size_t job_len,
                                  uint8_t *bytes, size_t len, uint64_t *out, size_t out_len);

/* ---- Listings ---------------------------------------------------------------------------------
 *
 * A routine as the desk writes it: lines, each with a byte 10 at its end and single blanks as here,
 *
 *   x = y   x != y   x := y   x := y.next   x.next := y   new(x)   delete(x)
 *   while T   if T   end   mark k
 *
 * where x and y are letters a to z, y or both sides of a test may be `null` (not before `.next`), T
 * is a test or the word `any`, and k is 0 to 63, each once. At most 16 `while` and `if` are open at
 * once. Names are numbered from 1 as first met.
 *
 * Which letter is variable k: read the text from its first byte on. A letter with no letter on either
 * side is a name; all others belong to words. The k-th name that wasn't met before is variable k. In
 *
 *   new(t)
 *   t.next := x
 *
 * t is variable 1 and x is variable 2. */

#define VORRUDA_LISTING_LINE    17 /* a line outside the grammar, or an `end` too many or missing */
#define VORRUDA_LISTING_NESTING 18 /* more than 16 `while` and `if` open */
#define VORRUDA_LISTING_LIMITS  19 /* more than 8 names or 64 states */

/* Translates a listing.
 *   0: out[0] is how many bytes were filled, from the first of `bytes`, none beyond is touched: a job
 *      ahead of the number of its forbidden shapes. marks[k] is the state of mark k, 64 for none; where
 *      `marks_len` is below 64 none of `marks` is written.
 *   VORRUDA_LISTING_LINE, VORRUDA_LISTING_NESTING, VORRUDA_LISTING_LIMITS: out[0] is the line, from 1,
 *      the first where any of these falls, the lowest number first; a missing `end` is at the line
 *      after the last.
 *   VORRUDA_NO_ROOM: out[0] is the length needed.
 * Where it isn't 0, no byte of `bytes` or `marks` is touched. out has one entry.
 * The call needs less than 8 KiB of stack.
 *
 * A run over the listing's lines reaches a mark with a heap exactly if a run of the job is at the
 * mark's state with that heap. So if the job, with shapes forbidden at the state of a mark, is
 * accepted with some certificate, the listing never reaches the mark with a heap that satisfies one. */
uint32_t vorruda_translate(const uint8_t *text, size_t text_len,
                           uint8_t *bytes, size_t len,
                           uint8_t *marks, size_t marks_len,
                           uint64_t *out, size_t out_len);

/* From a listing to a verdict. What is translated ends ahead of the number of forbidden shapes, and a
 * job has at least one. So the host puts the first behind it, each number one byte:
 *
 *   1             how many forbidden shapes there are
 *   marks[k]      the state at which it is forbidden, here that of mark k
 *   n             how many cells it has, 0 to 12
 *   V codes       where variables 1 to V stand; V is bytes[1]
 *   n codes       where the links of its cells stand
 *
 * A code is 0 (nowhere: nothing is said), VORRUDA_NULL, VORRUDA_DANGLING or VORRUDA_CELL(i). Then
 * vorruda_forbid_* puts ready ones behind it, and what comes out is the job that is checked. With V = 2,
 * `1 marks[0] 0 0 2` forbids at mark 0 that variable 2 is at *. */

#ifdef __cplusplus
}
#endif

#endif
