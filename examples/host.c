/* A host of the proved library: writes and reads numbers, keeps a short list on the heap, checks
 * certificates and reports on them, has the usual forbidden shapes added to a job, and goes from a
 * routine as text to a verdict.
 *
 *   gcc -std=c11 -Wall -Wextra -Werror -Iinclude examples/host.c target/staticlib/libvorruda.a
 *
 * or, where the library is installed,
 *
 *   gcc -std=c11 -Wall -Wextra -Werror examples/host.c $(pkg-config --cflags --libs vorruda)
 *
 * Given files, a job and its certificate in turn, it judges these pairs instead, and reports on them:
 *
 *   host JOB CERT JOB CERT ...
 */
#include <stdio.h>
#include <stdlib.h>
#include <string.h>

#include "vorruda.h"
#include "vorruda_text.h"

static int surprises = 0;

/* Prints one line, and notes where a result isn't the one a host may count on. */
static void expect(const char *what, uint64_t got, uint64_t wanted)
{
    printf("  %-40s %llu", what, (unsigned long long)got);
    if (got != wanted) {
        printf("  UNEXPECTED, wanted %llu", (unsigned long long)wanted);
        surprises++;
    }
    printf("\n");
}

static void numbers_as_bytes(void)
{
    const uint64_t list[] = {127, 128, 300, 65535};
    const size_t count = sizeof list / sizeof list[0];
    uint8_t bytes[16];
    uint64_t out[VORRUDA_READ_NUMBER_OUT] = {0};
    uint32_t answer;

    answer = vorruda_write_numbers(list, count, bytes, sizeof bytes, out, VORRUDA_WRITE_NUMBERS_OUT);
    expect("write 127 128 300 65535", answer, 0);
    expect("bytes filled", out[0], 8);

    const size_t filled = (size_t)out[0];
    size_t at = 0, read = 0;
    while (at < filled && read < count
           && vorruda_read_number(bytes, filled, at, out, VORRUDA_READ_NUMBER_OUT) == 0) {
        expect("read back", out[0], list[read++]);
        at = (size_t)out[1];
    }
    expect("numbers read", read, count);

    answer = vorruda_read_number(bytes, filled, filled, out, VORRUDA_READ_NUMBER_OUT);
    expect("read past the end: refused", answer, VORRUDA_UNREADABLE);
    expect("at place", out[0], filled);

    answer = vorruda_write_numbers(list, count, bytes, 7, out, VORRUDA_WRITE_NUMBERS_OUT);
    expect("write to 7 bytes: refused", answer, VORRUDA_NO_ROOM);
    expect("bytes needed", out[0], 8);

    answer = vorruda_write_numbers(NULL, 0, NULL, 0, out, VORRUDA_WRITE_NUMBERS_OUT);
    expect("write an empty list to no room", answer, 0);
    answer = vorruda_write_numbers(list, 0, bytes, 0, out, VORRUDA_WRITE_NUMBERS_OUT);
    expect("write an empty list, no bytes allowed", answer, 0);
}

/* Operands of the steps below. */
enum { NOTHING = 0, HEAD = 1, BLOCK = 2 };

static uint8_t heap[VORRUDA_HEAP_BYTES] = {2, VORRUDA_DANGLING, VORRUDA_DANGLING};

static void step(const char *what, uint32_t kind, uint32_t a, uint32_t b, uint32_t wanted)
{
    expect(what, vorruda_step(heap, sizeof heap, kind, a, b), wanted);
}

/* Follows the links from the head and counts the cells. */
static size_t list_length(void)
{
    size_t cells = 0;
    uint8_t place = heap[VORRUDA_HEAP_VARIABLES + HEAD - 1];
    while (place >= VORRUDA_CELL(0) && cells < VORRUDA_HEAP_CELLS) {
        cells++;
        place = heap[VORRUDA_HEAP_LINKS + place - VORRUDA_CELL(0)];
    }
    return cells;
}

static void list_of_blocks(void)
{
    step("head = block, both dangling: blocked", VORRUDA_EQUAL, HEAD, BLOCK, VORRUDA_BLOCKED);
    step("head := null", VORRUDA_ASSIGN, HEAD, NOTHING, 0);
    for (int i = 0; i < 3; i++) {
        step("new(block)", VORRUDA_NEW, BLOCK, NOTHING, 0);
        step("block.next := head", VORRUDA_STORE, BLOCK, HEAD, 0);
        step("head := block", VORRUDA_ASSIGN, HEAD, BLOCK, 0);
    }
    expect("cells from the head", list_length(), 3);

    step("head := head.next", VORRUDA_LOAD, HEAD, HEAD, 0);
    step("delete(block), the old front", VORRUDA_DELETE, BLOCK, NOTHING, 0);
    expect("cells from the head", list_length(), 2);
    step("delete(block) again: blocked", VORRUDA_DELETE, BLOCK, NOTHING, VORRUDA_BLOCKED);
}

static void refused_steps(void)
{
    uint8_t before[VORRUDA_HEAP_BYTES];

    step("kind 8: refused", 8, HEAD, BLOCK, VORRUDA_BAD_STEP);
    step("null := head: refused", VORRUDA_ASSIGN, NOTHING, HEAD, VORRUDA_BAD_STEP);
    heap[VORRUDA_HEAP_VARIABLES + HEAD - 1] = VORRUDA_CELL(40);
    memcpy(before, heap, sizeof heap);
    step("head at an unused cell: refused", VORRUDA_NEW, BLOCK, NOTHING, VORRUDA_BAD_HEAP);
    expect("the heap's bytes are as they were", memcmp(before, heap, sizeof heap) == 0, 1);
}

/* State 0, new(head), state 1; forbidden there: head at null. */
static const uint8_t job[] = {1, 1, 2, 0, 1, 0, VORRUDA_NEW, 1, 0, 1, 1, 1, 0, VORRUDA_NULL};

/* The member of the first certificate is the forbidden shape itself. That of the second is head at *,
 * which doesn't cover head at null. */
static const uint8_t holds[] = {1, 1, 1, 0, VORRUDA_NULL, 0};
static const uint8_t covers_nothing[] = {1, 1, 1, 0, VORRUDA_DANGLING, 0};

static void certificate_that_holds(void)
{
    uint64_t out[VORRUDA_VERDICT_OUT] = {0};
    uint32_t answer;

    expect("check: accepted", vorruda_check(job, sizeof job, holds, sizeof holds), 0);
    answer = vorruda_verdict(job, sizeof job, holds, sizeof holds, out, VORRUDA_VERDICT_OUT);
    expect("verdict: accepted", answer, 0);
    expect("forbidden shapes", out[0], 1);
    expect("members", out[1], 1);
    expect("covers", out[2], 1);
    expect("links followed", out[3], 0);
}

/* Forbidden: head at a cell that links to another, which links to null. The member skips the other
 * cell: its link is covered by a path of two links. */
static void links_followed(void)
{
    const uint8_t chain[] = {1, 1, 1, 0, 0, 1, 0, 2, VORRUDA_CELL(0), VORRUDA_CELL(1), VORRUDA_NULL};
    const uint8_t cert[] = {1, 1, 0, 1, VORRUDA_CELL(0), VORRUDA_NULL, 0, 0};
    uint64_t out[VORRUDA_VERDICT_OUT] = {0};
    uint32_t answer;

    answer = vorruda_verdict(chain, sizeof chain, cert, sizeof cert, out, VORRUDA_VERDICT_OUT);
    expect("a path of two links: accepted", answer, 0);
    expect("links followed", out[3], 2);
    out[0] = 7;
    answer = vorruda_verdict(chain, sizeof chain, cert, sizeof cert, out, VORRUDA_VERDICT_OUT - 1);
    expect("room for three values: accepted", answer, 0);
    expect("and nothing is written", out[0], 7);
}

static void cover_that_does_not_hold(void)
{
    uint64_t out[VORRUDA_VERDICT_OUT] = {0};
    uint32_t answer;

    answer = vorruda_verdict(job, sizeof job, covers_nothing, sizeof covers_nothing, out,
                             VORRUDA_VERDICT_OUT);
    expect("head at *, which covers nothing: refused", answer, VORRUDA_COVER);
    expect("at place", out[0], 5);
    expect("a variable stands elsewhere: rule", out[1], VORRUDA_RULE_VARIABLE);
    expect("of variable", out[2], HEAD);
}

static void refused(const char *what, const uint8_t *job_bytes, const uint8_t *cert,
                    size_t cert_len, uint32_t wanted, uint64_t place)
{
    uint64_t out[VORRUDA_VERDICT_OUT] = {0};
    uint32_t answer;

    answer = vorruda_verdict(job_bytes, sizeof job, cert, cert_len, out, VORRUDA_VERDICT_OUT);
    expect(what, answer, wanted);
    expect("at place", out[0], place);
}

static void other_refusals(void)
{
    const uint8_t anything[] = {1, 2, 1, 0, VORRUDA_NULL, 0, 0, 0, 0};
    uint8_t assigned[sizeof job];

    memcpy(assigned, job, sizeof job);
    assigned[6] = VORRUDA_ASSIGN;
    refused("head := null, so from any heap: refused", assigned, anything, sizeof anything,
            VORRUDA_START_MEMBER, 5);
    refused("no certificate: refused", job, NULL, 0, VORRUDA_CERT_LENGTH, 0);
}

static uint32_t tally[VORRUDA_TALLY_NUMBERS];

/* Takes the verdict on a certificate of the job into the first numbers of the tally. */
static void take_in(const char *what, size_t numbers, const uint8_t *cert, size_t cert_len,
                    uint32_t wanted)
{
    uint64_t out[VORRUDA_TALLY_VERDICT_OUT] = {0};
    uint32_t answer;

    answer = vorruda_tally_verdict(job, sizeof job, cert, cert_len, tally, numbers, out,
                                   VORRUDA_TALLY_VERDICT_OUT);
    expect(what, answer, wanted);
}

/* Prints the tally's report, which no room of this size is too short for. */
static void report(const char *wanted)
{
    char text[VORRUDA_REPORT_BYTES + 1] = "";
    uint64_t out[VORRUDA_TALLY_REPORT_OUT] = {0};
    uint32_t answer;

    answer = vorruda_tally_report(tally, VORRUDA_TALLY_NUMBERS, (uint8_t *)text,
                                  VORRUDA_REPORT_BYTES, out, VORRUDA_TALLY_REPORT_OUT);
    expect(text, answer, 0);
    expect("bytes filled", out[0], strlen(wanted));
    expect("as wanted", strcmp(text, wanted) == 0, 1);
}

static void release_sheet(void)
{
    const size_t all = VORRUDA_TALLY_NUMBERS;

    report("share none covers none");
    take_in("one that holds: accepted", all, holds, sizeof holds, 0);
    take_in("one that doesn't: refused", all, covers_nothing, sizeof covers_nothing, VORRUDA_COVER);
    report("share 1/2 covers 1/1");
    take_in("the same again: refused", all, covers_nothing, sizeof covers_nothing, VORRUDA_COVER);
    take_in("no certificate: refused", all, NULL, 0, VORRUDA_CERT_LENGTH);
    report("share 1/4 covers 1/1");
    expect("covers that didn't hold", tally[VORRUDA_TALLY_REFUSAL(VORRUDA_COVER)], 2);

    take_in("room for 34 numbers: refused", all - 1, holds, sizeof holds, VORRUDA_NO_ROOM);
    tally[VORRUDA_TALLY_COVERS] = UINT32_MAX;
    take_in("a cover too many: refused", all, holds, sizeof holds, VORRUDA_TALLY_FULL);
    expect("verdicts, as before", tally[VORRUDA_TALLY_VERDICTS], 4);
    expect("accepted, as before", tally[VORRUDA_TALLY_ACCEPTED], 1);
}

/* The job again, with "head is not a proper list" forbidden at state 1. */
static void ready_shapes(void)
{
    uint8_t bytes[64];
    uint64_t out[VORRUDA_FORBID_OUT] = {0};
    uint32_t answer;

    answer = vorruda_forbid_not_list(job, sizeof job, HEAD, 1, bytes, sizeof bytes, out,
                                     VORRUDA_FORBID_OUT);
    expect("forbid not a list: written", answer, 0);
    expect("bytes filled", out[0], 30);
    expect("forbidden shapes, now", bytes[10], 5);

    answer = vorruda_forbid_not_list(job, sizeof job, HEAD, 1, bytes, 29, out, VORRUDA_FORBID_OUT);
    expect("to 29 bytes: refused", answer, VORRUDA_NO_ROOM);
    expect("bytes needed", out[0], 30);
    answer = vorruda_forbid_lost_block(job, sizeof job, BLOCK, 1, bytes, sizeof bytes, out,
                                       VORRUDA_FORBID_OUT);
    expect("there is no variable 2: refused", answer, VORRUDA_OUTSIDE);
}

/* A listing that builds a list of any length, as transitions; its mark is the state at the end. */
static void listing(void)
{
    const char text[] = "x := null\nwhile any\nnew(n)\nn.next := x\nx := n\nend\nmark 0\n";
    const char wrong[] = "x := null\nwhile  any\nend\n";
    uint8_t bytes[64];
    uint8_t marks[VORRUDA_MARKS];
    uint64_t out[VORRUDA_TRANSLATE_OUT] = {0};
    uint32_t answer;

    answer = vorruda_translate((const uint8_t *)text, strlen(text), bytes, sizeof bytes, marks,
                               sizeof marks, out, VORRUDA_TRANSLATE_OUT);
    expect("a listing: translated", answer, 0);
    expect("bytes filled", out[0], 45);
    expect("variables", bytes[1], 2);
    expect("the state of mark 0", marks[0], 6);
    expect("there is no mark 1", marks[1], VORRUDA_NO_MARK);

    answer = vorruda_translate((const uint8_t *)wrong, strlen(wrong), bytes, sizeof bytes, marks,
                               sizeof marks, out, VORRUDA_TRANSLATE_OUT);
    expect("two blanks: refused", answer, VORRUDA_LISTING_LINE);
    expect("at line", out[0], 2);
}

static int is_letter(char c)
{
    return c >= 'a' && c <= 'z';
}

/* The variable that a letter of a listing is, 0 for none: names, letters with no letter beside them,
 * are numbered from 1 as they are first met. */
static uint32_t variable_of(const char *text, char letter)
{
    char met[VORRUDA_MOST_VARIABLES + 1] = "";

    for (size_t i = 0, count = 0; text[i] != '\0' && count < VORRUDA_MOST_VARIABLES; i++) {
        const int beside = (i > 0 && is_letter(text[i - 1])) || is_letter(text[i + 1]);
        if (is_letter(text[i]) && !beside && strchr(met, text[i]) == NULL) {
            met[count++] = text[i];
        }
    }
    const char *found = strchr(met, letter);
    return found == NULL ? 0 : (uint32_t)(found - met) + 1;
}

/* Puts the first forbidden shape behind a translated listing: a variable at *, at a state. Tells the
 * length of the job. */
static size_t forbid_dangling(uint8_t *bytes, size_t filled, uint32_t variable, uint8_t state)
{
    const size_t variables = bytes[1];

    bytes[filled++] = 1; /* one forbidden shape */
    bytes[filled++] = state;
    bytes[filled++] = 0; /* without cells */
    memset(bytes + filled, 0, variables);
    bytes[filled + variable - 1] = VORRUDA_DANGLING;
    return filled + variables;
}

/* From a listing to a verdict: one block is made, and at the mark x has to be a list. */
static void listing_to_verdict(void)
{
    const char text[] = "new(t)\nt.next := null\nx := t\nmark 0\n";
    /* Members 0 to 3 are what is forbidden at the mark, state 3; 4 to 6 are what comes before x := t,
     * at state 2. A search tool finds such a certificate. */
    const uint8_t cert[] = {
        1, 7,
        3, 0, 0, 2,                                        /* x at * */
        3, 1, 0, 3, 2,   3, 1, 0, 3, 3,   3, 2, 0, 3, 4, 4, /* x's link to *, to itself, to a ring */
        2, 1, 3, 0, 2,   2, 1, 3, 0, 3,   2, 2, 3, 0, 4, 4, /* the same of t */
        0,   0,   1, 0,   2, 0,   3, 0, 1,                 /* covers of the forbidden shapes */
        4, 0,   5, 0,   6, 0, 1,                           /* covers of what comes before */
    };
    uint8_t bytes[64], ready[128];
    uint8_t marks[VORRUDA_MARKS];
    uint64_t out[VORRUDA_VERDICT_OUT] = {0};
    uint32_t answer;
    size_t len;

    answer = vorruda_translate((const uint8_t *)text, strlen(text), bytes, sizeof bytes, marks,
                               sizeof marks, out, VORRUDA_TRANSLATE_OUT);
    expect("a listing: translated", answer, 0);
    len = (size_t)out[0];
    expect("a job needs a forbidden shape: refused",
           vorruda_forbid_not_list(bytes, len, 1, 0, ready, sizeof ready, out, VORRUDA_FORBID_OUT),
           VORRUDA_JOB_UNREADABLE);

    const uint32_t x = variable_of(text, 'x');
    expect("t is variable", variable_of(text, 't'), 1);
    expect("x is variable", x, 2);
    expect("there is no y", variable_of(text, 'y'), 0);
    len = forbid_dangling(bytes, len, x, marks[0]);
    answer = vorruda_forbid_not_list(bytes, len, x, marks[0], ready, sizeof ready, out,
                                     VORRUDA_FORBID_OUT);
    expect("forbid not a list at mark 0: written", answer, 0);
    len = (size_t)out[0];
    answer = vorruda_verdict(ready, len, cert, sizeof cert, out, VORRUDA_VERDICT_OUT);
    expect("the certificate: accepted", answer, 0);
    expect("forbidden shapes", out[0], 5);
    expect("members", out[1], 7);
    expect("covers", out[2], 8);
}

/* A byte more than a file may have, so that a longer one is refused. */
enum { ROOM = VORRUDA_MOST_BYTES + 1 };

static size_t read_file(const char *name, uint8_t *bytes)
{
    FILE *file = fopen(name, "rb");
    size_t len;

    if (file == NULL) {
        perror(name);
        exit(2);
    }
    len = fread(bytes, 1, ROOM, file);
    fclose(file);
    return len;
}

/* Judges pairs of files, prints each verdict and at last the report. */
static void judge_files(char **names, int count)
{
    static uint8_t job_bytes[ROOM], cert[ROOM];
    uint8_t text[VORRUDA_REPORT_BYTES];
    uint64_t out[VORRUDA_TALLY_VERDICT_OUT] = {0};

    for (int i = 0; i + 1 < count; i += 2) {
        const size_t job_len = read_file(names[i], job_bytes);
        const size_t cert_len = read_file(names[i + 1], cert);
        const uint32_t answer = vorruda_tally_verdict(job_bytes, job_len, cert, cert_len, tally,
                                                      VORRUDA_TALLY_NUMBERS, out,
                                                      VORRUDA_TALLY_VERDICT_OUT);
        if (answer == VORRUDA_TALLY_FULL) {
            printf("%s: not taken in: %s\n", names[i + 1], vorruda_text(answer));
        } else if (answer == 0) {
            printf("%s: accepted members %u covers %u\n", names[i + 1], (unsigned)out[1],
                   (unsigned)out[2]);
        } else {
            printf("%s: refused %u at %u: %s\n", names[i + 1], (unsigned)answer, (unsigned)out[0],
                   vorruda_text(answer));
        }
    }
    vorruda_tally_report(tally, VORRUDA_TALLY_NUMBERS, text, sizeof text, out,
                         VORRUDA_TALLY_REPORT_OUT);
    printf("%.*s\n", (int)out[0], (const char *)text);
}

int main(int argc, char **argv)
{
    if (argc % 2 == 0) {
        fprintf(stderr, "usage: %s [JOB CERT ...]\n", argv[0]);
        return 2;
    }
    if (argc > 1) {
        judge_files(argv + 1, argc - 1);
        return 0;
    }
    puts("Numbers as bytes");
    numbers_as_bytes();
    puts("A list of pattern blocks");
    list_of_blocks();
    puts("Steps that are refused");
    refused_steps();
    puts("Certificates");
    certificate_that_holds();
    links_followed();
    cover_that_does_not_hold();
    other_refusals();
    puts("A release sheet");
    release_sheet();
    puts("Forbidden shapes, ready cut");
    ready_shapes();
    puts("Listings");
    listing();
    puts("From a listing to a verdict");
    listing_to_verdict();
    puts(surprises == 0 ? "As expected." : "NOT as expected.");
    return surprises == 0 ? 0 : 1;
}
