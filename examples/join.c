/* Joins a load routine and an edit routine: two pairs of files, and the state of the first job at which
 * the second starts.
 *
 *   gcc -std=c11 -Wall -Wextra -Werror -Iinclude examples/join.c target/staticlib/libvorruda.a
 *   join JOB1 CERT1 JOB2 CERT2 STATE
 *
 * Prints what is told on one line. The exit status is 0 where they are joined, 1 where they aren't, and
 * 2 where a file can't be read or STATE is no number.
 */
#include <stdio.h>
#include <stdlib.h>

#include "vorruda.h"
#include "vorruda_text.h"

/* A byte more than a file may have, so that a longer one is refused. */
enum { ROOM = VORRUDA_MOST_BYTES + 1 };

struct file {
    uint8_t bytes[ROOM];
    size_t len;
};

static void read_file(const char *name, struct file *file)
{
    FILE *opened = fopen(name, "rb");

    if (opened == NULL) {
        perror(name);
        exit(2);
    }
    file->len = fread(file->bytes, 1, ROOM, opened);
    fclose(opened);
}

static uint32_t read_state(const char *text)
{
    char *end;
    const unsigned long state = strtoul(text, &end, 10);

    if (*text < '0' || *text > '9' || *end != '\0' || state > UINT32_MAX) {
        fprintf(stderr, "%s: no state\n", text);
        exit(2);
    }
    return (uint32_t)state;
}

static void print_counts(const char *which, const uint64_t *counts)
{
    printf(" %s bads %u members %u covers %u links %u", which, (unsigned)counts[0],
           (unsigned)counts[1], (unsigned)counts[2], (unsigned)counts[3]);
}

int main(int argc, char **argv)
{
    static struct file job1, cert1, job2, cert2;
    uint64_t out[VORRUDA_JOIN_OUT] = {0};
    uint32_t answer;

    if (argc != 6) {
        fprintf(stderr, "usage: %s JOB1 CERT1 JOB2 CERT2 STATE\n", argv[0]);
        return 2;
    }
    read_file(argv[1], &job1);
    read_file(argv[2], &cert1);
    read_file(argv[3], &job2);
    read_file(argv[4], &cert2);
    answer = vorruda_join(job1.bytes, job1.len, cert1.bytes, cert1.len, job2.bytes, job2.len,
                          cert2.bytes, cert2.len, read_state(argv[5]), out,
                          VORRUDA_JOIN_OUT);
    if (answer == 0) {
        printf("joined");
        print_counts("first", out);
        print_counts("second", out + 4);
        printf("\n");
        return 0;
    }
    printf("refused %u: %s", (unsigned)answer, vorruda_text(answer));
    if (out[0] != 0) {
        printf(", pair %u at %u", (unsigned)out[0], (unsigned)out[1]);
    }
    if (answer == VORRUDA_COVER) {
        printf(" rule %u of %u", (unsigned)out[2], (unsigned)out[3]);
    }
    printf("\n");
    return 1;
}
