/* vorruda_text.h - a text for each refusal of vorruda.h and vorruda_list.h.
 *
 * It stands by itself and needs no library. `vorruda explain NUMBER` says more of a refusal, with an
 * example.
 */
#ifndef VORRUDA_TEXT_H
#define VORRUDA_TEXT_H

#include <stddef.h>
#include <stdint.h>

/* Why a call was refused, in a few words without a line end; NULL for a number that is no refusal. */
static inline const char *vorruda_text(uint32_t number)
{
    switch (number) {
    case 1: return "the job is empty or longer than 65,536 bytes";
    case 2: return "the certificate is empty or longer than 65,536 bytes";
    case 3: return "a number of the job, or one read alone, can't be read";
    case 4: return "a number of the job is out of its range";
    case 5: return "bytes are left after the job";
    case 6: return "a number of the certificate can't be read";
    case 7: return "a number of the certificate is out of its range";
    case 8: return "the empty heap satisfies a member at the start state";
    case 9: return "a cover doesn't hold";
    case 10: return "bytes are left after the last cover";
    case 11: return "a number to write is above 65,535";
    case 12: return "the output is too short";
    case 13: return "heap or values are not as the header describes them";
    case 14: return "no such kind of operation, or an operand that it doesn't take";
    case 15: return "all 64 cells are used";
    case 16: return "the job has no such variable or state";
    case 17: return "a line outside the grammar, or an `end` too many or missing";
    case 18: return "more than 16 `while` and `if` are open at once";
    case 19: return "the listing has more than 8 names or 64 states";
    case 20: return "job and certificate are of different versions";
    case 23: return "a count or a sum of the tally would pass 4,294,967,295";
    case 24: return "the hand-over is no state of the first job";
    case 25: return "the jobs to join have different numbers of variables";
    case 26: return "the first job has a transition from the hand-over";
    case 27: return "a shape that the second owes is not listed by the first at the hand-over";
    case 28: return "the list has no such block";
    case 29: return "# isn't met from the head: it or a link is at *, or there is a ring";
    case 31: return "more than 64 forbidden shapes";
    default: return NULL;
    }
}

#endif
