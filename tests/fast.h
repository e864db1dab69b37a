/* Judge, prepare and restore made for speed alone, for tests/bench: hand-tuned C for page 0, prepare by the strict way, with
   notes. What the calls answer is what hosts/c/desk.h says of desk_judge, desk_prepare_strict and desk_restore. Lent memory
   may be null where its length is 0. Output and note places must not overlap anything else that is lent. */
#ifndef FAST_H
#define FAST_H

#include <stddef.h>
#include <stdint.h>

#define FAST_MAX_FILE 7679744u /* Q + 9,999 T + Z */

typedef struct {
    unsigned number;      /* 0 sound, otherwise the refusal number */
    unsigned long record; /* record refused, else 0 */
    size_t notes;         /* number of notes written, 0 when refused */
} fast_prepared;

typedef struct {
    unsigned number;
    unsigned long record; /* always 0 */
} fast_restored;

/* record * 100 + number, no taken numbers */
unsigned long fast_judge(const unsigned char *file, size_t n,
                         const unsigned char *transfer, size_t nt,
                         const unsigned char *cheque, size_t nc);

fast_prepared fast_prepare(const unsigned char *file, size_t n,
                           const unsigned char *transfer, size_t nt,
                           const unsigned char *cheque, size_t nc,
                           unsigned char *out, size_t nout,
                           uint32_t *notes, size_t nnotes);

fast_restored fast_restore(const unsigned char *forwarded, size_t n,
                           const uint32_t *notes, size_t nnotes,
                           const unsigned char *transfer, size_t nt,
                           const unsigned char *cheque, size_t nc,
                           unsigned char *out, size_t nout);

#endif
