/* Mughlepi: checks competition sheets. Link with libhost.a, which tests/host/run builds.
 *
 * A sheet is a sequence of bytes, an answer is a number and some bytes of `out`. Every number in `out` has four bytes, the
 * lowest first. Places are byte offsets in the sheet, from 0. The numbers of the refusals stand in docs/REFUSALS.md.
 *
 * What the caller owes: both pointers are valid for their lengths, and not null, also where the length is 0; `out` does not
 * overlap the sheet; the stack has 1 MiB free. The calls keep nothing, allocate nothing, and may run in several threads at once.
 */
#ifndef MUGHLEPI_H
#define MUGHLEPI_H

#include <stddef.h>
#include <stdint.h>

#ifdef __cplusplus
extern "C" {
#endif

/* The length of `out` that holds every answer of sheet_check but for findings. Where `out` is shorter, both calls answer 1
 * and write nothing. */
#define MUGHLEPI_HEAD 8

/* The length of one finding in `out`, and how many are written at most. */
#define MUGHLEPI_FINDING 8
#define MUGHLEPI_FINDINGS 4096

/* Kinds of findings. */
#define MUGHLEPI_CLASH 1
#define MUGHLEPI_UNKNOWN_NAME 2

/* Reads a sheet. Answers
 *   0        it is a program; nothing is written
 *   2 to 7   it is refused; bytes 0 to 3 are the place, and the rest of `out` stays as it was. */
uint32_t sheet_read(const uint8_t *sheet, size_t sheet_len, uint8_t *out, size_t out_len);

/* Reads a sheet, and checks it by the library. Answers
 *   0             it was checked; bytes 0 to 3 are the count of its findings, bytes 4 to 7 the count of its expressions, and
 *                 from byte 8 on stand the first findings, as many as fit and 4,096 at most: four bytes for the kind, then four
 *                 for the place; the rest of `out` stays as it was
 *   2 to 7, 12    it is refused; bytes 0 to 3 are the place, and the rest of `out` stays as it was. */
uint32_t sheet_check(const uint8_t *sheet, size_t sheet_len, uint8_t *out, size_t out_len);

#ifdef __cplusplus
}
#endif

#endif
