/* The checking list of an OpenQASM 3 program tree. The format of a tree, of the listing and the refusals: README.md. */
#ifndef PUNTSALAK_H
#define PUNTSALAK_H

#include <stddef.h>
#include <stdint.h>

#define PUNTSALAK_SCRATCH 65536

/* Nothing is asked of the caller but that the buffers and the answer are apart. The scratch's first 65,536 bytes are zero afterwards
   (unless it is shorter: refusal 1); a refused call leaves the listing buffer as it was.
   answer: accepted 0, errors, warnings, listing length; refused number, place, 0, 0 */
void puntsalak_check(const uint8_t *tree, size_t tree_len, uint8_t *scratch, size_t scratch_len,
                     uint8_t *listing, size_t listing_len, uint64_t answer[4]);

#endif
