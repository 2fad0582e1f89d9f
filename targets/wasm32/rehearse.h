/* The rehearsal of a board, as rehearse.wasm exports it: what the program rehearse prints of a script. The caller lends places for the
   frames under way and for the text; the answer is how many bytes of the text are printed. No pointer is null. */
#ifndef OCB_REHEARSE_H
#define OCB_REHEARSE_H

#include <stddef.h>
#include <stdint.h>

#define OCB_REHEARSE_SCRIPT 4097 /* bytes of a script that are read: one more than one may have */
#define OCB_REHEARSE_PLACES 34816
#define OCB_REHEARSE_TEXT 65536

uint32_t ocb_rehearse(uint8_t places[OCB_REHEARSE_PLACES], uint8_t text[OCB_REHEARSE_TEXT], const uint8_t *script, size_t size);

#endif
