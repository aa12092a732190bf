/* Parts of inputs that are as they should be, so that what is spoiled is still looked at. */
#ifndef FUZZ_PIECES_H
#define FUZZ_PIECES_H

#include "fuzz/spoil.h"

/* Each makes one part in a room of PIECE_MOST bytes and gives its length. */
size_t piece_frame(struct draws *draws, uint8_t *room);
size_t piece_request(struct draws *draws, uint8_t *room);
size_t piece_pull(struct draws *draws, uint8_t *room);
size_t piece_words(struct draws *draws, uint8_t *room);
size_t piece_entry(struct draws *draws, uint8_t *room);
size_t piece_sheet(struct draws *draws, uint8_t *room);

/* How many of the bytes belong together: a sample, a line, a request with its parameters, a file of a rack. */
size_t group_byte(const uint8_t *at, size_t left);
size_t group_sample(const uint8_t *at, size_t left);
size_t group_line(const uint8_t *at, size_t left);
size_t group_request(const uint8_t *at, size_t left);
size_t group_entry(const uint8_t *at, size_t left);

/* Mends what would have a stream or a sheet refused at its first look, most of the time, and what would have a server
 * do honest work for longer than a turn may take. */
void mend_stream(struct input *input, struct draws *draws);
void mend_sheet(struct input *input, struct draws *draws);
void mend_requests(struct input *input, struct draws *draws);

#endif
