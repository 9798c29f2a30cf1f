/* The second program's jobs for C, of the same form as those of pluck.h, which says what each takes and hands back. Link the static library of this
   folder: `cargo build --release --offline` makes target/second/release/libsecond_calls.a at the top of the repository. */
#ifndef SECOND_H
#define SECOND_H

#include <stddef.h>
#include <stdint.h>

uint8_t second_encode(uint8_t p, const uint8_t *points, size_t points_len, const uint8_t *message, size_t message_len, uint8_t *word,
                      size_t word_len);

uint8_t second_start(uint8_t p, const uint8_t *points, size_t points_len, const uint8_t *word, size_t word_len, uint8_t k, uint8_t m, uint8_t l,
                     uint8_t *rows, size_t rows_len, uint8_t *note, size_t note_len);

uint8_t second_turn(uint8_t *note, size_t note_len, uint8_t *rows, size_t rows_len, uint16_t allowance, uint8_t *back, size_t back_len);

uint8_t second_finish(const uint8_t *note, size_t note_len, const uint8_t *rows, size_t rows_len, uint8_t *curve, size_t curve_len,
                      uint8_t *back, size_t back_len);

uint8_t second_list(uint8_t p, const uint8_t *points, size_t points_len, const uint8_t *word, size_t word_len, uint8_t k, uint8_t m, uint8_t l,
                    uint8_t t, uint8_t *room, size_t room_len, uint8_t *messages, size_t messages_len, uint8_t *back, size_t back_len);

#endif
