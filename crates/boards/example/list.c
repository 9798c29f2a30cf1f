/* The shortest use: all messages near a received word, for the request of crates/listing/stdin. The script `run` beside it builds and runs
   it, and compares what it prints with list.out. */
#include "pluck.h"
#include <stdio.h>

int main(void) {
    enum { P = 7, K = 2, M = 1, L = 1, T = 2 };
    const uint8_t points[] = {1, 2, 3}, word[] = {1, 2, 3};
    static uint8_t room[PLUCK_WORKING_ROOM], messages[PLUCK_MESSAGES_BYTES(K, L)];
    uint8_t back[PLUCK_BACK_BYTES];
    uint8_t number = pluck_list(P, points, sizeof points, word, sizeof word, K, M, L, T, room, sizeof room,
                                messages, sizeof messages, back, sizeof back);
    if (number != PLUCK_DONE) return number;
    for (int i = 0; i < back[PLUCK_BACK_COUNT]; i++)
        printf("message=%d,%d\n", messages[K * i], messages[K * i + 1]);
    return 0;
}
