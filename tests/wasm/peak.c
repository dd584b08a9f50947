/* How many bytes of memory the native library takes from the system for deal 617 within 500,000, at most, touched or not. */
#include <stdio.h>

#include "luffaknife.h"

/* The most memory that this process has had, in kB. */
static long most(void) {
    FILE *status = fopen("/proc/self/status", "r");
    char line[200];
    long size = 0;
    while (status && fgets(line, sizeof line, status))
        sscanf(line, "VmPeak: %ld", &size);
    if (status)
        fclose(status);
    return size;
}

int main(void) {
    struct luffaknife_game game = {0, 4};
    struct luffaknife_bytes text = LUFFAKNIFE_NO_BYTES;
    uint8_t board[200];
    size_t size = luffaknife_deal(617, board, sizeof board).text_len;
    long before = most();
    luffaknife_keep_best(game, 500000, board, size, &text);
    printf("%ld\n", (most() - before) * 1024);
    luffaknife_free(&text);
    return 0;
}
