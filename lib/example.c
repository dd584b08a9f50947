/* Deals 941, looks for the best answer, has its certificate checked, and plays the list; then asks what can't be asked.
   lib/install ~/.local
   cc -I ~/.local/include lib/example.c ~/.local/lib/libluffaknife.a -o /tmp/example && /tmp/example 941 */
#include <errno.h>
#include <stdio.h>
#include <stdlib.h>
#include <string.h>

#include "luffaknife.h"

enum { TEXT_ROOM = 65536, BUDGET = 500000, CERTIFICATE_ROOM = 72 * BUDGET + 10000 };

static const struct luffaknife_game FREE_CELL = {0, 4};

/* The number of a word, 0 of one that is none or more than four bytes have room for: no deal has the number 0. */
static uint32_t number_of(const char *word) {
    char *end;
    errno = 0;
    unsigned long number = strtoul(word, &end, 10);
    return errno || *end || number > UINT32_MAX ? 0 : (uint32_t)number;
}

int main(int count, char **words) {
    uint32_t number = count > 1 ? number_of(words[1]) : 941;
    uint8_t board[200], text[TEXT_ROOM], told[TEXT_ROOM], *certificate = malloc(CERTIFICATE_ROOM);
    if (!certificate)
        return 4;
    struct luffaknife_call call = luffaknife_deal(number, board, sizeof board);
    if (call.status != LUFFAKNIFE_DONE) {
        printf("no deal: %s\n", luffaknife_status_name(call.status));
        return 3;
    }
    size_t board_len = call.text_len;

    call = luffaknife_best_certified(FREE_CELL, BUDGET, board, board_len, text, sizeof text, certificate, CERTIFICATE_ROOM);
    size_t text_len = call.text_len, certificate_len = call.certificate_len;
    printf("best: %u\n%.*s", call.status, (int)text_len, text);
    printf("kind %u: %u moves, at least %u\n", call.figures.kind, call.figures.moves, call.figures.floor);
    struct luffaknife_move moves[2];
    size_t move_count = luffaknife_moves(text, text_len, moves, 2);
    if (move_count > 1)
        printf("%zu moves, from %u to %u, from %u to %u ..\n", move_count, moves[0].from, moves[0].to, moves[1].from, moves[1].to);
    printf("a certificate of %zu bytes\n", certificate_len);
    call = luffaknife_check(FREE_CELL, board, board_len, certificate, certificate_len, told, sizeof told);
    printf("check: %u, %.*s", call.status, (int)call.text_len, told);

    struct luffaknife_bytes kept = LUFFAKNIFE_NO_BYTES, kept_certificate = LUFFAKNIFE_NO_BYTES;
    call = luffaknife_keep_best_certified(FREE_CELL, BUDGET, board, board_len, &kept, &kept_certificate);
    printf("kept: %u, %s\n", call.status, kept.len == text_len && !memcmp(kept.bytes, text, text_len) ? "the same text" : "another text");
    printf("%s\n", kept_certificate.len == certificate_len && !memcmp(kept_certificate.bytes, certificate, certificate_len)
                       ? "the same certificate" : "another certificate");
    luffaknife_free(&kept);
    luffaknife_free(&kept_certificate);
    call = luffaknife_keep_best(FREE_CELL, 0, board, board_len, &kept);
    printf("refused, and freed again: %u, %zu bytes\n", call.status, kept.len);
    luffaknife_free(&kept);

    call = luffaknife_replay(FREE_CELL, board, board_len, text, text_len, told, sizeof told);
    printf("replay: %u, %zu bytes of boards\n", call.status, call.text_len);

    certificate[0] = 'G';
    call = luffaknife_check(FREE_CELL, board, board_len, certificate, certificate_len, told, sizeof told);
    printf("another first byte: %u\n", call.status);
    call = luffaknife_replay(FREE_CELL, board, board_len, (const uint8_t *)"1a 1b 99", 8, told, sizeof told);
    printf("a list that stops: %s at %u\n", luffaknife_status_name(call.status), call.place);
    call = luffaknife_best(FREE_CELL, BUDGET, board, board_len, text, 5);
    printf("a room of 5 bytes: %u for %zu\n", call.status, call.text_len);
    call = luffaknife_best((struct luffaknife_game){7, 4}, BUDGET, board, board_len, text, sizeof text);
    printf("no such game: %u\n", call.status);
    call = luffaknife_best(FREE_CELL, 0, board, board_len, text, sizeof text);
    printf("no budget: %u\n", call.status);
    call = luffaknife_best(FREE_CELL, BUDGET, (const uint8_t *)"QQ\n", 3, text, sizeof text);
    printf("no board: %u at %u\n", call.status, call.place);
    free(certificate);
    return luffaknife_version() == LUFFAKNIFE_VERSION_NUMBER ? 0 : 1;
}
