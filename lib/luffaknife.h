/* Luffaknife for C and for whatever calls C: FreeCell deals, best answers and searches by a method with certificates, certificates
   checked, lists replayed and reviewed. README.md beside this file says what is promised and what nobody checks. */
#ifndef LUFFAKNIFE_H
#define LUFFAKNIFE_H

/* Those of the header, and of the program: `fc_solve --version`. That of the library is luffaknife_version(). The number is 1000000
   times the first, 1000 times the second, and the third. */
#define LUFFAKNIFE_VERSION "0.2.0"
#define LUFFAKNIFE_VERSION_NUMBER 2000

/* A call takes some 415 kB of the stack, one that solves by a method 440 kB, as measured. */

#include <stddef.h>
#include <stdint.h>
#include <stdlib.h>

#if defined(__cplusplus) || (defined(__STDC_VERSION__) && __STDC_VERSION__ >= 199901L)
#define LUFFAKNIFE_INLINE static inline
#elif defined(__GNUC__)
#define LUFFAKNIFE_INLINE static __inline__
#else
#define LUFFAKNIFE_INLINE static
#endif

#ifdef __cplusplus
extern "C" {
#endif

/* The name of a game: code 0 is FreeCell, 1 Baker's Game, and 2 more where only kings may go to an empty column; and the
   number of its cells, 0 to 4. */
struct luffaknife_game {
    uint8_t code;
    uint8_t cells;
};

/* How a board is searched by `solve`. */
struct luffaknife_method {
    uint8_t rule;      /* the home rule, by which cards are sent home at once: 0 to 2 */
    uint8_t bound;     /* 0 is the plain bound, 1 the clearing bound */
    uint8_t tenths;    /* how many tenths as much as a move a bound counts, 10 to 100: by 10 a list that wins is a shortest one */
    uint8_t expansion; /* 0 is full, 1 partial, which stores fewer positions and expands them more often */
    uint32_t budget;   /* how many positions may be stored: 1 to 4000000 */
};

/* What the text of an answer, or of a claim, tells, in numbers. */
struct luffaknife_figures {
    uint32_t kind;   /* one of luffaknife_kind */
    uint32_t moves;  /* how many moves the list that wins has; 0 where none is told */
    uint32_t floor;  /* each list that wins has at least so many, of a shortest one as many as it has; 0 where none is told */
    uint32_t budget; /* of giving up: more positions than so many can be reached; else 0 */
};

/* How a call ended. */
struct luffaknife_call {
    uint32_t status;                   /* one of luffaknife_status */
    uint32_t place;                    /* where a refusal lies, as it is told beside its number; review: which move loses; else 0 */
    struct luffaknife_figures figures; /* what the text tells, whether or not there was room for it; 0 at a refusal */
    size_t text_len;                   /* how many bytes the text has, whether or not there was room for it; 0 at a refusal */
    size_t certificate_len;            /* and the certificate: of giving up it has none */
};

enum luffaknife_kind {
    LUFFAKNIFE_KIND_NONE = 0,       /* none is told: of a deal, the boards of a list, a refusal, or a review that tells no list */
    LUFFAKNIFE_KIND_SHORTEST = 1,   /* a shortest list */
    LUFFAKNIFE_KIND_WON = 2,        /* a list that wins, and a number that each such list has at least */
    LUFFAKNIFE_KIND_CANNOT_WIN = 3, /* that no list wins */
    LUFFAKNIFE_KIND_GAVE_UP = 4     /* that the search gave up */
};

enum luffaknife_status {
    LUFFAKNIFE_DONE = 0,       /* a list that wins, a claim, the boards of a list that wins, or a deal is told */
    LUFFAKNIFE_CANNOT_WIN = 1, /* best, solve: no list wins; review: nor before the first move */
    LUFFAKNIFE_GAVE_UP = 2,    /* best, solve, review: a search gave up within its budget */
    LUFFAKNIFE_NOT_WON = 3,    /* replay: each move is allowed, and not all cards are home after them */

    LUFFAKNIFE_BAD_GAME = 16,    /* no game has this name */
    LUFFAKNIFE_BAD_DEAL = 17,    /* no deal has this number: there are 1 to 1000000 */
    LUFFAKNIFE_BAD_BUDGET = 18,  /* the budget is outside 1 to 16000000, or of `solve` 4000000 */
    LUFFAKNIFE_NO_MEMORY = 19,   /* malloc or realloc refused */
    LUFFAKNIFE_NO_ROOM = 20,     /* a text or a certificate has more bytes than its room: both rooms stay as they were */
    LUFFAKNIFE_TOO_LONG = 21,    /* a list of more than 1048576 bytes, or 4294967295 moves, or a certificate of more than 1 GiB */
    LUFFAKNIFE_NOT_A_MOVE = 22,  /* replay, review: the token of the step `place`, from 1, is no move */
    LUFFAKNIFE_NOT_ALLOWED = 23, /* replay, review: the move of the step `place` isn't allowed */
    LUFFAKNIFE_TOO_MANY_WAYS = 24, /* replay_sequences: the entries up to the step lead to more than 1000 boards */
    LUFFAKNIFE_BAD_RULE = 25,    /* solve: no home rule has this number */
    LUFFAKNIFE_BAD_BOUND = 26,   /* no bound has it */
    LUFFAKNIFE_BAD_WEIGHT = 27,  /* so many tenths are no weight */
    LUFFAKNIFE_BAD_EXPANSION = 28, /* no expansion has this number */

    LUFFAKNIFE_BOARD_TOO_LONG = 32,   /* a board's text of more than 16384 bytes, or 4096 once it is tidy */
    LUFFAKNIFE_NOT_A_CARD = 33,       /* a token of the line `place`, from 1, is no card */
    LUFFAKNIFE_NOT_A_FOUNDATION = 34, /* a token of the line is no foundation, or tells of a suit again */
    LUFFAKNIFE_TOO_MANY_CELLS = 35,   /* the line has more tokens than the game has cells */
    LUFFAKNIFE_TOO_MANY_COLUMNS = 36, /* the line has cards, and eight column lines stand before it */
    LUFFAKNIFE_REPEATED_LINE = 37,    /* the line tells of the foundations, or of the cells, again */
    LUFFAKNIFE_REPEATED_CARD = 38,    /* the card `place` stands twice: four times its rank less one, plus its suit, C D H S */
    LUFFAKNIFE_MISSING_CARD = 39,     /* the card `place` is missing */

    /* check: the names of docs/CERTIFICATE-FORMAT.md; `place` is the number in brackets */
    LUFFAKNIFE_CERT_SHORT = 48,
    LUFFAKNIFE_CERT_BAD_MAGIC = 49,
    LUFFAKNIFE_CERT_BAD_CELLS = 50,
    LUFFAKNIFE_CERT_BAD_RULE = 51,
    LUFFAKNIFE_CERT_BAD_BOUND = 52,
    LUFFAKNIFE_CERT_BAD_KIND = 53,
    LUFFAKNIFE_CERT_BAD_FLOOR = 54,
    LUFFAKNIFE_CERT_BAD_MOVE = 55,
    LUFFAKNIFE_CERT_BAD_RECORD = 56,
    LUFFAKNIFE_CERT_ORDER = 57,
    LUFFAKNIFE_CERT_LABEL = 58,
    LUFFAKNIFE_CERT_TRAILING = 59,
    LUFFAKNIFE_CERT_OTHER_GAME = 60,
    LUFFAKNIFE_CERT_NOT_ALLOWED = 61,
    LUFFAKNIFE_CERT_NOT_HOME = 62,
    LUFFAKNIFE_CERT_START_OPEN = 63,
    LUFFAKNIFE_CERT_WON_LISTED = 64,
    LUFFAKNIFE_CERT_OPEN = 65
};

/* No pointer may be null, not even beside a length of 0; a room may overlap nothing else that is handed in. */

/* Bytes that a call left behind for the caller. They are a block of malloc's, if there are any; nothing here changes or frees them. */
struct luffaknife_bytes {
    const uint8_t *bytes;
    size_t len;
};

/* Such a struct holds these before a call that takes it: what an earlier call left there is freed first, or it is lost. */
#define LUFFAKNIFE_NO_BYTES {(const uint8_t *)"", 0}

/* Frees them, and leaves LUFFAKNIFE_NO_BYTES there: the struct may be handed in again, or freed again. */
LUFFAKNIFE_INLINE void luffaknife_free(struct luffaknife_bytes *kept) {
    if (kept->len)
        free((void *)(uintptr_t)kept->bytes);
    kept->bytes = (const uint8_t *)"";
    kept->len = 0;
}

/* The name of a status, such as "NOT_ALLOWED"; "?" of a number that is none. */
LUFFAKNIFE_INLINE const char *luffaknife_status_name(uint32_t status) {
    static const char *const names[] = {
        "DONE", "CANNOT_WIN", "GAVE_UP", "NOT_WON", "?", "?", "?", "?", "?", "?", "?", "?", "?", "?", "?", "?",
        "BAD_GAME", "BAD_DEAL", "BAD_BUDGET", "NO_MEMORY", "NO_ROOM", "TOO_LONG", "NOT_A_MOVE", "NOT_ALLOWED", "TOO_MANY_WAYS",
        "BAD_RULE", "BAD_BOUND", "BAD_WEIGHT", "BAD_EXPANSION", "?", "?", "?",
        "BOARD_TOO_LONG", "NOT_A_CARD", "NOT_A_FOUNDATION", "TOO_MANY_CELLS", "TOO_MANY_COLUMNS", "REPEATED_LINE", "REPEATED_CARD",
        "MISSING_CARD", "?", "?", "?", "?", "?", "?", "?", "?",
        "CERT_SHORT", "CERT_BAD_MAGIC", "CERT_BAD_CELLS", "CERT_BAD_RULE", "CERT_BAD_BOUND", "CERT_BAD_KIND", "CERT_BAD_FLOOR",
        "CERT_BAD_MOVE", "CERT_BAD_RECORD", "CERT_ORDER", "CERT_LABEL", "CERT_TRAILING", "CERT_OTHER_GAME", "CERT_NOT_ALLOWED",
        "CERT_NOT_HOME", "CERT_START_OPEN", "CERT_WON_LISTED", "CERT_OPEN"};
    return status < sizeof names / sizeof *names ? names[status] : "?";
}

/* A move in numbers: where the card lies and where it goes. 0 to 7 are the columns, 8 to 11 the cells, 12 is home. */
struct luffaknife_move {
    uint8_t from;
    uint8_t to;
};

/* The number of a place by its letter; 255 of a letter that is none. */
LUFFAKNIFE_INLINE uint8_t luffaknife_place(uint8_t letter) {
    if (letter >= '1' && letter <= '8')
        return (uint8_t)(letter - '1');
    if (letter >= 'a' && letter <= 'd')
        return (uint8_t)(letter - 'a' + 8);
    return letter == 'h' ? 12 : 255;
}

/* The moves of an answer's text, as `best` and `solve` hand it over, put into a room; how many there are, whether or not there was room
   for them: none of a text that tells no list. */
LUFFAKNIFE_INLINE size_t luffaknife_moves(const uint8_t *text, size_t text_len, struct luffaknife_move *moves, size_t moves_room) {
    size_t at = 0, count;
    while (at < text_len && text[at] != '\n')
        at++;
    at++;
    for (count = 0; at + 1 < text_len && text[at] != '\n'; count++) {
        if (count < moves_room) {
            moves[count].from = luffaknife_place(text[at]);
            moves[count].to = luffaknife_place(text[at + 1]);
        }
        at += 2;
        if (at < text_len && text[at] == ' ')
            at++;
    }
    return count;
}

/* LUFFAKNIFE_VERSION_NUMBER of the library that is called. */
uint32_t luffaknife_version(void);

/* The columns of a numbered deal, a line each: 200 bytes at most. It is a board's text. */
struct luffaknife_call luffaknife_deal(uint32_t number, uint8_t *text, size_t text_room);

/* The best answer for a board's text within a budget, as `fc_solve best` prints it: `shortest 68` and a line of moves, `won 100,
   at least 85` and a line of moves, `can't be won` or `gave up 100000`, each line with its end; the figures say the same. No text
   seen so far had more than 1000 bytes. */
struct luffaknife_call luffaknife_best(struct luffaknife_game game, uint32_t budget, const uint8_t *board, size_t board_len,
                                       uint8_t *text, size_t text_room);

/* The same, and the certificate of the answer: 72 bytes for each position of the budget and 10000 more were always enough. One of
   more than 1 GiB, which only a budget above 14000000 can have, isn't made: then it has no byte. */
struct luffaknife_call luffaknife_best_certified(struct luffaknife_game game, uint32_t budget, const uint8_t *board,
                                                 size_t board_len, uint8_t *text, size_t text_room, uint8_t *certificate,
                                                 size_t certificate_room);

/* Both with nothing copied into a room, so that none is too small: the text and the certificate are left behind, where each struct
   shows them, and `luffaknife_free` frees them; a refused call leaves the structs as they were. */
struct luffaknife_call luffaknife_keep_best(struct luffaknife_game game, uint32_t budget, const uint8_t *board, size_t board_len,
                                            struct luffaknife_bytes *text);
struct luffaknife_call luffaknife_keep_best_certified(struct luffaknife_game game, uint32_t budget, const uint8_t *board,
                                                      size_t board_len, struct luffaknife_bytes *text,
                                                      struct luffaknife_bytes *certificate);

/* The answer of one search by a method, as `fc_solve solve` prints it, in the same four ways. What is won by more than ten tenths is
   no more than so many times a shortest list. */
struct luffaknife_call luffaknife_solve(struct luffaknife_game game, struct luffaknife_method method, const uint8_t *board,
                                        size_t board_len, uint8_t *text, size_t text_room);
struct luffaknife_call luffaknife_solve_certified(struct luffaknife_game game, struct luffaknife_method method,
                                                  const uint8_t *board, size_t board_len, uint8_t *text, size_t text_room,
                                                  uint8_t *certificate, size_t certificate_room);
struct luffaknife_call luffaknife_keep_solve(struct luffaknife_game game, struct luffaknife_method method, const uint8_t *board,
                                             size_t board_len, struct luffaknife_bytes *text);
struct luffaknife_call luffaknife_keep_solve_certified(struct luffaknife_game game, struct luffaknife_method method,
                                                       const uint8_t *board, size_t board_len, struct luffaknife_bytes *text,
                                                       struct luffaknife_bytes *certificate);

/* The claim that a certificate proves of a board's text, as `fc_solve check` prints it: `accepted: shortest 68`; the
   figures say the same. */
struct luffaknife_call luffaknife_check(struct luffaknife_game game, const uint8_t *board, size_t board_len,
                                        const uint8_t *certificate, size_t certificate_len, uint8_t *text, size_t text_room);

/* The boards after the first move of a list, the second, and so on, as `fc_solve replay` prints them: some 250 bytes each. Here and
   below a list may be the text of an answer that `best` or `solve` hands over: its moves are taken. */
struct luffaknife_call luffaknife_replay(struct luffaknife_game game, const uint8_t *board, size_t board_len, const uint8_t *list,
                                         size_t list_len, uint8_t *text, size_t text_room);

/* The same of a list whose entries may move several cards, as `fc_solve replay --sequences` plays it: `v` and a hexadecimal number
   behind the two letters say how many; where an entry to an empty column doesn't say, it is so many that the whole list can be
   played, to a won board if it can. The boards are those after each one-card move. */
struct luffaknife_call luffaknife_replay_sequences(struct luffaknife_game game, const uint8_t *board, size_t board_len,
                                                   const uint8_t *list, size_t list_len, uint8_t *text, size_t text_room);

/* Which move of a list loses, or how good one is that wins, by best answers within a budget, as `fc_solve review` prints it on one
   line. `place` is the number of the move that loses, from 1, where one is known to: some list wins from the board before it, and
   none from the board after it. The figures of a list that wins are its own: how many moves it has, and what the floor says of it, or
   that the search gave up. Else they are those of the best answer from the last board on the way from which a list is told, if there
   is one: where a move loses, from the board before it. The status is LUFFAKNIFE_DONE where all is known, LUFFAKNIFE_CANNOT_WIN where
   the board can't be won before the first of the moves, and LUFFAKNIFE_GAVE_UP where searches gave up. The list has one-card moves;
   moves home that it leaves out are put in, and count. No more moves are told in numbers than 4294967295. */
struct luffaknife_call luffaknife_review(struct luffaknife_game game, uint32_t budget, const uint8_t *board, size_t board_len,
                                         const uint8_t *list, size_t list_len, uint8_t *text, size_t text_room);
struct luffaknife_call luffaknife_keep_review(struct luffaknife_game game, uint32_t budget, const uint8_t *board, size_t board_len,
                                              const uint8_t *list, size_t list_len, struct luffaknife_bytes *text);

#ifdef __cplusplus
}
#endif

#endif
