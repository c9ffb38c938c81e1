/* One call as a value: what a caller asks of an engine, and how much it lends. */
#ifndef ASK_H
#define ASK_H

#include "plain.h"

enum action { CLEAR, OPEN, MESSAGE, SUBLIMIT, STATUS, TICK, CLOSE, CLOSING };

enum { LONGEST = 8192, MOST_ROOM = PLAIN_ROOM + 64, MOST_ROWS = PLAIN_ROWS + 8 };

struct ask {
    enum action action;
    int quick;
    uint64_t clock;
    size_t room, rows;
    uint64_t sender, bank, cents, bin[2], letter, date;
    uint8_t text[LONGEST]; /* of a message, or a book */
    size_t length;
};

#endif
