/*
 * The mark-book corrector, for C and C++.
 *
 * Every function takes any bytes and any numbers: what it cannot use it refuses with a number, and a call that is refused
 * writes to no place. The pointers must be good: each `const uint8_t *` has as many readable bytes behind it as the length
 * that follows it says, each `uint8_t *` as many writable ones, and each pointer to a struct or a number points to one. No
 * pointer is null, not even with a length of 0. What a function writes overlaps nothing else that it is lent.
 *
 * The library keeps nothing between calls and has no global state, so calls on different bytes may run side by side. Only
 * markbook_list_dates and markbook_run ask for memory (malloc, realloc and free of the program), and they free it before
 * they return.
 *
 * The rules of the page, of dates, positions, scores and of the reader are in docs/ of the repository.
 */
#ifndef MARKBOOK_H
#define MARKBOOK_H

#include <stddef.h>
#include <stdint.h>

#ifdef __cplusplus
extern "C" {
#endif

/* What a call answers. 0 is done; 1 to 13 are the refusals of the corrector, the last two those of this interface. */
enum {
    MARKBOOK_DONE = 0,
    MARKBOOK_SHORT = 1,        /* page: it ends where a byte is due */
    MARKBOOK_COUNT = 2,        /* page: a count is out of its range */
    MARKBOOK_SYMBOL = 3,       /* page: a symbol is out of its range */
    MARKBOOK_TWICE = 4,        /* page: a symbol comes twice in a cell */
    MARKBOOK_ORDER = 5,        /* page: a penalty is below the one before it in its cell */
    MARKBOOK_EXCESS = 6,       /* page: bytes are left behind the last line */
    MARKBOOK_SCORE = 7,        /* load: the score does not take the line */
    MARKBOOK_NO_LINE = 8,      /* grant, next: no line is loaded */
    MARKBOOK_GRANT = 9,        /* grant: it is 0, or cells times all that is granted passes 4095 */
    MARKBOOK_PLACE = 10,       /* the place is too short */
    MARKBOOK_POSITION = 11,    /* the text or the pair is no position */
    MARKBOOK_TABLE = 12,       /* the limits of the sheet are out of order or out of range */
    MARKBOOK_LINE_NUMBER = 13, /* load: the page has no line of this number */
    MARKBOOK_MEMORY = 100,     /* memory was wanting */
    MARKBOOK_UNKNOWN = 101     /* a grammar, a score or a call has a number that is none of those below */
};

/* Stands where there is no such number: no line, no cell, no byte place. */
#define MARKBOOK_NONE SIZE_MAX

/* What is said of a page. */
typedef struct markbook_checked {
    size_t lines; /* how many lines a good page has; 0 of a bad page */
    size_t place; /* bad page: the place of the byte judged, else MARKBOOK_NONE */
    size_t line;  /* bad page: the line that it was met in, or MARKBOOK_NONE: the count of lines, or an excess */
    size_t cell;  /* bad page: the cell that it was met in, or MARKBOOK_NONE */
} markbook_checked;

/* Judges a page. Answers MARKBOOK_DONE, or the number of the first thing wrong, MARKBOOK_SHORT to MARKBOOK_EXCESS. It writes
 * *checked whatever it answers. */
uint8_t markbook_check_page(const uint8_t *page, size_t page_length, markbook_checked *checked);

/* Writes the list of a page from the place's start: a header, and for each line of the page the first date that is found
 * on it, each in a line of its own; or of a bad page the line `refused N at B`, N the number and B the byte place of its
 * fault. *written is then the number of bytes, and the rest of the place is left.
 * Answers MARKBOOK_DONE, of a bad page too; MARKBOOK_MEMORY; or MARKBOOK_PLACE, where the place has fewer than 2048 bytes. In
 * the last two cases nothing is written. Where memory is wanting that is what it answers, also of a place too short. */
uint8_t markbook_list_dates(const uint8_t *page, size_t page_length, uint8_t *place, size_t place_length, size_t *written);

/* Reads a position text of 17 symbols, DDMMTTTH and DDDMMTTTH, as two numbers in thousandths of a minute, south and west
 * negative: latitudes from -5400000 to 5400000, longitudes from -10799999 to 10800000.
 * Answers MARKBOOK_DONE, or MARKBOOK_POSITION, and then writes nothing. */
uint8_t markbook_read_position(const uint8_t *text, size_t text_length, int32_t *latitude, int32_t *longitude);

/* Writes the text of a position from the place's start; *written is then 17, and the rest of the place is left.
 * Answers MARKBOOK_DONE; MARKBOOK_POSITION, where a number is out of its range; or MARKBOOK_PLACE, where the place has
 * fewer than 17 bytes. In the last two cases nothing is written. The numbers are judged before the place. */
uint8_t markbook_write_position(int32_t latitude, int32_t longitude, uint8_t *place, size_t place_length, size_t *written);

/* Which texts are sought. */
enum {
    MARKBOOK_DATES = 1,     /* DDMMYYYY, the days from 1 January 1900 to 31 December 2099 */
    MARKBOOK_POSITIONS = 2, /* a latitude DDMMTTTH and behind it a longitude DDDMMTTTH, 17 symbols */
    MARKBOOK_ON_SHEET = 3   /* of these the ones inside the limits of the sheet or on them. An opening is allowed when it is one of a
                               position, and the sheet allows it too */
};

/* How totals are made. */
enum {
    MARKBOOK_SUM = 1,   /* the sum of the penalties; lower is better */
    MARKBOOK_SHARES = 2 /* the product of the shares 100 - penalty; higher is better */
};

/* What a run seeks. The limits count for MARKBOOK_ON_SHEET alone: thousandths of a minute, south and west negative. */
typedef struct markbook_seeking {
    uint32_t grammar;
    uint32_t score;
    int32_t south;
    int32_t north;
    int32_t west;
    int32_t east;
} markbook_seeking;

/* What a row asks for. */
enum {
    MARKBOOK_LOAD = 1,  /* takes a line out of a page: start and length say which of the lent pages' bytes are the page, number
                           is the line's, from 0. Granted, looked and handed are then 0 */
    MARKBOOK_GRANT_MORE = 2, /* lets `number` more chains be looked at */
    MARKBOOK_NEXT = 3,  /* looks for the next best reading, and writes it from the start of its place: start and length say
                           which of the lent places' bytes are the place */
    MARKBOOK_REPORT = 4 /* tells cells, granted, looked, handed, places */
};

/* What came of a row. */
enum {
    MARKBOOK_NOT_MADE = 0,  /* no run leaves it in a row: for whoever fills in the rows */
    MARKBOOK_LOADED = 1,
    MARKBOOK_GRANTED = 2,
    MARKBOOK_FOUND = 3,     /* `written` bytes of the place are the reading */
    MARKBOOK_SPENT = 4,     /* the grant is used up, and a live chain is left */
    MARKBOOK_EXHAUSTED = 5, /* no live chain is left */
    MARKBOOK_REPORTED = 6,
    MARKBOOK_REFUSED = 7    /* `refused` says why; nothing has changed */
};

/* A part that reaches past the end of the bytes lent is cut off there, and one that begins past it is empty. A number that a
 * call has no use for may be any. */
typedef struct markbook_asked {
    uint32_t call;
    size_t start;
    size_t length;
    size_t number;
} markbook_asked;

/* What is of no use for the outcome is 0, and place, line and cell are MARKBOOK_NONE, as in markbook_checked. */
typedef struct markbook_came {
    uint32_t outcome;
    uint32_t refused; /* MARKBOOK_REFUSED: the number of the refusal, 1 to 10 or 13 */
    size_t place;     /* refused with 1 to 6: what markbook_checked says of the page, counted from the start of the page */
    size_t line;
    size_t cell;
    size_t written;   /* MARKBOOK_FOUND: as many bytes as the line has cells */
    size_t cells;     /* MARKBOOK_REPORTED: the line's cells, and what was granted, looked at and handed out since the load */
    size_t granted;
    size_t looked;
    size_t handed;
    size_t places;    /* how many places of the bench are in use */
} markbook_came;

typedef struct markbook_row {
    markbook_asked asked;
    markbook_came came;
} markbook_row;

/* Makes a new reader, makes the calls of the rows on it, one after another, and writes what came of each into its row.
 * What is asked stays as it is.
 * Answers MARKBOOK_DONE; MARKBOOK_UNKNOWN, where the grammar, the score or the call of a row has an unknown number;
 * MARKBOOK_TABLE, where a sheet is sought and its limits are out of order or out of range; or MARKBOOK_MEMORY. In the last
 * three cases nothing is written, and the rows keep what stood in them. The numbers of all rows are judged first, then the
 * limits, before any call is made; memory is asked for last. */
uint8_t markbook_run(const markbook_seeking *seeking, const uint8_t *pages, size_t pages_length, uint8_t *places,
                     size_t places_length, markbook_row *rows, size_t rows_length);

#ifdef __cplusplus
}
#endif

#endif
