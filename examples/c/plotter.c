/* A small plotter: reads a page file, takes a line of it to its second best date, and prints what it found. */

#include <inttypes.h>
#include <stdio.h>
#include <stdlib.h>
#include <string.h>

#include "markbook.h"

/* No page is longer: 40 lines of 24 cells of 8 alternatives, with their counts. */
enum { PAGE_MOST = 1 + 40 * (1 + 24 * (1 + 8 * 3)), LINE_MOST = 24 };

enum { LOAD, GRANT, FIRST, SECOND, REPORT, ROWS };

/* Reads the file into the page, and one byte more if it has more, so that an overlong page is refused and not cut off. */
static size_t read_page(const char *path, uint8_t *page, size_t room)
{
    FILE *file = fopen(path, "rb");
    if (file == NULL) {
        perror(path);
        exit(1);
    }
    size_t length = fread(page, 1, room, file);
    int failed = ferror(file);
    fclose(file);
    if (failed) {
        fprintf(stderr, "%s: not read whole\n", path);
        exit(1);
    }
    return length;
}

static void print_next(const char *which, const markbook_came *came, const uint8_t *place)
{
    switch (came->outcome) {
    case MARKBOOK_FOUND:
        printf("%s %.*s\n", which, (int)came->written, (const char *)place);
        break;
    case MARKBOOK_SPENT:
        printf("%s none: the grant is used up\n", which);
        break;
    case MARKBOOK_EXHAUSTED:
        printf("%s none: there is no other\n", which);
        break;
    default:
        printf("%s refused %" PRIu32 "\n", which, came->refused);
    }
}

int main(int argc, char **argv)
{
    if (argc != 3) {
        fprintf(stderr, "usage: %s PAGE LINE\n", argv[0]);
        return 2;
    }
    char *end;
    size_t number = strtoull(argv[2], &end, 10);
    if (end == argv[2] || *end != '\0') {
        fprintf(stderr, "%s is no line number\n", argv[2]);
        return 2;
    }

    static uint8_t page[PAGE_MOST + 1];
    size_t length = read_page(argv[1], page, sizeof page);
    markbook_checked checked;
    uint8_t refused = markbook_check_page(page, length, &checked);
    if (refused != MARKBOOK_DONE) {
        printf("refused %u at %zu\n", refused, checked.place);
        return 1;
    }
    printf("page of %zu lines\n", checked.lines);

    markbook_seeking seeking = {.grammar = MARKBOOK_DATES, .score = MARKBOOK_SUM};
    uint8_t places[2 * LINE_MOST] = {0};
    markbook_row rows[ROWS] = {
        [LOAD] = {.asked = {.call = MARKBOOK_LOAD, .start = 0, .length = length, .number = number}},
        [GRANT] = {.asked = {.call = MARKBOOK_GRANT_MORE, .number = 170}},
        [FIRST] = {.asked = {.call = MARKBOOK_NEXT, .start = 0, .length = LINE_MOST}},
        [SECOND] = {.asked = {.call = MARKBOOK_NEXT, .start = LINE_MOST, .length = LINE_MOST}},
        [REPORT] = {.asked = {.call = MARKBOOK_REPORT}},
    };
    uint8_t answer = markbook_run(&seeking, page, length, places, sizeof places, rows, ROWS);
    if (answer != MARKBOOK_DONE) {
        fprintf(stderr, "the run was not made: %u\n", answer);
        return 1;
    }
    if (rows[LOAD].came.outcome == MARKBOOK_REFUSED) {
        printf("line %zu refused %" PRIu32 "\n", number, rows[LOAD].came.refused);
        return 1;
    }
    print_next("best", &rows[FIRST].came, places);
    print_next("second", &rows[SECOND].came, places + LINE_MOST);
    printf("looked at %zu of %zu granted\n", rows[REPORT].came.looked, rows[REPORT].came.granted);
    return 0;
}
