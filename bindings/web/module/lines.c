/*
 * The lines of bytes that are in the room of the text, checked in one call, alone or against the base that is held: a
 * row for each that isn't valid. A line ends as urlcheck_next_refused ends it, and an empty one is passed over.
 */
#include "glue.h"

uint64_t proved_next_refused(urlcheck_line *answer, const uint8_t *lines, size_t length, size_t from, uint32_t profile)
    PROVED("next_refused");

/* A line that isn't valid: its number from 1, where its text is, in bytes, and what was found of it. */
typedef struct {
    uint32_t line, start, length, verdict, rule, place, byte_place;
} refused_line;

/* Where urlcheck.js reads the rows: it knows these numbers. */
_Static_assert(sizeof(refused_line) == 7 * 4 && offsetof(refused_line, byte_place) == 6 * 4, "layout");

/* What was found of lines: URLCHECK_DONE, or why those from `next` on aren't checked; and how many there are. */
typedef struct {
    urlcheck_finding found;
    uint32_t lines;   /* how many lines were checked or passed over */
    uint32_t empty;   /* how many of them are empty, and were passed over */
    uint32_t refused; /* the number of lines that aren't valid; their rows are at `out` */
    uint32_t next;    /* where the line after them begins */
} lines_checked;

/* The rows that a call has room for: 112 KB. If there are more, lines.js calls again from the line after them. */
enum { ROWS = 4096 };

/* The first line from `from` on: where its text begins, how long that is, and where the next line begins. */
static urlcheck_line first_line(const uint8_t *lines, size_t length, size_t from) {
    size_t end = from;
    while (end < length && lines[end] != '\n') end++;
    bool is_closed = end < length;
    size_t text_end = is_closed && end > from && lines[end - 1] == '\r' ? end - 1 : end;
    return (urlcheck_line){.start = from, .length = text_end - from, .next = is_closed ? end + 1 : end};
}

/* The next line that is empty or isn't valid against the base that is held: urlcheck_next_refused gives only it. */
static urlcheck_line next_refused_with(const uint8_t *lines, size_t length, size_t from) {
    size_t passed = 0;
    for (size_t at = from; at < length; passed++) {
        urlcheck_line line = first_line(lines, length, at);
        const uint8_t *text = lines + line.start;
        urlcheck_answer checked;
        proved_check(&checked, text, line.length, held.profile, &held, true);
        if (line.length == 0 || checked.found.verdict != URLCHECK_VALID) {
            line.found = checked.found;
            line.passed = passed;
            return line;
        }
        at = line.next;
    }
    return (urlcheck_line){.start = length, .next = length, .passed = passed};
}

/* The next line that is empty or isn't valid, alone or against the base. */
static urlcheck_line next_refused(const uint8_t *lines, size_t length, size_t from, bool is_held, uint32_t profile) {
    if (is_held) return next_refused_with(lines, length, from);
    urlcheck_line line;
    proved_next_refused(&line, lines, length, from, profile);
    return line;
}

/* Takes the valid lines before a line, and the line itself, if there is one. */
static void take(lines_checked *checked, const urlcheck_line *line) {
    checked->lines += (uint32_t)line->passed;
    checked->next = (uint32_t)line->next;
    if (line->start == line->next) return;
    checked->lines++;
    if (line->length == 0) {
        checked->empty++;
        return;
    }
    const urlcheck_finding *found = &line->found;
    ((refused_line *)out)[checked->refused++] = (refused_line){
        checked->lines, (uint32_t)line->start, (uint32_t)line->length, found->verdict, found->rule,
        (uint32_t)found->place, (uint32_t)found->byte_place};
}

/* Takes the valid lines before a line that found no memory. */
static void take_before(lines_checked *checked, const urlcheck_line *line) {
    checked->lines += (uint32_t)line->passed;
    checked->next = (uint32_t)line->start;
}

/*
 * Checks the lines from the byte `from` on, as many as the rows have room for. What the lines before took of the heap
 * is given up if a line finds no memory, and before each row: so only a line that has none by itself ends the call.
 */
void check_lines(uint32_t length, uint32_t from, uint32_t profile, uint32_t is_held) {
    heap_empty();
    if (!takes_out(heap_mark(), ROWS * sizeof(refused_line))) return;
    uint64_t mark = heap_mark();
    lines_checked checked = {.found = {.verdict = URLCHECK_DONE}, .next = from};
    while (checked.next < length && checked.refused < ROWS) {
        heap_return(mark);
        urlcheck_line line = next_refused(heap_text(), length, checked.next, is_held, profile);
        uint32_t verdict = line.found.verdict;
        if (verdict <= URLCHECK_NO_UTF8) {
            take(&checked, &line);
            continue;
        }
        take_before(&checked, &line);
        if (verdict == URLCHECK_MEMORY && line.passed > 0) continue;
        checked.found = line.found;
        break;
    }
    say(&checked.found, checked.refused);
    answer[LINES] = checked.lines;
    answer[EMPTY_LINES] = checked.empty;
    answer[NEXT_LINE] = checked.next;
}
