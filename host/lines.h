/*
 * A line of text and its fields, and the exact numbers that fields hold. What cannot be read leaves
 * in the line where that is, in which field, and why.
 */
#ifndef LINES_H
#define LINES_H

#include <stdbool.h>
#include <stddef.h>
#include <stdint.h>
#include <stdio.h>
#include <string.h>

/* More bytes cannot be read. */
#define LINE_LENGTH 4096

struct line {
    char text[LINE_LENGTH];
    size_t len;
    bool is_longer;      /* than can be held */
    size_t at;           /* where the next field is looked for */
    size_t fault_at;     /* where the line could not be read, */
    const char *field;   /* in which field, */
    const char *trouble; /* and why */
};

/* A part of the line's text without blanks; of length 0 at the line's end. */
struct field {
    const char *text;
    size_t len;
};

/* Reads the next line without its end; false where none is left or the file cannot be read. */
static inline bool next_line(FILE *file, struct line *line) {
    int c = getc(file);
    *line = (struct line){.len = 0};
    if (c == EOF) {
        return false;
    }
    for (; c != EOF && c != '\n'; c = getc(file)) {
        if (line->len == LINE_LENGTH) {
            line->is_longer = true;
        } else {
            line->text[line->len++] = (char)c;
        }
    }
    if (!line->is_longer && c == '\n' && line->len > 0 && line->text[line->len - 1] == '\r') {
        line->len--;
    }
    return !ferror(file);
}

static inline bool fault_at(struct line *line, size_t at, const char *field, const char *trouble) {
    line->fault_at = at;
    line->field = field;
    line->trouble = trouble;
    return false;
}

static inline size_t place_of(const struct line *line, struct field field) {
    return (size_t)(field.text - line->text);
}

static inline bool fault(struct line *line, struct field at, const char *field,
                         const char *trouble) {
    return fault_at(line, place_of(line, at), field, trouble);
}

/* Whether the line is one that fields can be taken of. */
static inline bool is_text(struct line *line) {
    if (line->len >= 3 && memcmp(line->text, "\xEF\xBB\xBF", 3) == 0) {
        return fault_at(line, 0, "line",
                        "begins with a UTF-8 mark (bytes EF BB BF): save the file without it");
    }
    for (size_t i = 0; i < line->len; i++) {
        unsigned char c = (unsigned char)line->text[i];
        if ((c < ' ' && c != '\t') || c == 127) {
            return fault_at(line, i, "line", "has a control character");
        }
    }
    return !line->is_longer || fault_at(line, LINE_LENGTH, "line", "has more than 4096 bytes");
}

/* ---- fields ---- */

static inline bool is_blank(char c) { return c == ' ' || c == '\t'; }

static inline bool is_digit(char c) { return c >= '0' && c <= '9'; }

static inline bool is(struct field field, const char *word) {
    return field.len == strlen(word) && memcmp(field.text, word, field.len) == 0;
}

/* The field that comes next, which stays the next one. */
static inline struct field next_field(const struct line *line) {
    size_t start = line->at;
    while (start < line->len && is_blank(line->text[start])) {
        start++;
    }
    size_t end = start;
    if (end < line->len && line->text[end] == ';') {
        end++;
    } else if (end < line->len && line->text[end] != '#') {
        while (end < line->len && !is_blank(line->text[end]) && line->text[end] != ';') {
            end++;
        }
    }
    return (struct field){line->text + start, end - start};
}

static inline void pass(struct line *line, struct field field) {
    line->at = place_of(line, field) + field.len;
}

/* The next field, which the line must have: neither its end nor the leg's. */
static inline bool take(struct line *line, const char *name, struct field *field) {
    *field = next_field(line);
    if (field->len == 0 || is(*field, ";")) {
        return fault(line, *field, name, "is missing");
    }
    pass(line, *field);
    return true;
}

static inline bool is_at_end(struct line *line) {
    struct field rest = next_field(line);
    return rest.len == 0 || fault(line, rest, "line", "has a field that does not belong here");
}

/* ---- numbers, exact: they are read whole, or not at all ---- */

static const char too_large[] = "is too large to be read";
static const char more_decimals[] = "has more than three decimals";

static inline struct field without(struct field field, size_t first) {
    return (struct field){field.text + first, field.len - first};
}

/* Appends the digits that a field begins with to a number; gives how many, and if it still fits. */
static inline size_t read_digits(struct field field, uint64_t *number, bool *fits) {
    size_t i = 0;
    for (; i < field.len && is_digit(field.text[i]); i++) {
        uint64_t digit = (uint64_t)(field.text[i] - '0');
        *fits = *fits && *number <= (UINT64_MAX - digit) / 10;
        *number = *number * 10 + digit;
    }
    return i;
}

/* Digits alone. Gives what is wrong with them, or NULL. */
static inline const char *read_whole(struct field field, uint64_t *number) {
    bool fits = true;
    *number = 0;
    size_t digits = read_digits(field, number, &fits);
    if (digits == 0 || digits != field.len) {
        return "is not a whole number";
    }
    return fits ? NULL : too_large;
}

/* Dollars without a sign, as mills. Gives what is wrong with them, or NULL. */
static inline const char *read_dollars(struct field field, uint64_t *mills) {
    static const char not_dollars[] = "is not a number of dollars, such as 1.25";
    bool fits = true;
    *mills = 0;
    size_t whole = read_digits(field, mills, &fits);
    size_t decimals = 0;
    if (whole == 0) {
        return not_dollars;
    }
    field = without(field, whole);
    if (field.len > 0) {
        decimals = field.text[0] == '.' ? read_digits(without(field, 1), mills, &fits) : 0;
        if (decimals == 0 || decimals + 1 != field.len) {
            return not_dollars;
        }
    }
    if (decimals > 3) {
        return more_decimals;
    }
    struct field zeros = {"000", 3 - decimals};
    read_digits(zeros, mills, &fits);
    return fits ? NULL : too_large;
}

/* The sign that a field begins with, or 0. */
static inline char sign_of(struct field field) {
    return field.len > 0 && (field.text[0] == '+' || field.text[0] == '-') ? field.text[0] : 0;
}

/* A size with its sign. Gives what is wrong with it, or NULL. */
static inline const char *with_sign(char sign, uint64_t size, int64_t *number) {
    if (size > (uint64_t)INT64_MAX + (sign == '-' ? 1 : 0)) {
        return too_large;
    }
    /* The least number has a size that is no int64_t. */
    *number = sign == '-' && size > 0 ? -(int64_t)(size - 1) - 1 : (int64_t)size;
    return NULL;
}

#endif
