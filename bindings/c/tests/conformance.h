/* Words of the lines of a table, and the names of codes, for the test of conformance. */
#ifndef CONFORMANCE_H
#define CONFORMANCE_H

#include "folugben.h"

#include <inttypes.h>
#include <stdio.h>
#include <stdlib.h>
#include <string.h>

enum { AGENTS = 257, WORDS = 8, LINE = 1 << 20, ROOM = 1 << 22 };

/* A word of a line as it is there, also of a text without a zero byte at its end. */
struct word {
    char *at;
    size_t len;
};

#define BYTES(word) (const uint8_t *)(word).at, (word).len

static inline void fail(const char *what) {
    fprintf(stderr, "conformance: %s\n", what);
    exit(1);
}

static inline const char *name_of(int32_t code) {
#define NAME(it) [ASM_##it] = #it
    static const char *const names[] = {NAME(FULL), NAME(EMPTY), NAME(CAPACITY), NAME(MANY), NAME(NO_ANSWER), NAME(NUMBER), NAME(MISSING),
        NAME(ILLEGAL), NAME(NOT_JSON), NAME(SHAPE), NAME(VERSION), NAME(CUT), NAME(MOVED), NAME(DEEP), NAME(APART), NAME(AGENTS),
        NAME(AHEAD), NAME(NO_JOURNAL), NAME(NO_PUSH), NAME(NO_AGENT), NAME(NOT_FULL), NAME(LONG_MOVE)};
    bool is_there = code >= 0 && (size_t)code < sizeof names / sizeof *names && names[code];
    return is_there ? names[code] : "another code";
}

/* Replaces the word, a text of JSON, by what it says. */
static inline struct word *unquoted(struct word *it) {
    size_t len = 0;
    for (size_t i = 1; i + 1 < it->len; i++) {
        char c = it->at[i];
        if (c == '\\') {
            c = it->at[++i];
            if (c == 'u') {
                c = (char)strtoul((char[]){it->at[i + 3], it->at[i + 4], 0}, NULL, 16);
                i += 4;
            } else {
                c = c == 'n' ? '\n' : c;
            }
        }
        it->at[len++] = c;
    }
    it->len = len;
    return it;
}

/* Writes the text in JSON; returns its length there. */
static inline size_t quote(char *into, const char *text, size_t len) {
    char *at = into;
    *at++ = '"';
    for (size_t i = 0; i < len; i++) {
        if (text[i] == '\n' || text[i] == '"' || text[i] == '\\')
            *at++ = '\\';
        if ((uint8_t)text[i] < ' ' && text[i] != '\n')
            at += sprintf(at, "\\u%04x", (unsigned)text[i]);
        else
            *at++ = text[i] == '\n' ? 'n' : text[i];
    }
    *at++ = '"';
    *at = 0;
    return (size_t)(at - into);
}

/* Takes the next item of an array, which begins behind its bracket or a comma. Returns whether there is one. */
static inline bool next_item(struct word *rest, struct word *item) {
    size_t depth = 0;
    bool is_text = false;
    for (size_t i = 0; i < rest->len; i++) {
        char c = rest->at[i];
        if (is_text && c == '\\')
            i++;
        else if (c == '"')
            is_text = !is_text;
        else if (!is_text && (c == '[' || c == '{'))
            depth++;
        else if (!is_text && depth && (c == ']' || c == '}'))
            depth--;
        else if (!is_text && !depth && (c == ',' || c == ']')) {
            *item = (struct word){rest->at, i};
            *rest = (struct word){rest->at + i + 1, rest->len - i - 1};
            return i > 0;
        }
    }
    return false;
}

/* The items of an array, behind its bracket. */
static inline struct word items_of(struct word array) { return (struct word){array.at + 1, array.len - 1}; }

/* Splits the line ["call",WORD, ..,ANSWER]. Returns how many words there are. */
static inline size_t split(char *line, size_t len, struct word *into) {
    struct word rest = items_of((struct word){line, len});
    size_t n = 0;
    while (n < WORDS + 2 && next_item(&rest, &into[n]))
        n++;
    if (rest.len)
        fail("too many words");
    return n;
}

/* Copies the line, with the items that an {"each":COUNT,"of":ITEM} stands for in its place, each with its number for "#". */
static inline void expand(const char *line, char *into) {
    static const char each[] = "{\"each\":", of[] = ",\"of\":", place[] = "\"#\"";
    for (const char *next; (next = strstr(line, each)); line++) {
        unsigned long count = strtoul(next + strlen(each), NULL, 10);
        const char *item = strstr(next, of) + strlen(of), *end = strchr(item, '}');
        memcpy(into, line, (size_t)(next - line));
        into += next - line;
        for (unsigned long i = 0; i < count; i++) {
            into += sprintf(into, "%s", i ? "," : "");
            for (const char *at = item; at < end; at++) {
                bool is_number = !strncmp(at, place, strlen(place));
                into += is_number ? sprintf(into, "%lu", i) : sprintf(into, "%c", *at);
                at += is_number ? strlen(place) - 1 : 0;
            }
        }
        line = end;
    }
    strcpy(into, line);
}

#endif
