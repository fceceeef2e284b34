/* JSON reads back: each line is one object of RFC 8259 in UTF-8, and there is one for each line of text. */
#include "oracles.h"

typedef struct {
    const uint8_t *at, *end;
} cursor;

static void read_value(cursor *text, int depth);

static bool is_next(cursor *text, uint8_t byte) {
    if (text->at == text->end || *text->at != byte) {
        return false;
    }
    text->at++;
    return true;
}

static void read_hex4(cursor *text) {
    for (int i = 0; i < 4; i++, text->at++) {
        ASSERT(text->at < text->end);
        uint8_t byte = *text->at;
        ASSERT((byte >= '0' && byte <= '9') || (byte >= 'a' && byte <= 'f'));
    }
}

/* A character beyond ASCII: the shortest form, no surrogate, and none past U+10FFFF. */
static void read_wide_character(cursor *text) {
    uint8_t first = *text->at++;
    size_t more = first >= 0xf0 ? 3 : first >= 0xe0 ? 2 : 1;
    ASSERT(first >= 0xc2 && first <= 0xf4);
    uint32_t character = first & (0x3f >> more);
    for (size_t i = 0; i < more; i++, text->at++) {
        ASSERT(text->at < text->end && (*text->at & 0xc0) == 0x80);
        character = character << 6 | (*text->at & 0x3f);
    }
    ASSERT(more != 2 || (character >= 0x800 && (character < 0xd800 || character > 0xdfff)));
    ASSERT(more != 3 || (character >= 0x10000 && character <= 0x10ffff));
}

static void read_string(cursor *text) {
    ASSERT(is_next(text, '"'));
    while (!is_next(text, '"')) {
        ASSERT(text->at < text->end && *text->at >= 0x20);
        if (*text->at >= 0x80) {
            read_wide_character(text);
        } else if (*text->at++ == '\\') {
            ASSERT(text->at < text->end && strchr("\"\\bfnrtu", *text->at) != NULL);
            if (*text->at++ == 'u') {
                read_hex4(text);
            }
        }
    }
}

static void read_number(cursor *text) {
    const uint8_t *start = text->at;
    while (text->at < text->end && *text->at >= '0' && *text->at <= '9') {
        text->at++;
    }
    ASSERT(text->at != start && (*start != '0' || text->at == start + 1));
}

static void read_word(cursor *text, const char *word) {
    size_t size = strlen(word);
    ASSERT((size_t)(text->end - text->at) >= size && memcmp(text->at, word, size) == 0);
    text->at += size;
}

static void read_members(cursor *text, int depth, uint8_t close) {
    if (is_next(text, close)) {
        return;
    }
    do {
        if (close == '}') {
            read_string(text);
            ASSERT(is_next(text, ':'));
        }
        read_value(text, depth + 1);
    } while (is_next(text, ','));
    ASSERT(is_next(text, close));
}

static void read_value(cursor *text, int depth) {
    ASSERT(text->at < text->end && depth < 4);
    if (is_next(text, '{')) {
        read_members(text, depth, '}');
    } else if (is_next(text, '[')) {
        read_members(text, depth, ']');
    } else {
        switch (*text->at) {
        case '"': read_string(text); break;
        case 't': read_word(text, "true"); break;
        case 'f': read_word(text, "false"); break;
        case 'n': read_word(text, "null"); break;
        default: read_number(text);
        }
    }
}

/* The word of a line of text is that of its object. A line of check has the word `entry`. */
static void test_line(cursor *object, cursor *line) {
    const uint8_t *newline = memchr(line->at, '\n', (size_t)(line->end - line->at));
    ASSERT(newline != NULL);
    size_t word = 0;
    while (line->at[word] != ' ') {
        word++;
    }
    cursor start = *object;
    read_value(object, 0);
    ASSERT(is_next(object, '\n'));
    read_word(&start, "{\"line\":\"");
    ASSERT((size_t)(start.end - start.at) > word && memcmp(start.at, line->at, word) == 0 && start.at[word] == '"');
    line->at = newline + 1;
}

static void test_objects(const filled *json, const filled *text) {
    ASSERT(is_same_fault(&json->fault, &text->fault));
    if (json->bytes == NULL || text->bytes == NULL) {
        return;
    }
    cursor object = {json->bytes, json->bytes + json->count}, line = {text->bytes, text->bytes + text->count};
    while (line.at < line.end) {
        test_line(&object, &line);
    }
    ASSERT(object.at == object.end);
}

void test_json(const reading *given) {
    test_objects(&given->of[FILL_LIST_JSON], &given->of[FILL_LIST]);
    test_objects(&given->of[FILL_CHECK_JSON], &given->of[FILL_CHECK]);
}
