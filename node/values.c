/* Values: the columns of a row that was answered, and a row that is inserted. */
#include "inside.h"

/* ---- Columns. They are parted by `,` outside of quotes; no text holds a quote. */

static const char *column_at(const struct sorachest *db, int column) {
    if (!db->has_row || column < 0) return NULL;
    const char *at = db->line;
    for (int is_in_quotes = 0; column && *at; at++) {
        if (*at == '\'') is_in_quotes = !is_in_quotes;
        if (*at == ',' && !is_in_quotes) column--;
    }
    return column ? NULL : at;
}

static int is_digit(char byte) { return byte >= '0' && byte <= '9'; }

int sorachest_columns(const struct sorachest *db) {
    int count = 0;
    while (column_at(db, count)) count++;
    return count;
}

int sorachest_type(const struct sorachest *db, int column) {
    const char *at = column_at(db, column);
    if (!at) return SORACHEST_NONE;
    if (*at == '\'') return SORACHEST_TEXT;
    return is_digit(at[*at == '-']) ? SORACHEST_INT : SORACHEST_NONE;
}

int64_t sorachest_int(const struct sorachest *db, int column) {
    if (sorachest_type(db, column) != SORACHEST_INT) return 0;
    const char *at = column_at(db, column);
    int is_negative = *at == '-';
    uint64_t number = 0;
    for (at += is_negative; is_digit(*at); at++) number = number * 10 + (uint64_t)(*at - '0');
    return (int64_t)(is_negative ? 0 - number : number);
}

const char *sorachest_text(const struct sorachest *db, int column, size_t *length) {
    int is_text = sorachest_type(db, column) == SORACHEST_TEXT;
    const char *at = is_text ? column_at(db, column) + 1 : NULL;
    size_t count = 0;
    while (is_text && at[count] != '\'') count++;
    if (length) *length = count;
    return at;
}

/* ---- Names of columns: the list behind SELECT, or behind the PROJECT of a JOIN */

static int is_letter(char byte) { return (byte >= 'a' && byte <= 'z') || (byte >= 'A' && byte <= 'Z'); }
static int is_of_word(char byte) { return is_letter(byte) || is_digit(byte) || byte == '_'; }
static int is_white(char byte) { return byte == ' ' || byte == '\t' || byte == '\r' || byte == '\n'; }

static const char *behind_white(const char *at) {
    while (is_white(*at)) at++;
    return at;
}

/* What stands behind a keyword, in any letter case; NULL where another word stands there. */
static const char *behind_keyword(const char *at, const char *keyword) {
    while (*keyword && (*at & ~0x20) == *keyword) at++, keyword++;
    return *keyword || is_of_word(*at) ? NULL : at;
}

static const char *behind_word(const char *at) {
    if (!is_of_word(*at)) return at + 1;
    while (is_of_word(*at)) at++;
    return at;
}

static int ends_list(const char *at) { return !*at || *at == ';' || behind_keyword(at, "FROM"); }

static const char *list_of(const char *command) {
    const char *at = behind_white(command);
    const char *list = behind_keyword(at, "SELECT");
    if (list || !behind_keyword(at, "JOIN")) return list;
    while (*at && *at != ';' && !behind_keyword(at, "PROJECT")) at = behind_white(behind_word(at));
    return behind_keyword(at, "PROJECT");
}

const char *sorachest_name(const struct sorachest *db, int column, size_t *length) {
    const char *first = column_at(db, column) ? list_of(db->command) : NULL, *end = first;
    for (int item = 0; first && item <= column; item++) {
        first = behind_white(item ? end + 1 : first);
        for (end = first; !ends_list(end) && *end != ','; end = behind_word(end)) {}
    }
    while (first && end > first && is_white(end[-1])) end--;
    if (length) *length = first ? (size_t)(end - first) : 0;
    return first;
}

/* ---- Rows */

enum { MOST_NAME = 15 };
static const int64_t most_number = 999999999999999999;

static int is_name(const char *name) {
    size_t length = 0;
    if (!name || !is_letter(name[0])) return 0;
    while (is_of_word(name[length])) length++;
    return !name[length] && length <= MOST_NAME;
}

static int is_text_of_aql(const char *text, size_t length) {
    if ((!text && length) || length > SORACHEST_MOST_TEXT) return 0;
    for (size_t place = 0; place < length; place++)
        if (text[place] < ' ' || text[place] > '~' || text[place] == '\'') return 0;
    return 1;
}

static int is_value(const struct sorachest_value *value) {
    if (value->type == SORACHEST_TEXT) return is_text_of_aql(value->text, value->length);
    return value->type == SORACHEST_INT && value->number >= -most_number && value->number <= most_number;
}

static char *write_text(char *to, const char *text, size_t length) {
    memcpy(to, text, length);
    return to + length;
}

static char *write_number(char *to, int64_t number) {
    char digits[20];
    size_t first = sizeof digits;
    uint64_t left = number < 0 ? 0 - (uint64_t)number : (uint64_t)number;
    do digits[--first] = (char)('0' + left % 10);
    while (left /= 10);
    if (number < 0) *to++ = '-';
    return write_text(to, digits + first, sizeof digits - first);
}

static char *write_value(char *to, const struct sorachest_value *value) {
    if (value->type == SORACHEST_INT) return write_number(to, value->number);
    *to++ = '\'';
    if (value->length) to = write_text(to, value->text, value->length);
    *to++ = '\'';
    return to;
}

int sorachest_insert(struct sorachest *db, const char *relation, const struct sorachest_value *values, size_t count) {
    /* a value has at most 34 bytes and a comma */
    char command[sizeof "INSERT () INTO " + SORACHEST_MOST_VALUES * (SORACHEST_MOST_TEXT + 3) + MOST_NAME];
    if (!is_name(relation) || !values || count < 1 || count > SORACHEST_MOST_VALUES) return SORACHEST_VALUE;
    char *to = write_text(command, "INSERT (", 8);
    for (size_t place = 0; place < count; place++) {
        if (!is_value(&values[place])) return SORACHEST_VALUE;
        if (place) *to++ = ',';
        to = write_value(to, &values[place]);
    }
    to = write_text(to, ") INTO ", 7);
    to = write_text(to, relation, text_length(relation));
    *to = 0;
    return sorachest_exec(db, command, NULL, NULL);
}
