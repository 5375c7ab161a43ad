// Tries a parser on events.json: cc run.c my_parser.c && ./a.out [WORD ..] <events.json
//
// Each vector of the kind events is tried as it is, in one chunk, and byte by byte. A word is a
// level, a rule, a house rule, or strongest=LEVEL (docs/JUDGE.md): vectors that have it are left
// out. The status is 0 if all are right, 1 if not or if none is left, and 2 if it can't go on.
#include <signal.h>
#include <stdio.h>
#include <stdlib.h>
#include <string.h>

// your parser: begins a stream, and reads a chunk, and calls `event` for each line
void reset(void);
void parse(const unsigned char *bytes, size_t length);

typedef struct {
    char *text;
    size_t length, room;
} Text;

static Text vector_line, wanted, got, shown, stream;
static char id[200];

static void fail(const char *message) {
    fprintf(stderr, "%s\n", message);
    exit(2);
}

// Makes room for more characters, and a NUL.
static void reserve(Text *to, size_t more) {
    while (to->length + more + 1 > to->room) {
        to->room = 2 * to->room + 99;
        to->text = realloc(to->text, to->room);
        if (to->text == NULL) fail("no memory");
    }
}

static void add(Text *to, const char *text, size_t length) {
    reserve(to, length);
    memcpy(to->text + to->length, text, length);
    to->length += length;
    to->text[to->length] = 0;
}

void event(const char *line) {
    add(&got, line, strlen(line));
    add(&got, "\n", 1);
}

// Each appends a value of events.json, with an end after each text, and returns what follows it.
static const char *expand(Text *to, const char *at, const char *end);

// "..", whose only escape is \n
static const char *expand_text(Text *to, const char *at, const char *end) {
    for (at++; *at != '"'; at++) {
        add(to, *at == '\\' ? "\n" : at, 1);
        if (*at == '\\') at++;
    }
    add(to, end, strlen(end));
    return at + 1;
}

// [VALUE, ..]
static const char *expand_list(Text *to, const char *at, const char *end) {
    for (at++; *at != ']';) at = expand(to, at, end);
    return at + 1;
}

// {"line": VALUE}, from VALUE on: the texts in it are one text
static const char *expand_line(Text *to, const char *at, const char *end) {
    at = expand(to, at, "");
    add(to, end, strlen(end));
    return at + 1;
}

// {"repeat": VALUE, "times": NUMBER}, from VALUE on
static const char *expand_repeated(Text *to, const char *at, const char *end) {
    size_t start = to->length;
    at = expand(to, at, end);
    size_t length = to->length - start;
    char *after_number;
    long times = strtol(strchr(at, ':') + 1, &after_number, 10);
    reserve(to, length * (size_t)times); // so that `add` doesn't move the text
    while (--times > 0) add(to, to->text + start, length);
    return after_number + 1;
}

static const char *expand(Text *to, const char *at, const char *end) {
    static const char line[] = "{\"line\": ", repeat[] = "{\"repeat\": ";
    at += strspn(at, " ,");
    if (*at == '"') return expand_text(to, at, end);
    if (*at == '[') return expand_list(to, at, end);
    if (strncmp(at, line, strlen(line)) == 0) return expand_line(to, at + strlen(line), end);
    if (strncmp(at, repeat, strlen(repeat)) != 0) fail("this isn't events.json");
    return expand_repeated(to, at + strlen(repeat), end);
}

static void give(size_t from, size_t to) {
    if (shown.length > 0) add(&shown, " ", 1);
    for (size_t i = from; i < to; i++) {
        char hex[3];
        add(&shown, hex, (size_t)sprintf(hex, "%02x", (unsigned char)stream.text[i]));
    }
    parse((unsigned char *)stream.text + from, to - from);
}

// Gives the chunks of a vector to the parser: as they are, joined (1), or byte by byte (2).
static int answers(const char *chunk, int way) {
    Text hex = {0};
    reset();
    for (stream.length = got.length = shown.length = 0, chunk++; *chunk != ']';) {
        size_t before = stream.length;
        hex.length = 0;
        chunk = expand(&hex, chunk, "");
        for (size_t i = 0; i < hex.length; i += 2) {
            unsigned byte;
            sscanf(hex.text + i, "%2x", &byte);
            add(&stream, &(char){(char)byte}, 1);
            if (way == 2) give(stream.length - 1, stream.length);
        }
        if (way == 0) give(before, stream.length);
    }
    free(hex.text);
    if (way == 1) give(0, stream.length);
    return got.length == wanted.length
        && (got.length == 0 || memcmp(got.text, wanted.text, got.length) == 0);
}

static void crashed(int number) {
    printf("%s: signal %d\n", id, number);
    fflush(stdout);
    _Exit(1);
}

static int read_vector_line(void) {
    vector_line.length = 0;
    add(&vector_line, "", 0);
    for (int byte = getchar(); byte != '\n'; byte = getchar()) {
        if (byte == EOF) return 0;
        add(&vector_line, &(char){(char)byte}, 1);
    }
    return 1;
}

// Whether a line is none of the vectors to try, or has one of the words. The file keeps this order
// of keys and this spacing: words stand from its level to its limit, the strongest level after.
static int is_left_out(char **words) {
    static const char level_key[] = "\"kind\": \"events\", \"level\": ";
    static const char limit_key[] = "\"limit\": 1024, \"chunks\": ", strongest[] = "strongest=";
    const char *level = strstr(vector_line.text, level_key);
    const char *limit = strstr(vector_line.text, limit_key);
    if (level == NULL || limit == NULL) return 1;
    for (; *words != NULL; words++) {
        char quoted[100];
        int is_strongest = strncmp(*words, strongest, strlen(strongest)) == 0;
        if (is_strongest)
            snprintf(quoted, sizeof quoted, "\"strongest\": \"%s\"", *words + strlen(strongest));
        else
            snprintf(quoted, sizeof quoted, "\"%s\"", *words);
        const char *found = strstr(is_strongest ? limit : level, quoted);
        if (found != NULL && (is_strongest || found < limit)) return 1;
    }
    return 0;
}

// The value of a key, which stands in each vector that isn't left out.
static const char *value_of(const char *key) {
    return strstr(vector_line.text, key) + strlen(key);
}

static void print_lines(const Text *lines) {
    putchar('"');
    for (size_t i = 0; i < lines->length && i < 300; i++) {
        if (lines->text[i] == '\n') printf("\\n");
        else putchar(lines->text[i]);
    }
    putchar('"');
}

// ID: CHUNKS gives LINES, not LINES (LEVEL: RULES)
static void report(void) {
    const char *level = value_of("\"level\": \"");
    Text rules = {0};
    add(&rules, "", 0), add(&shown, "", 0);
    expand(&rules, value_of("\"rules\": "), ", ");
    printf("%s: %.300s gives ", id, shown.text);
    print_lines(&got), printf(", not "), print_lines(&wanted);
    int length = rules.length > 0 ? (int)rules.length - 2 : 0;
    printf(" (%.*s: %.*s)\n", (int)strcspn(level, "\""), level, length, rules.text);
    free(rules.text);
}

// Returns whether a vector is right in each way, and prints the first in which it is wrong.
static int try_vector(void) {
    sscanf(vector_line.text, "{\"id\": \"%199[^\"]", id);
    wanted.length = 0;
    expand(&wanted, value_of("\"events\": "), "\n");
    for (int way = 0; way < 3; way++) {
        if (answers(value_of("\"chunks\": "), way)) continue;
        report();
        return 0;
    }
    return 1;
}

int main(int count, char **words) {
    int wrong = 0, tried = 0;
    (void)count;
    signal(SIGSEGV, crashed), signal(SIGABRT, crashed), signal(SIGILL, crashed);
    while (read_vector_line()) {
        if (is_left_out(words + 1)) continue;
        tried++;
        wrong += !try_vector();
    }
    printf("%d of %d wrong\n", wrong, tried);
    return wrong > 0 || tried == 0;
}
