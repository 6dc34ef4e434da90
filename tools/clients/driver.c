/* Makes the calls of clients/cases.json with clients/c/jilsdau.h: driver HOST PORT ID PASS. It reads a line of calls from standard input
 * and prints a line with their results, and after ' | ' the pass. */
#include "../../clients/c/jilsdau.h"
#include <inttypes.h>
#include <stdio.h>

enum { LINE = 65536, PATIENCE = 60 };
static unsigned char values[LINE];
static size_t used;
static struct jilsdau_item items[JILSDAU_AT_ONCE + 1][3][JILSDAU_ITEMS];

/* Takes the next word of a text, up to one of these characters. */
static char *word_of(char **text, const char *ends)
{
    char *word = *text;
    size_t size = strcspn(word, ends);
    *text = word + size + (word[size] != 0);
    word[size] = 0;
    return word;
}

static uint64_t number_of(char **text, const char *ends)
{
    return strtoull(word_of(text, ends), NULL, 10);
}

/* The bytes that a word spells: its characters, 0x and digits, or N*C. */
static struct jilsdau_bytes value_of(const char *word)
{
    struct jilsdau_bytes found;
    const char *times = strchr(word, '*');
    unsigned digit;
    found.at = values + used;
    found.size = used;
    if (strncmp(word, "0x", 2) == 0)
        for (word += 2; sscanf(word, "%2x", &digit) == 1; word += 2)
            values[used++] = (unsigned char)digit;
    else if (times)
        for (digit = (unsigned)atoi(word); digit > 0; digit--)
            values[used++] = (unsigned char)times[1];
    else
        while (*word)
            values[used++] = (unsigned char)*word++;
    found.size = used - found.size;
    return found;
}

static void parse_items(struct jilsdau_request *it, char *text, size_t at)
{
    it->compares = items[at][0];
    it->reads = items[at][1];
    it->writes = items[at][2];
    while (*text) {
        char *word = word_of(&text, " ");
        int kind = *word_of(&word, ":");
        struct jilsdau_item *item = kind == 'c' ? &items[at][0][it->compare_count++]
                                    : kind == 'r' ? &items[at][1][it->read_count++] : &items[at][2][it->write_count++];
        item->key = jilsdau_text(word_of(&word, ":"));
        if (kind == 'c')
            item->version = number_of(&word, " ");
        if (kind == 'w')
            item->value = value_of(word);
    }
}

static void parse_command(struct jilsdau_request *it, char *text, size_t at)
{
    static const char *names[] = {"", "put", "tas", "append", "prepend", "inc", "dec", "mini"};
    char *name = word_of(&text, " ");
    for (it->tag = JILSDAU_MINI; it->tag > 0 && strcmp(names[it->tag], name) != 0;)
        it->tag--;
    it->chain = (uint16_t)number_of(&text, " ");
    if (it->tag == JILSDAU_MINI) {
        parse_items(it, text, at);
        return;
    }
    it->key = jilsdau_text(word_of(&text, " "));
    if (it->tag == JILSDAU_TEST_AND_SET || it->tag >= JILSDAU_INCREMENT)
        it->operand = number_of(&text, " ");
    if (it->tag <= JILSDAU_PREPEND)
        it->value = value_of(word_of(&text, " "));
}

static void parse(struct jilsdau_request *it, char *text, size_t at)
{
    char *kind = word_of(&text, " "), *mode;
    memset(it, 0, sizeof *it);
    it->kind = *kind == 'u' ? JILSDAU_UPDATE : *kind == 'r' ? JILSDAU_READ : JILSDAU_STATUS;
    if (it->kind == JILSDAU_STATUS)
        return;
    it->node = (uint32_t)number_of(&text, " ");
    if (it->kind == JILSDAU_UPDATE) {
        it->number = number_of(&text, " ");
        parse_command(it, text, at);
        return;
    }
    mode = word_of(&text, " ");
    it->mode = *mode == 's' ? JILSDAU_STRONG : *mode == 'e' ? JILSDAU_EVENTUAL : JILSDAU_BOUNDED;
    it->bound = *mode == 'b' ? (uint32_t)atol(mode + 8) : 0;
    it->chain = (uint16_t)number_of(&text, " ");
    it->key = jilsdau_text(word_of(&text, " "));
}

static void print_value(struct jilsdau_bytes value)
{
    size_t at;
    printf("0x");
    for (at = 0; at < value.size; at++)
        printf("%02x", ((const unsigned char *)value.at)[at]);
}

static void print_update(const struct jilsdau_reply *it)
{
    static const char *names[] = {"", "written", "mismatch", "toolong", "notanumber", "overflow", "underflow", "done", "comparefailed", "stale"};
    size_t at;
    printf("%s", names[it->tag]);
    for (at = 0; at < it->read_count; at++) {
        printf(" %" PRIu64 ":", it->reads[at].version);
        print_value(it->reads[at].value);
    }
    if (it->tag <= JILSDAU_MISMATCH || it->tag >= JILSDAU_COMPARE_FAILED)
        printf(" %" PRIu64, it->number);
}

static void print(const struct jilsdau_reply *it)
{
    if (it->kind == JILSDAU_REFUSED)
        printf("refused %" PRIu64 " %" PRIu64, it->number, it->detail);
    else if (it->kind == JILSDAU_STATUS_REPLY)
        printf("status %.*s", (int)it->text.size, (const char *)it->text.at);
    else if (it->kind == JILSDAU_UPDATE_REPLY)
        print_update(it);
    else {
        printf("read %" PRIu64 " ", it->reads[0].version);
        print_value(it->reads[0].value);
    }
}

static void asks(struct jilsdau *store, char *line)
{
    static const char *faults[] = {"", "noserver", "lost", "badreply", "badrequest", "nomemory"};
    struct jilsdau_request asked[JILSDAU_AT_ONCE + 1];
    struct jilsdau_reply told[JILSDAU_AT_ONCE + 1];
    size_t count = 0, at;
    int fault;
    used = 0;
    memset(items, 0, sizeof items);
    while (*line && count <= JILSDAU_AT_ONCE) {
        char *end = strstr(line, " ; ");
        if (end)
            *end = 0;
        parse(asked + count, line, count);
        count++;
        line = end ? end + 3 : line + strlen(line);
        if (!end)
            break;
    }
    fault = jilsdau_ask(store, asked, count, told);
    if (fault)
        printf("%s", faults[-fault]);
    for (at = 0; at < count && !fault; at++) {
        printf("%s", at ? " ; " : "");
        print(told + at);
    }
    printf(" | %" PRIu64 "\n", store->pass);
    fflush(stdout);
}

int main(int count, char **words)
{
    static char line[LINE];
    struct jilsdau store;
    if (count != 5 || jilsdau_open(&store, words[1], words[2], strtoull(words[3], NULL, 10), PATIENCE) != JILSDAU_OK) {
        fprintf(stderr, "driver: HOST PORT ID PASS, and a server there\n");
        return 2;
    }
    store.pass = strtoull(words[4], NULL, 10);
    while (fgets(line, sizeof line, stdin)) {
        line[strcspn(line, "\n")] = 0;
        asks(&store, line);
    }
    jilsdau_close(&store);
    return 0;
}
