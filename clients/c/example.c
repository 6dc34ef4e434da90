/* Writes an object, reads it at a node, and asks both in one frame: cc -std=c99 -o example example.c && ./example [HOST PORT] */
#include "jilsdau.h"
#include <inttypes.h>
#include <stdio.h>
#include <stdlib.h>
#include <string.h>

/* The head and the tail of the first chain. */
static uint32_t head, tail;

/* Takes them from the status: the first and the last of the members that it names first. */
static void find_members(const struct jilsdau_bytes *text)
{
    char copy[4096], *at;
    size_t size = text->size < sizeof copy ? text->size : sizeof copy - 1;
    memcpy(copy, text->at, size);
    copy[size] = 0;
    at = strstr(copy, "\"members\":[");
    if (!at)
        return;
    at += strlen("\"members\":");
    do {
        tail = (uint32_t)strtoul(at + 1, &at, 10);
        head = head ? head : tail;
    } while (*at == ',');
}

static struct jilsdau_request write_of(const char *value)
{
    struct jilsdau_request it = {.kind = JILSDAU_UPDATE, .node = head, .tag = JILSDAU_PUT, .key = jilsdau_text("colour")};
    it.number = jilsdau_now();
    it.value = jilsdau_text(value);
    return it;
}

static void print(const struct jilsdau_reply *told)
{
    if (told->kind == JILSDAU_REFUSED)
        printf("refused %" PRIu64 " %" PRIu64 "\n", told->number, told->detail);
    else if (told->kind == JILSDAU_READ_REPLY)
        printf("read %" PRIu64 " %.*s\n", told->reads[0].version, (int)told->reads[0].value.size, (const char *)told->reads[0].value.at);
    else if (told->kind == JILSDAU_STATUS_REPLY) {
        printf("status %.*s\n", (int)told->text.size, (const char *)told->text.at);
        find_members(&told->text);
    } else
        printf("update %d %" PRIu64 "\n", told->tag, told->number);
}

static int ask(struct jilsdau *store, const struct jilsdau_request *asked, size_t count)
{
    struct jilsdau_reply told[JILSDAU_AT_ONCE];
    int fault = jilsdau_ask(store, asked, count, told);
    size_t at;
    for (at = 0; at < count && !fault; at++)
        print(told + at);
    return fault;
}

int main(int count, char **words)
{
    struct jilsdau store;
    struct jilsdau_request status = {.kind = JILSDAU_STATUS}, both[2];
    struct jilsdau_request read = {.kind = JILSDAU_READ, .mode = JILSDAU_STRONG, .key = jilsdau_text("colour")};
    struct jilsdau_request set;
    int fault = jilsdau_open(&store, count > 2 ? words[1] : "127.0.0.1", count > 2 ? words[2] : "7000", jilsdau_now(), 10);
    if (!fault)
        fault = ask(&store, &status, 1);
    set = write_of("blue");
    read.node = tail;
    if (!fault)
        fault = ask(&store, &set, 1);
    if (!fault)
        fault = ask(&store, &read, 1);
    both[0] = write_of("red");
    both[1] = read;
    if (!fault)
        fault = ask(&store, both, 2);
    jilsdau_close(&store);
    if (fault)
        fprintf(stderr, "example: fault %d\n", fault);
    return fault ? 4 : 0;
}
