/* jilsdau.h: a client of a Jilsdau store in C99 over POSIX sockets, in one header, without dependencies.
 *
 *     #include "jilsdau.h"               (before other headers, or with -D_POSIX_C_SOURCE=200809L)
 *
 *     struct jilsdau store;
 *     struct jilsdau_reply told;
 *     struct jilsdau_request set = {.kind = JILSDAU_UPDATE, .node = 1, .number = jilsdau_now(), .tag = JILSDAU_PUT,
 *                                   .key = jilsdau_text("colour"), .value = jilsdau_text("blue")};
 *     if (jilsdau_open(&store, "127.0.0.1", "7000", 4711, 10) == JILSDAU_OK
 *         && jilsdau_ask(&store, &set, 1, &told) == JILSDAU_OK && told.tag == JILSDAU_WRITTEN)
 *         printf("version %llu\n", (unsigned long long)told.number);
 *     jilsdau_close(&store);
 *
 * A client has an id that no other program may use, and a pass: the largest that it has received, which each request
 * carries. Each update has a number, at least 1, of which a client uses each once for a chain. After JILSDAU_LOST,
 * JILSDAU_BAD_REPLY, JILSDAU_NO_MEMORY and the refusals 11, 14 and 27 an update may have been done: ask it again with its
 * number, and it is done once. Updates go to the head of the chain: after refusal 9 ask the node `detail`. Reads go to any
 * member. docs/use/BYTES.md describes the bytes and what each refusal means. A client is for one thread. */
#ifndef JILSDAU_H
#define JILSDAU_H
#ifndef _POSIX_C_SOURCE
#define _POSIX_C_SOURCE 200809L
#endif
#include <errno.h>
#include <netdb.h>
#include <netinet/in.h>
#include <netinet/tcp.h>
#include <stdint.h>
#include <stdlib.h>
#include <string.h>
#include <sys/socket.h>
#include <sys/time.h>
#include <time.h>
#include <unistd.h>

/* Results of a call. After -2 and -3, and -5 for a reply, the connection is closed; jilsdau_reopen opens it again. */
enum {
    JILSDAU_OK = 0,           /* there is a reply, which may be a refusal */
    JILSDAU_NO_SERVER = -1,   /* there is no connection; nothing was sent */
    JILSDAU_LOST = -2,        /* the connection ended, or no reply came in time */
    JILSDAU_BAD_REPLY = -3,   /* no reply to this request came, but other bytes */
    JILSDAU_BAD_REQUEST = -4, /* the request has no encoding; nothing was sent */
    JILSDAU_NO_MEMORY = -5    /* out of memory, for the request or for its reply */
};
/* Kinds of requests, kinds of replies, commands, modes of reads, replies to updates, and limits. */
enum { JILSDAU_UPDATE = 1, JILSDAU_READ, JILSDAU_STATUS };
enum { JILSDAU_UPDATE_REPLY = 1, JILSDAU_READ_REPLY, JILSDAU_REFUSED, JILSDAU_STATUS_REPLY, JILSDAU_MANY_REPLY };
enum { JILSDAU_PUT = 1, JILSDAU_TEST_AND_SET, JILSDAU_APPEND, JILSDAU_PREPEND, JILSDAU_INCREMENT, JILSDAU_DECREMENT, JILSDAU_MINI };
enum { JILSDAU_STRONG = 1, JILSDAU_EVENTUAL, JILSDAU_BOUNDED };
enum { JILSDAU_WRITTEN = 1, JILSDAU_MISMATCH, JILSDAU_TOO_LONG, JILSDAU_NOT_A_NUMBER, JILSDAU_OVERFLOW, JILSDAU_UNDERFLOW,
       JILSDAU_DONE, JILSDAU_COMPARE_FAILED, JILSDAU_STALE };
enum { JILSDAU_ITEMS = 16, JILSDAU_AT_ONCE = 8, JILSDAU_FRAME = 1048576 };

/* Bytes that are elsewhere. */
struct jilsdau_bytes {
    const void *at;
    size_t size;
};

/* An item of a transaction: a compare has a key and a version, a read a key, a write a key and a value; what was read has a version
 * and a value, and version 0 and no bytes if the object was never written. */
struct jilsdau_item {
    struct jilsdau_bytes key, value;
    uint64_t version;
};

/* A request. Fields that its kind or its command does not use are ignored. */
struct jilsdau_request {
    int kind;                   /* JILSDAU_UPDATE, JILSDAU_READ or JILSDAU_STATUS */
    uint32_t node;              /* the node that is asked */
    uint16_t chain;             /* the chain of all its objects */
    struct jilsdau_bytes key;   /* 1 to 128 bytes */
    int mode;                   /* of a read: JILSDAU_STRONG, .. */
    uint32_t bound;             /* of a bounded read: K */
    uint64_t number;            /* of an update, at least 1 */
    int tag;                    /* of an update: JILSDAU_PUT, .. */
    struct jilsdau_bytes value; /* at most 4,096 bytes */
    uint64_t operand;           /* the version that is expected, or what is added or subtracted */
    const struct jilsdau_item *compares, *reads, *writes;  /* of a transaction: lists of at most 16, none with a key twice, */
    size_t compare_count, read_count, write_count;         /* and not all empty */
};

/* A reply. Its bytes stay until the next call of this client. */
struct jilsdau_reply {
    int kind;         /* JILSDAU_UPDATE_REPLY, JILSDAU_READ_REPLY, JILSDAU_REFUSED or JILSDAU_STATUS_REPLY */
    int tag;          /* of an update: JILSDAU_WRITTEN, .. */
    uint64_t number;  /* of a refusal; or the version of WRITTEN and MISMATCH, the index of COMPARE_FAILED, the last of STALE */
    uint64_t detail;  /* of refusal 9: the head */
    size_t read_count;
    struct jilsdau_item reads[JILSDAU_ITEMS]; /* the objects that a transaction read; a read has one */
    struct jilsdau_bytes text;                /* of a status: JSON */
};

/* Bytes that are written at the end, or taken from `next` on, until a fault. */
struct jilsdau_buffer {
    unsigned char *at;
    size_t next, size, room;
    int fault;
};

/* A client with one connection. */
struct jilsdau {
    int socket; /* -1 if there is none */
    uint64_t id, pass;
    struct jilsdau_buffer out, in;
};

/* Returns the bytes of a string. */
static inline struct jilsdau_bytes jilsdau_text(const char *text)
{
    return (struct jilsdau_bytes){text, strlen(text)};
}

/* Returns the nanoseconds since 1970: a number that is larger than earlier ones. */
static inline uint64_t jilsdau_now(void)
{
    struct timespec now = {0, 0};
    clock_gettime(CLOCK_REALTIME, &now);
    return (uint64_t)now.tv_sec * 1000000000u + (uint64_t)now.tv_nsec;
}

static inline int jilsdau_disconnect(struct jilsdau *it, int fault)
{
    if (it->socket >= 0)
        close(it->socket);
    it->socket = -1;
    return fault;
}

/* Ends a client: closes its connection and frees its memory. */
static inline void jilsdau_close(struct jilsdau *it)
{
    jilsdau_disconnect(it, 0);
    free(it->out.at);
    free(it->in.at);
    *it = (struct jilsdau){.socket = -1};
}

/* Opens the connection again; id and pass stay. JILSDAU_NO_SERVER if it fails. From then on a call is JILSDAU_LOST if nothing comes
 * or goes for `patience` seconds; if that is 0 it waits without a limit. */
static inline int jilsdau_reopen(struct jilsdau *it, const char *host, const char *port, int patience)
{
    struct addrinfo wanted = {.ai_socktype = SOCK_STREAM}, *found = NULL, *place;
    struct timeval wait = {patience, 0};
    int yes = 1;
    jilsdau_disconnect(it, 0);
    if (getaddrinfo(host, port, &wanted, &found) != 0)
        return JILSDAU_NO_SERVER;
    for (place = found; place && it->socket < 0; place = place->ai_next) {
        it->socket = socket(place->ai_family, place->ai_socktype, place->ai_protocol);
        setsockopt(it->socket, SOL_SOCKET, SO_RCVTIMEO, &wait, sizeof wait);
        setsockopt(it->socket, SOL_SOCKET, SO_SNDTIMEO, &wait, sizeof wait);
        setsockopt(it->socket, IPPROTO_TCP, TCP_NODELAY, &yes, sizeof yes);
        if (connect(it->socket, place->ai_addr, place->ai_addrlen) != 0)
            jilsdau_disconnect(it, 0);
    }
    freeaddrinfo(found);
    return it->socket < 0 ? JILSDAU_NO_SERVER : JILSDAU_OK;
}

/* Begins a client with this id and pass 0. jilsdau_close ends it, also after a fault. */
static inline int jilsdau_open(struct jilsdau *it, const char *host, const char *port, uint64_t id, int patience)
{
    *it = (struct jilsdau){.socket = -1, .id = id};
    return jilsdau_reopen(it, host, port, patience);
}

/* Notes a fault. The first one stays, and nothing is written or taken after it. */
static inline void jilsdau_need(struct jilsdau_buffer *it, int holds, int fault)
{
    if (!holds && !it->fault)
        it->fault = fault;
}

static inline unsigned char *jilsdau_grow(struct jilsdau_buffer *it, size_t more)
{
    if (!it->fault && it->room - it->size < more) {
        unsigned char *at = (unsigned char *)realloc(it->at, 2 * (it->size + more));
        jilsdau_need(it, at != NULL, JILSDAU_NO_MEMORY);
        it->at = at ? at : it->at;
        it->room = at ? 2 * (it->size + more) : it->room;
    }
    it->size += it->fault ? 0 : more;
    return it->fault ? NULL : it->at + it->size - more;
}

static inline void jilsdau_write(struct jilsdau_buffer *it, int size, uint64_t number)
{
    unsigned char *at = jilsdau_grow(it, (size_t)size);
    while (at && size-- > 0)
        *at++ = (unsigned char)(number >> (8 * size));
}

static inline void jilsdau_write_bytes(struct jilsdau_buffer *it, int size, struct jilsdau_bytes bytes, size_t most)
{
    unsigned char *at;
    jilsdau_need(it, bytes.size <= most, JILSDAU_BAD_REQUEST);
    jilsdau_write(it, size, bytes.size);
    if ((at = jilsdau_grow(it, bytes.size)) && bytes.size)
        memcpy(at, bytes.at, bytes.size);
}

static inline void jilsdau_write_object(struct jilsdau_buffer *it, uint16_t chain, struct jilsdau_bytes key)
{
    jilsdau_write(it, 2, chain);
    jilsdau_need(it, key.size > 0, JILSDAU_BAD_REQUEST);
    jilsdau_write_bytes(it, 1, key, 128);
}

/* Writes a list: 'c' compares, 'r' reads or 'w' writes. */
static inline void jilsdau_write_items(struct jilsdau_buffer *it, uint16_t chain, const struct jilsdau_item *items, size_t count, int kind)
{
    const struct jilsdau_item *end = items + count;
    jilsdau_need(it, count <= JILSDAU_ITEMS, JILSDAU_BAD_REQUEST);
    jilsdau_write(it, 1, count);
    for (; items < end && !it->fault; items++) {
        jilsdau_write_object(it, chain, items->key);
        if (kind == 'c')
            jilsdau_write(it, 8, items->version);
        if (kind == 'w')
            jilsdau_write_bytes(it, 2, items->value, 4096);
    }
}

static inline void jilsdau_write_command(struct jilsdau_buffer *it, const struct jilsdau_request *asked)
{
    int tag = asked->tag;
    jilsdau_need(it, tag >= JILSDAU_PUT && tag <= JILSDAU_MINI && asked->number > 0, JILSDAU_BAD_REQUEST);
    jilsdau_write(it, 1, (uint64_t)tag);
    if (tag == JILSDAU_MINI) {
        jilsdau_need(it, asked->compare_count || asked->read_count || asked->write_count, JILSDAU_BAD_REQUEST);
        jilsdau_write_items(it, asked->chain, asked->compares, asked->compare_count, 'c');
        jilsdau_write_items(it, asked->chain, asked->reads, asked->read_count, 'r');
        jilsdau_write_items(it, asked->chain, asked->writes, asked->write_count, 'w');
        return;
    }
    jilsdau_write_object(it, asked->chain, asked->key);
    if (tag == JILSDAU_TEST_AND_SET || tag == JILSDAU_INCREMENT || tag == JILSDAU_DECREMENT)
        jilsdau_write(it, 8, asked->operand);
    if (tag <= JILSDAU_PREPEND)
        jilsdau_write_bytes(it, 2, asked->value, 4096);
}

static inline void jilsdau_write_request(struct jilsdau *it, const struct jilsdau_request *asked)
{
    struct jilsdau_buffer *out = &it->out;
    int kind = asked->kind, mode = asked->mode;
    jilsdau_need(out, kind >= JILSDAU_UPDATE && kind <= JILSDAU_STATUS, JILSDAU_BAD_REQUEST);
    jilsdau_need(out, kind != JILSDAU_READ || (mode >= JILSDAU_STRONG && mode <= JILSDAU_BOUNDED), JILSDAU_BAD_REQUEST);
    jilsdau_write(out, 1, (uint64_t)kind);
    if (kind != JILSDAU_STATUS) {
        jilsdau_write(out, 4, asked->node);
        jilsdau_write(out, 8, it->pass);
    }
    if (kind == JILSDAU_UPDATE) {
        jilsdau_write(out, 8, it->id);
        jilsdau_write(out, 8, asked->number);
        jilsdau_write_command(out, asked);
    } else if (kind == JILSDAU_READ) {
        jilsdau_write(out, 1, (uint64_t)mode);
        if (mode == JILSDAU_BOUNDED)
            jilsdau_write(out, 4, asked->bound);
        jilsdau_write_object(out, asked->chain, asked->key);
    }
}

static inline struct jilsdau_bytes jilsdau_take(struct jilsdau_buffer *it, size_t size)
{
    struct jilsdau_bytes found = {it->at + it->next, size};
    jilsdau_need(it, it->size - it->next >= size, JILSDAU_BAD_REPLY);
    found.size = it->fault ? 0 : size;
    it->next += found.size;
    return found;
}

static inline uint64_t jilsdau_take_number(struct jilsdau_buffer *it, size_t size)
{
    struct jilsdau_bytes found = jilsdau_take(it, size);
    uint64_t number = 0;
    size_t at;
    for (at = 0; at < found.size; at++)
        number = number << 8 | ((const unsigned char *)found.at)[at];
    return number;
}

static inline void jilsdau_take_reads(struct jilsdau_buffer *it, size_t count, struct jilsdau_reply *told)
{
    jilsdau_need(it, count <= JILSDAU_ITEMS, JILSDAU_BAD_REPLY);
    for (told->read_count = 0; told->read_count < count && !it->fault; told->read_count++) {
        told->reads[told->read_count].version = jilsdau_take_number(it, 8);
        told->reads[told->read_count].value = jilsdau_take(it, (size_t)jilsdau_take_number(it, 2));
    }
}

static inline void jilsdau_take_update(struct jilsdau_buffer *it, struct jilsdau_reply *told)
{
    told->tag = (int)jilsdau_take_number(it, 1);
    jilsdau_need(it, told->tag >= JILSDAU_WRITTEN && told->tag <= JILSDAU_STALE, JILSDAU_BAD_REPLY);
    if (told->tag == JILSDAU_DONE)
        jilsdau_take_reads(it, (size_t)jilsdau_take_number(it, 1), told);
    else if (told->tag <= JILSDAU_MISMATCH || told->tag >= JILSDAU_COMPARE_FAILED)
        told->number = jilsdau_take_number(it, told->tag == JILSDAU_COMPARE_FAILED ? 1 : 8);
}

/* Takes the body of a reply to a request of this kind; returns its pass, or 0 if it has none. */
static inline uint64_t jilsdau_take_reply(struct jilsdau_buffer *in, int asked, struct jilsdau_reply *told)
{
    uint64_t pass = told->kind <= JILSDAU_READ_REPLY ? jilsdau_take_number(in, 8) : 0;
    asked = asked == JILSDAU_STATUS ? JILSDAU_STATUS_REPLY : asked;
    jilsdau_need(in, told->kind == JILSDAU_REFUSED || told->kind == asked, JILSDAU_BAD_REPLY);
    if (told->kind == JILSDAU_UPDATE_REPLY)
        jilsdau_take_update(in, told);
    if (told->kind == JILSDAU_READ_REPLY)
        jilsdau_take_reads(in, 1, told);
    if (told->kind == JILSDAU_REFUSED) {
        told->number = jilsdau_take_number(in, 1);
        told->detail = jilsdau_take_number(in, 8);
    }
    if (told->kind == JILSDAU_STATUS_REPLY)
        told->text = jilsdau_take(in, (size_t)jilsdau_take_number(in, 4));
    return pass;
}

/* Receives the next `size` bytes at the end of `in`. */
static inline void jilsdau_receive(struct jilsdau *it, size_t size)
{
    unsigned char *at = jilsdau_grow(&it->in, size);
    while (at && size > 0) {
        ssize_t got = recv(it->socket, at, size, 0);
        if (got < 0 && errno == EINTR)
            continue;
        jilsdau_need(&it->in, got > 0, JILSDAU_LOST);
        at = got > 0 ? at + got : NULL;
        size -= got > 0 ? (size_t)got : 0;
    }
}

/* Sends the frame in `out`, and receives the payload of the next frame. */
static inline void jilsdau_exchange(struct jilsdau *it)
{
    size_t sent = 0, size;
    while (sent < it->out.size && !it->in.fault) {
        ssize_t more = send(it->socket, it->out.at + sent, it->out.size - sent, MSG_NOSIGNAL);
        jilsdau_need(&it->in, more >= 0 || errno == EINTR, JILSDAU_LOST);
        sent += more > 0 ? (size_t)more : 0;
    }
    jilsdau_receive(it, 4);
    size = (size_t)jilsdau_take_number(&it->in, 4);
    jilsdau_need(&it->in, size <= JILSDAU_FRAME, JILSDAU_BAD_REPLY);
    jilsdau_receive(it, size);
}

static inline void jilsdau_decode(struct jilsdau *it, const struct jilsdau_request *asked, size_t count, struct jilsdau_reply *told)
{
    struct jilsdau_buffer *in = &it->in;
    uint64_t version = jilsdau_take_number(in, 1), kind = jilsdau_take_number(in, 1), pass, largest = it->pass;
    int is_one = count == 1 || kind == JILSDAU_REFUSED;
    size_t at;
    memset(told, 0, count * sizeof *told);
    jilsdau_need(in, version == 1 || version == 2, JILSDAU_BAD_REPLY);
    if (!is_one)
        jilsdau_need(in, kind == JILSDAU_MANY_REPLY && jilsdau_take_number(in, 1) == count, JILSDAU_BAD_REPLY);
    for (at = 0; at < count && !in->fault; at++) {
        told[at].kind = (int)(is_one ? kind : jilsdau_take_number(in, 1));
        if (at > 0 && is_one)
            told[at] = told[0];
        else if ((pass = jilsdau_take_reply(in, asked[at].kind, told + at)) > largest)
            largest = pass;
    }
    jilsdau_need(in, in->next == in->size, JILSDAU_BAD_REPLY);
    it->pass = in->fault ? it->pass : largest;
}

/* Asks `count` requests, 1 to 8, in one frame, and gives their replies in order. If the frame is refused each reply is that refusal. */
static inline int jilsdau_ask(struct jilsdau *it, const struct jilsdau_request *asked, size_t count, struct jilsdau_reply *told)
{
    size_t at;
    it->out.size = it->in.size = it->in.next = 0;
    it->out.fault = it->in.fault = 0;
    jilsdau_need(&it->out, count >= 1 && count <= JILSDAU_AT_ONCE, JILSDAU_BAD_REQUEST);
    jilsdau_write(&it->out, 4, 0);
    jilsdau_write(&it->out, 1, count > 1 ? 2 : 1);
    if (count > 1)
        jilsdau_write(&it->out, 2, 4 << 8 | count);
    for (at = 0; at < count && !it->out.fault; at++)
        jilsdau_write_request(it, asked + at);
    if (it->out.fault || it->socket < 0)
        return it->out.fault ? it->out.fault : JILSDAU_NO_SERVER;
    for (at = 0; at < 4; at++)
        it->out.at[at] = (unsigned char)((it->out.size - 4) >> (24 - 8 * at));
    jilsdau_exchange(it);
    jilsdau_decode(it, asked, count, told);
    return it->in.fault ? jilsdau_disconnect(it, it->in.fault) : JILSDAU_OK;
}

#endif
