/*
 * A plain server of the generator's traffic, for bench/run to compare with. It reads a capture of version 1 from
 * standard input, carries out each command as soon as it is complete, and writes the replies file. It has one thread
 * and one hash table. With --journal it also keeps an entry of 80 bytes for each call on a key, from which the call and
 * its reply could be written: so it keeps every item that was ever stored. It knows the commands get, set, append, incr
 * and delete in the form that the generator gives them; on every other input it ends with status 1.
 *
 * With --threads N it has N threads, and 16 hash tables with a lock and a journal each. A connection that was sent bytes
 * is served by any thread, one at a time, at most 64 commands before the others have their turn. A thread that finds no
 * such connection reads the next piece of the input, if none is reading.
 */
#include <pthread.h>
#include <sched.h>
#include <stdatomic.h>
#include <stdint.h>
#include <stdio.h>
#include <stdlib.h>
#include <string.h>
#include <unistd.h>

#define INLINE static inline __attribute__((always_inline))

enum { PIECE = 65536, MOST_WORDS = 64, VALUE_LIMIT = 1048576, SHARDS = 16, TURN = 64, MOST_THREADS = 64, LINE = 64 };

/* A row of bytes that grows. */
struct text {
    char *bytes;
    size_t length, room;
};

struct word {
    const char *bytes;
    size_t length;
};

/* What was stored under a key: the bytes are those of the key, and then those of the value. */
struct item {
    struct item *next;
    uint32_t hash, flags, key_length, length;
    char bytes[];
};

/* What has come and is not served, of which `taken` bytes are served; what was answered; and how many commands were.
   What comes while a thread serves it is sent, under the lock; and it is waiting from then until all is served. */
struct connection {
    struct text kept, output;
    size_t taken;
    uint64_t commands;
    pthread_mutex_t lock;
    struct text sent;
    int waiting;
};

enum call { GET, SET, APPEND, INCR, DELETE };
enum reply { MISS, HIT, STORED, NOT_STORED, TOO_LARGE, NUMBER, NO_NUMBER, NOT_FOUND, DELETED };

/* A call of the journal. The item is the one that was found or stored: it has the flags and the value of call and
   reply. The number is what incr adds, or the length of what append adds. A key of up to 32 bytes is here. */
struct entry {
    uint64_t stamp, command, number;
    struct item *item;
    uint32_t connection, part;
    uint16_t call, reply;
    uint32_t key_length;
    union {
        char bytes[32];
        char *longer;
    } key;
};

_Static_assert(sizeof(struct entry) == 80, "an entry has 80 bytes");

/* A hash table, and the journal of the calls on it. */
struct shard {
    _Alignas(LINE) pthread_mutex_t lock;
    struct item **table;
    size_t places, items;
    uint64_t stamp;
    struct text journal;
};

static struct shard shards[SHARDS];
static int has_journal, threads;
/* What the next entry is of. */
static _Thread_local struct entry next_entry;

static void give_up(const char *why) {
    fprintf(stderr, "plain: %s\n", why);
    exit(1);
}

static void *checked(void *memory) {
    if (memory == NULL) give_up("out of memory");
    return memory;
}

/* ---- texts */

static void put(struct text *text, const char *bytes, size_t length) {
    if (text->room - text->length < length) {
        text->room = 2 * text->room > text->length + length ? 2 * text->room : text->length + length + 64;
        text->bytes = checked(realloc(text->bytes, text->room));
    }
    memcpy(text->bytes + text->length, bytes, length);
    text->length += length;
}

#define PUT(text, literal) put(text, literal, sizeof(literal) - 1)

static size_t digits_of(uint64_t number, char digits[20]) {
    char turned[20];
    size_t count = 0;
    do turned[count++] = '0' + number % 10; while ((number /= 10) != 0);
    for (size_t i = 0; i < count; i++) digits[i] = turned[count - 1 - i];
    return count;
}

static void put_number(struct text *text, uint64_t number) {
    char digits[20];
    put(text, digits, digits_of(number, digits));
}

/* Whether these bytes are 1 to 20 digits of a number below 2^64. */
static int read_number(const char *bytes, size_t length, uint64_t *number) {
    *number = 0;
    if (length < 1 || length > 20) return 0;
    for (size_t i = 0; i < length; i++) {
        if (bytes[i] < '0' || bytes[i] > '9') return 0;
        if (__builtin_mul_overflow(*number, 10, number)) return 0;
        if (__builtin_add_overflow(*number, bytes[i] - '0', number)) return 0;
    }
    return 1;
}

static uint64_t number_of(struct word word) {
    uint64_t number;
    if (!read_number(word.bytes, word.length, &number)) give_up("a number is not one");
    return number;
}

/* ---- the journal */

/* Keeps the entry of a call, if there is a journal. */
INLINE void note(struct shard *shard, enum call call, struct word key, enum reply reply, struct item *item,
                 uint64_t number) {
    if (!has_journal) return;
    struct entry *entry = &next_entry;
    entry->stamp = ++shard->stamp;
    entry->call = call;
    entry->reply = reply;
    entry->item = item;
    entry->number = number;
    entry->key_length = key.length;
    char *bytes = entry->key.bytes;
    if (key.length > sizeof entry->key.bytes) bytes = entry->key.longer = checked(malloc(key.length));
    memcpy(bytes, key.bytes, key.length);
    put(&shard->journal, (const char *)entry, sizeof *entry);
    entry->part++;
}

/* ---- items */

static uint32_t hash_of(struct word key) {
    uint32_t hash = 2166136261u;
    for (size_t i = 0; i < key.length; i++) hash = (hash ^ (unsigned char)key.bytes[i]) * 16777619u;
    return hash;
}

/* The shard of a key, which is this thread's until it is left. */
static struct shard *enter(uint32_t hash) {
    if (!threads) return &shards[0];
    struct shard *shard = &shards[hash >> 28];
    pthread_mutex_lock(&shard->lock);
    return shard;
}

static void leave(struct shard *shard) {
    if (threads) pthread_mutex_unlock(&shard->lock);
}

/* The link that leads to the item of a key, or to nothing. */
INLINE struct item **find(struct shard *shard, struct word key, uint32_t hash) {
    struct item **link = &shard->table[hash & (shard->places - 1)];
    while (*link && !((*link)->hash == hash && (*link)->key_length == key.length &&
                      memcmp((*link)->bytes, key.bytes, key.length) == 0))
        link = &(*link)->next;
    return link;
}

/* Twice the places. */
static void grow(struct shard *shard) {
    size_t wide = shard->places ? 2 * shard->places : 1024;
    struct item **wider = checked(calloc(wide, sizeof *wider));
    for (size_t i = 0; i < shard->places; i++)
        for (struct item *item = shard->table[i], *next; item; item = next) {
            next = item->next;
            item->next = wider[item->hash & (wide - 1)];
            wider[item->hash & (wide - 1)] = item;
        }
    free(shard->table);
    shard->table = wider;
    shard->places = wide;
}

/* Stores a value of two parts in place of what the link leads to, and gives its item. */
static struct item *store(struct shard *shard, struct item **link, struct word key, uint32_t hash, uint32_t flags,
                          struct word one, struct word two) {
    struct item *old = *link;
    struct item *item = checked(malloc(sizeof *item + key.length + one.length + two.length));
    *item = (struct item){old ? old->next : NULL, hash, flags, key.length, one.length + two.length};
    memcpy(item->bytes, key.bytes, key.length);
    memcpy(item->bytes + key.length, one.bytes, one.length);
    memcpy(item->bytes + key.length + one.length, two.bytes, two.length);
    *link = item;
    if (!has_journal) free(old);
    if (!old && ++shard->items > shard->places) grow(shard);
    return item;
}

static struct word value_of(struct item *item) {
    return (struct word){item->bytes + item->key_length, item->length};
}

/* ---- commands */

static void get(struct text *output, struct word key) {
    uint32_t hash = hash_of(key);
    struct shard *shard = enter(hash);
    struct item *item = *find(shard, key, hash);
    note(shard, GET, key, item ? HIT : MISS, item, 0);
    if (item) {
        PUT(output, "VALUE ");
        put(output, key.bytes, key.length);
        PUT(output, " ");
        put_number(output, item->flags);
        PUT(output, " ");
        put_number(output, item->length);
        PUT(output, "\r\n");
        put(output, item->bytes + item->key_length, item->length);
        PUT(output, "\r\n");
    }
    leave(shard);
}

static void set(struct text *output, struct word key, uint32_t flags, struct word value, int quiet) {
    uint32_t hash = hash_of(key);
    struct shard *shard = enter(hash);
    struct item *item = store(shard, find(shard, key, hash), key, hash, flags, value, (struct word){"", 0});
    note(shard, SET, key, STORED, item, 0);
    leave(shard);
    if (!quiet) PUT(output, "STORED\r\n");
}

static void append(struct text *output, struct word key, struct word value) {
    uint32_t hash = hash_of(key);
    struct shard *shard = enter(hash);
    struct item **link = find(shard, key, hash);
    if (!*link) {
        note(shard, APPEND, key, NOT_STORED, NULL, value.length);
        PUT(output, "NOT_STORED\r\n");
    } else if ((*link)->length + value.length > VALUE_LIMIT) {
        note(shard, APPEND, key, TOO_LARGE, NULL, value.length);
        PUT(output, "SERVER_ERROR object too large for cache\r\n");
    } else {
        struct item *item = store(shard, link, key, hash, (*link)->flags, value_of(*link), value);
        note(shard, APPEND, key, STORED, item, value.length);
        PUT(output, "STORED\r\n");
    }
    leave(shard);
}

static void incr(struct text *output, struct word key, uint64_t amount) {
    uint32_t hash = hash_of(key);
    struct shard *shard = enter(hash);
    struct item **link = find(shard, key, hash);
    uint64_t number;
    char digits[20];
    if (!*link) {
        note(shard, INCR, key, NOT_FOUND, NULL, amount);
        PUT(output, "NOT_FOUND\r\n");
    } else if (!read_number((*link)->bytes + (*link)->key_length, (*link)->length, &number)) {
        note(shard, INCR, key, NO_NUMBER, NULL, amount);
        PUT(output, "CLIENT_ERROR cannot increment or decrement non-numeric value\r\n");
    } else {
        size_t count = digits_of(number + amount, digits);
        struct word value = {digits, count};
        struct item *item = store(shard, link, key, hash, (*link)->flags, value, (struct word){"", 0});
        note(shard, INCR, key, NUMBER, item, amount);
        put(output, digits, count);
        PUT(output, "\r\n");
    }
    leave(shard);
}

static void delete(struct text *output, struct word key) {
    uint32_t hash = hash_of(key);
    struct shard *shard = enter(hash);
    struct item **link = find(shard, key, hash), *item = *link;
    note(shard, DELETE, key, item ? DELETED : NOT_FOUND, NULL, 0);
    if (item) {
        *link = item->next;
        if (!has_journal) free(item);
        shard->items--;
        PUT(output, "DELETED\r\n");
    } else {
        PUT(output, "NOT_FOUND\r\n");
    }
    leave(shard);
}

/* ---- streams */

static size_t words_of(const char *line, size_t length, struct word words[MOST_WORDS]) {
    size_t count = 0;
    for (size_t at = 0; at < length;) {
        while (at < length && line[at] == ' ') at++;
        size_t begin = at;
        while (at < length && line[at] != ' ') at++;
        if (at == begin) break;
        if (count == MOST_WORDS) give_up("a line has too many words");
        words[count++] = (struct word){line + begin, at - begin};
    }
    return count;
}

static int is(struct word word, const char *name) {
    return word.length == strlen(name) && memcmp(word.bytes, name, word.length) == 0;
}

/* Carries out the first command of these bytes, and answers how many it has; 0 where it is not complete. */
static size_t serve_one(struct text *output, const char *bytes, size_t length) {
    const char *end = memchr(bytes, '\n', length);
    struct word words[MOST_WORDS];
    if (!end) return 0;
    size_t taken = end - bytes + 1, line = end > bytes && end[-1] == '\r' ? taken - 2 : taken - 1;
    size_t count = words_of(bytes, line, words);
    if (count >= 2 && is(words[0], "get")) {
        for (size_t i = 1; i < count; i++) get(output, words[i]);
        PUT(output, "END\r\n");
    } else if (count >= 5 && (is(words[0], "set") || is(words[0], "append"))) {
        struct word value = {bytes + taken, number_of(words[4])};
        if (length - taken < value.length + 2) return 0;
        taken += value.length + 2;
        int quiet = count == 6 && is(words[5], "noreply");
        if (is(words[0], "set")) set(output, words[1], number_of(words[2]), value, quiet);
        else append(output, words[1], value);
    } else if (count == 3 && is(words[0], "incr")) {
        incr(output, words[1], number_of(words[2]));
    } else if (count == 2 && is(words[0], "delete")) {
        delete(output, words[1]);
    } else {
        give_up("a command is not one of the generator's");
    }
    return taken;
}

/* Carries out the commands of these bytes, at most `most`, and answers how many bytes they have. */
static size_t serve_all(struct connection *connection, uint32_t number, const char *bytes, size_t length, size_t most) {
    size_t at = 0, taken = 1;
    next_entry.connection = number;
    for (size_t served = 0; served < most && at < length && taken > 0; served++) {
        next_entry.command = connection->commands;
        next_entry.part = 0;
        taken = serve_one(&connection->output, bytes + at, length - at);
        at += taken;
        connection->commands += taken > 0;
    }
    return at;
}

/* Serves all of a segment that came. */
static void serve(struct connection *connection, uint32_t number, const char *bytes, size_t length) {
    struct text *kept = &connection->kept;
    if (kept->length) {
        put(kept, bytes, length);
        bytes = kept->bytes;
        length = kept->length;
    }
    size_t at = serve_all(connection, number, bytes, length, SIZE_MAX);
    if (bytes == kept->bytes) {
        memmove(kept->bytes, kept->bytes + at, length - at);
        kept->length = length - at;
    } else if (at < length) {
        put(kept, bytes + at, length - at);
    }
}

/* ---- files */

static char input[2 * PIECE + 16];
static size_t here, there;
static struct connection *connections;
static uint32_t count;

/* The next `count` bytes of the input. */
static const char *next(size_t count) {
    if (there - here < count) {
        memmove(input, input + here, there - here);
        there -= here;
        here = 0;
        while (there < count) {
            ssize_t taken = read(0, input + there, PIECE);
            if (taken <= 0) give_up("the capture ended");
            there += taken;
        }
    }
    here += count;
    return input + here - count;
}

static uint32_t number_at(const char *bytes) {
    const unsigned char *at = (const unsigned char *)bytes;
    return (uint32_t)at[0] << 24 | at[1] << 16 | at[2] << 8 | at[3];
}

static void big_endian(char *bytes, uint64_t number, int count) {
    for (int i = count - 1; i >= 0; i--, number >>= 8) bytes[i] = number;
}

static void write_replies(void) {
    fwrite("ZYGREP1\n", 1, 8, stdout);
    for (uint32_t i = 0; i < count; i++) {
        char head[13] = {'R'};
        big_endian(head + 1, i, 4);
        big_endian(head + 5, connections[i].output.length, 8);
        fwrite(head, 1, sizeof head, stdout);
        fwrite(connections[i].output.bytes, 1, connections[i].output.length, stdout);
    }
    fwrite("E", 1, 1, stdout);
    if (fflush(stdout) || ferror(stdout)) give_up("writing failed");
}

/* A segment of the capture. */
struct segment {
    uint32_t number, length;
    const char *bytes;
};

/* Reads the next segment; 0 at the end of the capture. */
static int next_segment(struct segment *segment) {
    char tag = *next(1);
    if (tag == 'E') return 0;
    const char *head = next(8);
    *segment = (struct segment){number_at(head), number_at(head + 4), NULL};
    if (tag != 'S' || segment->number >= count || segment->length > 65535) give_up("a record is not a segment");
    segment->bytes = next(segment->length);
    return 1;
}

/* ---- threads */

/* The connections that are waiting and that no thread serves, first come, first served. */
static struct {
    pthread_mutex_t lock;
    uint32_t *numbers;
    size_t first;
    atomic_size_t length;
} ready = {.lock = PTHREAD_MUTEX_INITIALIZER};

/* Who reads, whether all is read, and how many connections are waiting. */
static pthread_mutex_t reading = PTHREAD_MUTEX_INITIALIZER;
static atomic_int is_read;
static atomic_uint waiting;

static void make_ready(uint32_t number) {
    pthread_mutex_lock(&ready.lock);
    ready.numbers[(ready.first + ready.length) % count] = number;
    ready.length++;
    pthread_mutex_unlock(&ready.lock);
}

/* Takes the first connection that is ready; 0 where there is none. */
static int take_ready(uint32_t *number) {
    if (ready.length == 0) return 0;
    pthread_mutex_lock(&ready.lock);
    int found = ready.length > 0;
    if (found) {
        *number = ready.numbers[ready.first];
        ready.first = (ready.first + 1) % count;
        ready.length--;
    }
    pthread_mutex_unlock(&ready.lock);
    return found;
}

/* Gives a connection the bytes of its next segment. */
static void send_to(uint32_t number, const char *bytes, size_t length) {
    struct connection *connection = &connections[number];
    pthread_mutex_lock(&connection->lock);
    put(&connection->sent, bytes, length);
    int is_new = !connection->waiting;
    connection->waiting = 1;
    pthread_mutex_unlock(&connection->lock);
    if (!is_new) return;
    waiting++;
    make_ready(number);
}

/* Reads the segments of some 64 KiB; 0 where another thread reads. */
static int read_piece(void) {
    struct segment segment;
    if (pthread_mutex_trylock(&reading)) return 0;
    for (size_t taken = 0; taken < PIECE && !is_read; taken += 9 + segment.length)
        if (next_segment(&segment)) send_to(segment.number, segment.bytes, segment.length);
        else is_read = 1;
    pthread_mutex_unlock(&reading);
    return 1;
}

/* Adds what was sent to what is kept and not served. */
static void take_sent(struct connection *connection) {
    struct text *kept = &connection->kept, *sent = &connection->sent, served = *kept;
    size_t left = kept->length - connection->taken;
    pthread_mutex_lock(&connection->lock);
    if (sent->length) {
        if (left) {
            memmove(kept->bytes, kept->bytes + connection->taken, left);
            kept->length = left;
            put(kept, sent->bytes, sent->length);
        } else {
            *kept = *sent;
            *sent = served;
        }
        connection->taken = 0;
        sent->length = 0;
    }
    pthread_mutex_unlock(&connection->lock);
}

/* Serves a connection's next commands; it is ready again where there may be more of them. */
static void serve_turn(uint32_t number) {
    struct connection *connection = &connections[number];
    uint64_t before = connection->commands;
    take_sent(connection);
    struct text *kept = &connection->kept;
    size_t left = kept->length - connection->taken;
    connection->taken += serve_all(connection, number, kept->bytes + connection->taken, left, TURN);
    int more = connection->commands - before == TURN && connection->taken < kept->length;
    pthread_mutex_lock(&connection->lock);
    more = more || connection->sent.length > 0;
    connection->waiting = more;
    pthread_mutex_unlock(&connection->lock);
    if (more) make_ready(number);
    else waiting--;
}

/* What each thread does until all is read and served. */
static void *work(void *nothing) {
    uint32_t number;
    while (!is_read || waiting) {
        if (take_ready(&number)) serve_turn(number);
        else if (is_read || !read_piece()) sched_yield();
    }
    return nothing;
}

static void serve_on_threads(void) {
    pthread_t others[MOST_THREADS];
    ready.numbers = checked(calloc(count, sizeof *ready.numbers));
    for (uint32_t i = 0; i < count; i++) pthread_mutex_init(&connections[i].lock, NULL);
    for (int i = 0; i < SHARDS; i++) pthread_mutex_init(&shards[i].lock, NULL);
    for (int i = 1; i < threads; i++)
        if (pthread_create(&others[i], NULL, work, NULL)) give_up("a thread was refused");
    work(NULL);
    for (int i = 1; i < threads; i++) pthread_join(others[i], NULL);
}

/* ---- the program */

static void read_words(int number, char **words) {
    for (int i = 1; i < number; i++)
        if (!strcmp(words[i], "--journal")) has_journal = 1;
        else if (!strcmp(words[i], "--threads") && i + 1 < number) threads = atoi(words[++i]);
        else threads = -1;
    if (threads < 0 || threads > MOST_THREADS) give_up("usage: plain [--journal] [--threads N] < CAPTURE > REPLIES");
}

int main(int number_of_words, char **words) {
    struct segment segment;
    read_words(number_of_words, words);
    if (memcmp(next(8), "ZYGCAP1\n", 8)) give_up("not a capture of version 1");
    count = number_at(next(4));
    connections = checked(calloc(count + 1, sizeof *connections));
    for (int i = 0; i < (threads ? SHARDS : 1); i++) grow(&shards[i]);
    if (threads) serve_on_threads();
    else
        while (next_segment(&segment))
            serve(&connections[segment.number], segment.number, segment.bytes, segment.length);
    write_replies();
    return 0;
}
