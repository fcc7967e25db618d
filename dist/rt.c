/* The seven functions of C that the proved programs call beside the C library: memory, the words of the command line, and
 * errno. Rattle's kit has them as object code; these do what its declarations ask of each, which the comments say. No proof
 * covers either of them: the proofs take these contracts on trust, as they take those of malloc, read and pthread_create. */
#include <errno.h>
#include <stdbool.h>
#include <stddef.h>
#include <stdlib.h>
#include <string.h>
#include <sys/types.h>

/* whether there is memory, and where; without memory, the address of a byte that nobody owns */
struct block {
    bool is_there;
    void *start;
};

static char nobodys;
static size_t words_count;
static char **words;

/* The C library hands a constructor what it hands to main. */
__attribute__((constructor)) static void keep_words(int count, char **list) {
    words_count = (size_t)count;
    words = list;
}

static struct block block_at(void *start) {
    return (struct block){start != NULL, start != NULL ? start : &nobodys};
}

/* Gives a new block of this size. `align` divides 16, and malloc aligns to 16. A block of no bytes has an address too. */
struct block rattle_alloc(size_t size, size_t align) {
    return block_at(malloc(size != 0 ? size : align));
}

/* Gives a block of this size that begins with the first `kept` bytes of the old one, which is gone. If there is no memory,
 * the old block is as it was. */
struct block rattle_realloc(void *old, size_t kept, size_t size, size_t align) {
    (void)kept;
    return block_at(realloc(old, size != 0 ? size : align));
}

/* Frees what the two functions above gave. */
void rattle_dealloc(void *start) {
    free(start);
}

/* The number of words, with the program's name. */
size_t rattle_arg_count(void) {
    return words_count;
}

/* Puts a word at the start of the buffer, without a zero, and returns its length: -1 if there is no such word, and -2 if the
 * buffer is too small, which is full then. */
ssize_t rattle_arg(size_t number, char *buffer, size_t room) {
    size_t length;
    if (number >= words_count || words[number] == NULL)
        return -1;
    length = strlen(words[number]);
    memcpy(buffer, words[number], length <= room ? length : room);
    return length <= room ? (ssize_t)length : -2;
}

int rattle_errno(void) {
    return errno;
}

void rattle_set_errno(int number) {
    errno = number;
}
