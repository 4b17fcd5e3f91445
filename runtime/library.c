/* What the library for C has beside its proved object: memory, by the C library of the program that calls it, and the call itself, which
   takes null pointers where nothing is passed. Nothing here is proved: it is trusted. */
#include "zirofen.h"

void *malloc(size_t size);
void *realloc(void *block, size_t size);
void free(void *block);

/* malloc(3): a block has the alignment that any type of at most its size wants, up to 16. The object asks for no more. */
struct tried {
    _Bool ok;
    void *block;
};

static struct tried tried(void *found) {
    static _Alignas(16) char nothing;
    return (struct tried){found != 0, found ? found : &nothing};
}
struct tried rattle_alloc(size_t size, size_t alignment) {
    return tried(alignment > 16 ? 0 : malloc(size ? size : alignment));
}
void rattle_dealloc(void *it) { free(it); }
struct tried rattle_realloc(void *it, size_t kept, size_t size, size_t alignment) {
    (void)kept;
    return tried(realloc(it, size ? size : alignment));
}

/* the proved one: no pointer is null */
unsigned char zirofen_call(const char *words, size_t words_length, const char *tree, size_t tree_length, const char *other,
                           size_t other_length, char *report, size_t room, size_t *wanted);

/* A text: of a null pointer the empty one. */
#define TEXT(text, length) (text) ? (text) : "", (text) ? (length) : 0

int zirofen_run(const char *words, size_t words_length, const char *tree, size_t tree_length, const char *other, size_t other_length,
                char *report, size_t room, size_t *wanted) {
    char nowhere;
    size_t length;
    return zirofen_call(TEXT(words, words_length), TEXT(tree, tree_length), TEXT(other, other_length), report ? report : &nowhere,
                        report ? room : 0, wanted ? wanted : &length);
}
