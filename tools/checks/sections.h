/*
 * What the C hosts share: cases on standard input. A case is a tag in two bytes, and the sections that its operation
 * takes, each after its length in bytes in four bytes; low bytes first. docs/FORMAT.md has the tags.
 */
#ifndef SECTIONS_H
#define SECTIONS_H

#include "require.h"

#include <stdint.h>

/* Each array is memory of exactly its size, so that a checker of memory sees a read or a write past its end. */
struct words {
    uint16_t *word;
    size_t length;
};

struct bytes {
    uint8_t *byte;
    size_t length;
};

struct files {
    struct words sheet_template, script, bookings;
};

/* Words as the two parameters that lend them. */
#define LENT(words) (words).word, (words).length

/* The files as the parameters that lend them. */
#define LENT_FILES(files) LENT((files).sheet_template), LENT((files).script), LENT((files).bookings)

static inline void *memory(size_t size)
{
    void *found = malloc(size);
    REQUIRE(found != NULL || size == 0);
    return found;
}

/* Words that are all 7. */
static inline struct words new_words(size_t length)
{
    struct words made;
    size_t i;
    made.length = length;
    made.word = (uint16_t *)memory(length * sizeof made.word[0]);
    for (i = 0; i < length; i++) {
        made.word[i] = 7;
    }
    return made;
}

/* The words of bytes, low byte first. */
static inline struct words words_of(const uint8_t *byte, size_t count)
{
    struct words made = new_words(count);
    size_t i;
    for (i = 0; i < count; i++) {
        made.word[i] = (uint16_t)(byte[2 * i] + 256 * byte[2 * i + 1]);
    }
    return made;
}

/* The next section. */
static inline struct bytes read_bytes(void)
{
    uint8_t head[4];
    struct bytes section;
    REQUIRE(fread(head, 1, sizeof head, stdin) == sizeof head);
    section.length = head[0] + 256 * (size_t)head[1] + 65536 * (size_t)head[2] + 16777216 * (size_t)head[3];
    section.byte = (uint8_t *)memory(section.length);
    REQUIRE(fread(section.byte, 1, section.length, stdin) == section.length);
    return section;
}

/* The words of the next section. */
static inline struct words read_words(void)
{
    struct bytes section = read_bytes();
    struct words made;
    REQUIRE(section.length % 2 == 0);
    made = words_of(section.byte, section.length / 2);
    free(section.byte);
    return made;
}

/* The number of a section that has one word. */
static inline uint16_t read_number(void)
{
    struct words section = read_words();
    uint16_t number;
    REQUIRE(section.length == 1);
    number = section.word[0];
    free(section.word);
    return number;
}

static inline struct files read_files(void)
{
    struct files files;
    files.sheet_template = read_words();
    files.script = read_words();
    files.bookings = read_words();
    return files;
}

static inline void free_files(struct files *files)
{
    free(files->sheet_template.word);
    free(files->script.word);
    free(files->bookings.word);
}

/* The next tag; 0 at the end of the cases. */
static inline unsigned read_tag(void)
{
    int low = getchar();
    int high = getchar();
    REQUIRE((low == EOF) == (high == EOF));
    return low == EOF ? 0 : (unsigned)low + 256 * (unsigned)high;
}

#endif
