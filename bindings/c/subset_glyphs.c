/* Cuts a CFF font, an OpenType file (.otf) as it is or a bare font, down to glyph 0 and the glyphs that are named by their numbers.

       cc subset_glyphs.c $(pkg-config --cflags --libs mogdivash) -o subset_glyphs      where the library is installed
       subset_glyphs [-e] FONT NAME OUTPUT GLYPH...

   With -e the subset of a name-keyed font has the font's encoding: its codes have the glyphs that they had, where these are kept.

   The glyphs are traced: the subset has only the subroutines that they reach, or all where one of them is not plain. A glyph that is
   composed of others (endchar with four operands) is not, and is kept without its parts: name those too. */

#include <stdio.h>
#include <stdlib.h>
#include <string.h>

#include "mogdivash.h"

/* The most work words that are allocated, 4 MiB: a small font can ask for half a gigabyte. */
#define MOST_WORDS (UINT64_C(1) << 20)

static void fail(const char *what)
{
    fprintf(stderr, "subset_glyphs: %s\n", what);
    exit(1);
}

static void *allocated(size_t bytes)
{
    void *room = malloc(bytes == 0 ? 1 : bytes);
    if (room == NULL)
        fail("no memory");
    return room;
}

/* The bytes of a file, of which one more than the longest font are enough to be refused. */
static uint8_t *file_bytes(const char *path, size_t *len)
{
    const size_t most = 67108865;
    uint8_t *bytes = allocated(most);
    FILE *file = fopen(path, "rb");
    if (file == NULL)
        fail("the font cannot be opened");
    *len = fread(bytes, 1, most, file);
    if (ferror(file))
        fail("the font cannot be read");
    fclose(file);
    return bytes;
}

static void write_file(const char *path, const uint8_t *bytes, size_t len)
{
    FILE *file = fopen(path, "wb");
    if (file == NULL || fwrite(bytes, 1, len, file) != len || fclose(file) != 0)
        fail("the subset cannot be written");
}

static void check(uint8_t refusal)
{
    if (refusal != 0) {
        fprintf(stderr, "subset_glyphs: refused by %d\n", refusal);
        exit(1);
    }
}

/* The number that a word spells in decimal digits alone; a word that spells none is no glyph. */
static unsigned long glyph_number(const char *word)
{
    char *end;
    if (word[0] < '0' || word[0] > '9')
        fail("a glyph is a decimal number");
    unsigned long glyph = strtoul(word, &end, 10);
    if (*end != '\0')
        fail("a glyph is a decimal number");
    return glyph;
}

/* A reach record and its flag; it is asked for again with more room where there is too little. */
struct record {
    uint8_t *bytes;
    size_t len;
    uint8_t flag;
};

static struct record traced(const uint8_t *font, size_t font_len, const uint16_t *keep, size_t keep_len)
{
    for (size_t room = 65536;; room *= 4) {
        uint8_t *bytes = allocated(room);
        uint64_t answer[CFF_TRACE_WORDS];
        uint8_t refusal = cff_trace(font, font_len, keep, keep_len, bytes, room, answer, CFF_TRACE_WORDS);
        if (refusal == 0) {
            struct record record = {bytes, (size_t)answer[CFF_RECORD_LENGTH], (uint8_t)answer[CFF_FLAG]};
            return record;
        }
        free(bytes);
        if (refusal != CFF_OUTPUT || room > SIZE_MAX / 4)
            check(refusal);
    }
}

int main(int argc, char **argv)
{
    uint8_t encoding = argc > 1 && strcmp(argv[1], "-e") == 0;
    argc -= encoding;
    argv += encoding;
    if (argc < 4)
        fail("usage: subset_glyphs [-e] FONT NAME OUTPUT GLYPH...");
    size_t font_len;
    uint8_t *font = file_bytes(argv[1], &font_len);
    uint64_t counts[CFF_COUNTS];
    check(cff_read(font, font_len, counts, CFF_COUNTS));

    size_t keep_len = (size_t)argc - 4;
    uint16_t *keep = allocated(keep_len * sizeof *keep);
    for (size_t k = 0; k < keep_len; k++) {
        unsigned long glyph = glyph_number(argv[4 + k]);
        if (glyph >= counts[CFF_GLYPHS])
            check(CFF_NO_SUCH_NUMBER);
        keep[k] = (uint16_t)glyph;
    }

    struct record record = traced(font, font_len, keep, keep_len);
    if (counts[CFF_WORK] > MOST_WORDS)
        check(CFF_WORK_WORDS);
    size_t work_len = (size_t)counts[CFF_WORK];
    uint32_t *work = allocated(work_len * sizeof *work);
    /* No subset is longer than 67,108,864 bytes. */
    size_t out_len = 67108864;
    uint8_t *out = allocated(out_len);
    uint64_t answer[CFF_SUBSET_WORDS];
    const uint8_t *name = (const uint8_t *)argv[2];
    size_t name_len = strlen(argv[2]);
    if (counts[CFF_CID])
        check(cff_subset_cid(font, font_len, name, name_len, keep, keep_len, record.bytes, record.len, record.flag, work, work_len,
                             out, out_len, answer, CFF_SUBSET_WORDS));
    else
        check(cff_subset(font, font_len, name, name_len, keep, keep_len, record.bytes, record.len, record.flag, encoding, work,
                         work_len, out, out_len, answer, CFF_SUBSET_WORDS));

    write_file(argv[3], out, (size_t)answer[CFF_LENGTH]);
    static const char *const ways[] = {"renumbered", "stubbed where they are not reached", "copied"};
    printf("%zu of %llu glyphs kept, %llu of %zu bytes, subroutines %s\n", keep_len, (unsigned long long)counts[CFF_GLYPHS],
           (unsigned long long)answer[CFF_LENGTH], font_len, ways[answer[CFF_WAY]]);
    free(out);
    free(work);
    free(record.bytes);
    free(keep);
    free(font);
    return 0;
}
