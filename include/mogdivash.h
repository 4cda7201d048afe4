/* Mogdivash for C: reading a CFF font, finding glyphs, their names and CIDs, the items of its INDEXes, subsets, the glyph that costs a
   small subset, and short charstrings, as functions of the static library capi.

       tools/library              proves it, and writes build/libmogdivash.a and build/libmogdivash.so, for x86-64 Linux
       cc program.c build/libmogdivash.a

   Installed (./install): cc program.c $(pkg-config --cflags --libs mogdivash)

   Each function is proved to end without a fault and to answer as crates/capi/specs/Capi.antt, Subset.antt and the definitions of
   crates/glyph_entries say, whatever the bytes are. None keeps anything from one call to the next or allocates; of other libraries
   they call memcpy and memset alone.

   A font is a file as it comes: an OpenType file (.otf), which begins with `OTTO` and whose first table `CFF ` is the font, or a bare
   CFF font. A subset is a bare font.

   A slice is a pointer and the number of its elements. What is lent for writing must not overlap what else is lent, and a
   uint16_t, uint32_t or uint64_t must be aligned. The calling thread must have 512 KiB of stack free for cff_subset,
   cff_subset_cid, cff_subset_small and cff_subset_cid_small, 1.5 MiB for cff_trace and cff_check_record, and 3 MiB for
   cff_blocking_glyph. Beyond this there is nothing that a caller must keep.

   Time. A call is linear in its input but for what is said at cff_trace and two things, which come with hostile fonts and records:
   more than 128 different Privates that overlap, and the fonts of a set, are read again wherever they are named (65,535 font
   dictionaries each with a Private of 100 KB of its own, all overlapping, a font of 1.2 MB: 11 seconds of cff_read; it grows with the
   product of both); and where rows do not rise, all are passed over for each 8,192 of them (200,000 falling rows of one glyph: half a
   second; the 342,878 rows of all glyphs of Noto Sans CJK, shuffled: 0.8, rising 0.2), and for each hint mask of glyphs whose CIDs do
   not rise. Subsetting passes over the top DICT five times, cff_read once (60 MB of reals: 4 seconds, and 1). A service that takes
   uploads should limit the size of a file, put the rows of a record in order, and call from a process of its own with a limit on its
   CPU time.

   Composed glyphs. A glyph that is composed of two others (endchar with four operands, as accented letters of old fonts are) is not
   plain: nothing is promised of it, and the subset does not add its parts. A caller that keeps one keeps its parts too: the glyphs
   of the two standard names that the last two operands are the codes of.

   Each function returns 0, or the number of a refusal. With 0 the answer stands at the start of what was lent for it, and the rest
   stays as it was. With a refusal nothing is written, work words apart. The refusals of reading come first, then
   CFF_NO_SUCH_NUMBER, then CFF_OUTPUT; those of subsetting are said at cff_subset. */

#ifndef MOGDIVASH_H
#define MOGDIVASH_H

#include <stddef.h>
#include <stdint.h>

#ifdef __cplusplus
extern "C" {
#endif

/* Refusals: document 01, 'Entries and their refusals', and document 02. The first five and CFF_NO_TABLE are reading's. */
#define CFF_TRUNCATED 1      /* a structure ends before what was being read; to cff_find_names also names that end before their lengths */
#define CFF_MALFORMED 2      /* another fault in a structure */
#define CFF_UNSUPPORTED 3    /* a form that is not handled; to subsetting also a font of the other keying, a stroked one, or the Expert
                                encoding where the subset is to have none */
#define CFF_TOO_LONG 4       /* a file of more than 67,108,864 bytes; a new name of more than 65,535 */
#define CFF_REAL 5           /* a well-formed real past its limits */
#define CFF_NO_SUCH_NUMBER 6 /* no item or glyph of that number, or no such kind; to subsetting a number past the font's glyphs */
#define CFF_NOT_FOUND 7      /* a glyph to keep that finding its own name or CID does not give */
#define CFF_RECORD 8         /* a record or a flag that is not of its form */
#define CFF_WORK_WORDS 9     /* fewer than W work words */
#define CFF_SUBSET 10        /* a subset of more than 67,108,864 bytes */
#define CFF_OUTPUT 11        /* fewer elements lent than the answer has */
#define CFF_STRING_ID 12     /* a string id above 64,999 */
#define CFF_PAIRS 13         /* an encoding of more than 255 codes of kept glyphs */
#define CFF_NOT_ACCEPTED 14  /* a record right in form that cff_check_record does not accept */
#define CFF_NO_TABLE 15      /* an OpenType file without a table `CFF ` */

/* The words of cff_read's answer. */
#define CFF_GLYPHS 0  /* glyphs */
#define CFF_GLOBALS 1 /* global subroutines */
#define CFF_STRINGS 2 /* strings */
#define CFF_CID 3     /* 1 for a CID-keyed font, 0 for a name-keyed one */
#define CFF_WORK 4    /* W: 2 x glyphs, and a bit for each subroutine: of the globals, and of the locals of each
                         font dictionary, rounded up to words of 32 */
#define CFF_COUNTS 5  /* how many words there are */

/* The answer of finding for a glyph that is absent. */
#define CFF_ABSENT 65536

/* The words of the answer of subsetting. */
#define CFF_WAY 0          /* 0 the subroutines renumbered, 1 those that are not reached stubbed, 2 all copied */
#define CFF_LENGTH 1       /* how many bytes the subset has */
#define CFF_SUBSET_WORDS 2 /* how many words there are */

/* Kinds of items. */
#define CFF_CHARSTRING 0
#define CFF_GLOBAL 1
#define CFF_STRING 2

/* Reads every font of the set and answers for the first: the five words above. */
uint8_t cff_read(const uint8_t *font, size_t font_len, uint64_t *answer, size_t answer_len);

/* Finds the first glyph of that name. Answers one word: the glyph, or CFF_ABSENT, as for any name in a CID-keyed font. */
uint8_t cff_find_name(const uint8_t *font, size_t font_len, const uint8_t *name, size_t name_len, uint64_t *answer,
                      size_t answer_len);

/* Finds the first glyph of that CID. Answers one word: the glyph, or CFF_ABSENT, as for any CID in a name-keyed font. */
uint8_t cff_find_cid(const uint8_t *font, size_t font_len, uint16_t cid, uint64_t *answer, size_t answer_len);

/* The words of cff_glyph's answer. */
#define CFF_GLYPH_KEYING 0 /* 1 for a CID-keyed font, 0 for a name-keyed one */
#define CFF_GLYPH_ID 1     /* the CID of the glyph, or its string id */
#define CFF_GLYPH_FD 2     /* its font dictionary; 0 in a name-keyed font */
#define CFF_GLYPH_NAME 3   /* how many bytes its name has; 0 in a CID-keyed font */
#define CFF_GLYPH_WORDS 4  /* how many words there are */

/* What is asked of one glyph: copies its name, the text of its string id, to the start of name, and answers the four words above. A
   CID-keyed font has no names. CFF_NO_SUCH_NUMBER for a number past the font's glyphs, then CFF_OUTPUT for fewer bytes than the name has
   or fewer than four words. */
uint8_t cff_glyph(const uint8_t *font, size_t font_len, uint64_t glyph, uint8_t *name, size_t name_len, uint64_t *answer,
                  size_t answer_len);

/* Finds the first glyph of each name, with one reading of the font: writes to the start of glyphs, for each in turn, what cff_find_name
   answers for it, CFF_ABSENT among them. The names stand one behind the other in names; lengths has the length of each. The refusals are
   reading's, then CFF_TRUNCATED for lengths that are more together than names has bytes, then CFF_OUTPUT for fewer glyphs than lengths.
   Each name costs a look at the names of the glyphs up to its own. */
uint8_t cff_find_names(const uint8_t *font, size_t font_len, const uint8_t *names, size_t names_len, const uint32_t *lengths,
                       size_t lengths_len, uint32_t *glyphs, size_t glyphs_len);

/* Finds the first glyph of each CID, with one reading of the font and one pass over its glyphs: writes to the start of glyphs what
   cff_find_cid answers for each. CFF_OUTPUT for fewer glyphs than CIDs. It takes 260 KiB of stack. */
uint8_t cff_find_cids(const uint8_t *font, size_t font_len, const uint16_t *cids, size_t cids_len, uint32_t *glyphs,
                      size_t glyphs_len);

/* Copies an item to out, and answers its length in one word, size. */
uint8_t cff_item(const uint8_t *font, size_t font_len, uint8_t kind, uint64_t number, uint8_t *out, size_t out_len,
                 uint64_t *size, size_t size_len);

/* The words of cff_item_place's answer. */
#define CFF_PLACE 0        /* where the item stands in the file's bytes, from their start on */
#define CFF_PLACE_LENGTH 1 /* how many bytes it has */
#define CFF_PLACE_WORDS 2  /* how many words there are */

/* The same item without a copy, with one reading of the font: answers the two words above. The item is the part of font from the place
   on, all of which lies in the font_len bytes. */
uint8_t cff_item_place(const uint8_t *font, size_t font_len, uint8_t kind, uint64_t number, uint64_t *answer, size_t answer_len);

/* The refusal of that lookup, or 0. Nothing is lent, so it is never CFF_OUTPUT. */
uint8_t cff_item_refusal(const uint8_t *font, size_t font_len, uint8_t kind, uint64_t number);

/* Cuts a name-keyed font to glyph 0 and the glyphs of the keep list, under a new name. record is the reach record, ten bytes a row
   in any order (rising order is the fastest: in another the rows of hint masks are sorted by windows of 8,192, a pass over the record
   for each), and traced its flag, 0 or 1. Writes the subset to the start of out, and answers two words: the way and the length. A kept glyph that is plain, and for which the
   record lists what it meets, or the flag is 0, is found in the subset by its name and unfolds there to the same list.

   encoding says whether the subset is to have the font's encoding, for a printer that is driven by codes: 0 no, any other yes. With
   it each code whose glyph is kept has the glyph of the same name in the subset, and no other code has any: its codes stand behind
   the charset, rising, each with a string id; of the standard encoding nothing is written, of the Expert one its number, 1. All 256
   codes are refused by CFF_PAIRS. Without it a subset has no encoding, which means the standard one, and a font with the Expert
   encoding is refused by CFF_UNSUPPORTED. Each supplement of the font's encoding, 255 at most, costs a look through the glyphs' names.

   The refusals are reading's, then CFF_UNSUPPORTED, CFF_MALFORMED, CFF_TOO_LONG, CFF_NO_SUCH_NUMBER, CFF_NOT_FOUND, CFF_RECORD,
   CFF_WORK_WORDS, CFF_STRING_ID, CFF_PAIRS, CFF_SUBSET, CFF_OUTPUT, in this order; CFF_OUTPUT also for fewer than two words of
   answer. With a refusal out and answer stay as they were.

   The first W work words (CFF_WORK of cff_read) end as zeros with 0 and with each refusal after CFF_WORK_WORDS in this order. With
   the others all stay as they were, and those behind W always do. */
uint8_t cff_subset(const uint8_t *font, size_t font_len, const uint8_t *name, size_t name_len, const uint16_t *keep,
                   size_t keep_len, const uint8_t *record, size_t record_len, uint8_t traced, uint8_t encoding, uint32_t *work,
                   size_t work_len, uint8_t *out, size_t out_len, uint64_t *answer, size_t answer_len);

/* The same for a CID-keyed font, in which glyphs are found by their CIDs. It has no codes, and its subset no encoding. */
uint8_t cff_subset_cid(const uint8_t *font, size_t font_len, const uint8_t *name, size_t name_len, const uint16_t *keep,
                       size_t keep_len, const uint8_t *record, size_t record_len, uint8_t traced, uint32_t *work,
                       size_t work_len, uint8_t *out, size_t out_len, uint64_t *answer, size_t answer_len);

/* How many work words the two calls below ask for, from the five words of cff_read's answer: a bit for each glyph, rounded up to words,
   and the bits of the subroutines, as in W: (glyphs + 31) / 32 + W - 2 x glyphs. */
#define CFF_SMALL_WORK(counts) (((counts)[CFF_GLYPHS] + 31) / 32 + (counts)[CFF_WORK] - 2 * (counts)[CFF_GLYPHS])

/* cff_subset with few work words, for big fonts on a small machine (document 02, Wish 10): a font of 65,535 glyphs without subroutines
   asks for 2,048 words, 8 KiB, where cff_subset asks for 131,070. On every input, with as many words lent to each as it asks for,
   number, way, length and bytes are those of cff_subset. Fewer than CFF_SMALL_WORK words are refused by CFF_WORK_WORDS, in its place in
   the order; with 0 and with each refusal after it the first CFF_SMALL_WORK words end as zeros, and those behind them always stay. */
uint8_t cff_subset_small(const uint8_t *font, size_t font_len, const uint8_t *name, size_t name_len, const uint16_t *keep,
                         size_t keep_len, const uint8_t *record, size_t record_len, uint8_t traced, uint8_t encoding,
                         uint32_t *work, size_t work_len, uint8_t *out, size_t out_len, uint64_t *answer, size_t answer_len);

/* cff_subset_cid with few work words, in the same way. */
uint8_t cff_subset_cid_small(const uint8_t *font, size_t font_len, const uint8_t *name, size_t name_len, const uint16_t *keep,
                             size_t keep_len, const uint8_t *record, size_t record_len, uint8_t traced, uint32_t *work,
                             size_t work_len, uint8_t *out, size_t out_len, uint64_t *answer, size_t answer_len);

/* The words of the answer of tracing. */
#define CFF_FLAG 0          /* 1, or 0 with an empty record where a kept glyph is not plain */
#define CFF_RECORD_LENGTH 1 /* how many bytes the record has */
#define CFF_TRACE_WORDS 2   /* how many words there are */

/* Traces glyph 0 and the glyphs of the keep list: writes the reach record of document 01 to the start of record, ten bytes a row in
   rising order without repeats, and answers two words: the flag and the length. What is written is what cff_subset and cff_subset_cid
   take, with the flag for traced: a subset cut by it holds every plain kept glyph.

   The refusals are reading's, then CFF_NO_SUCH_NUMBER, CFF_NOT_FOUND, and CFF_OUTPUT for a record that is longer than what is lent, or
   for fewer than two words of answer. With a refusal record and answer stay as they were; bytes behind the record always do.

   A glyph costs up to 65,536 steps a pass, whatever its size; there is one pass over the kept glyphs for each 64,512 rows, and as many
   again to write them where there are more than 64,511. 1,000 kept glyphs that each make 65,530 calls, a font of 137 KB, take 1.7 to 1.9
   seconds. In which order rows are met matters little: each is put among the newest 512, and 512 at a time are merged with those that the
   pass holds (200,050 rows in falling order, a font of 200 KB: 0.07 seconds, shuffled 0.04, rising 0.02). */
uint8_t cff_trace(const uint8_t *font, size_t font_len, const uint16_t *keep, size_t keep_len, uint8_t *record,
                  size_t record_len, uint64_t *answer, size_t answer_len);

/* Checks a record of another tracer for glyph 0 and the glyphs of the keep list, as it would be given with the flag 1 for traced. It is
   accepted, with 0, exactly where each of these glyphs is plain, the record lists all that they meet, and each subroutine that it lists
   as reached exists, those of font dictionaries that none of these glyphs has aside. Rows may stand in any order and more than once, and
   there may be further ones. What cff_trace writes with the flag 1 is accepted. A subset cut with an accepted record and the flag 1 holds
   every kept glyph; where the record has a second length for a mask that is met, it is stubbed.

   The refusals are reading's, then CFF_NO_SUCH_NUMBER, CFF_NOT_FOUND, CFF_RECORD, CFF_NOT_ACCEPTED. Nothing is written.

   It costs the passes of cff_trace over the kept glyphs, one for each 64,512 rows that they meet, and one pass over the record for each,
   whatever its order. */
uint8_t cff_check_record(const uint8_t *font, size_t font_len, const uint16_t *keep, size_t keep_len, const uint8_t *record,
                         size_t record_len);

/* Which glyph costs the small file. Where the subset of the keep list, traced and cut by what was traced, is stubbed (way 1), answers in one
   word the smallest kept glyph but 0 such that the list without it, traced anew, gives way 0. CFF_ABSENT where the way is another, or
   where no single kept glyph but 0 does this. The cut is by the font's keying and has no encoding; its output counts as large enough.

   The refusals are reading's, then CFF_UNSUPPORTED, CFF_MALFORMED, CFF_TOO_LONG, CFF_NO_SUCH_NUMBER, CFF_NOT_FOUND, CFF_OUTPUT for a traced
   record that is longer than record, CFF_WORK_WORDS, CFF_STRING_ID, CFF_SUBSET, in this order, and last CFF_OUTPUT for no word of answer.

   The first W work words and all bytes of record end as zeros with 0 and with each refusal after CFF_WORK_WORDS in this order. With the
   others all stay as they were, and the words behind W always do.

   Where the way is 1 each kept glyph may be tried, which takes a trace and the measure of a subset: for k kept glyphs k + 2 traces. The
   calling thread must have 3 MiB of stack free. */
uint8_t cff_blocking_glyph(const uint8_t *font, size_t font_len, const uint8_t *name, size_t name_len, const uint16_t *keep,
                           size_t keep_len, uint32_t *work, size_t work_len, uint8_t *record, size_t record_len, uint64_t *answer,
                           size_t answer_len);

/* The next short charstring. Short are the plain charstrings of 1 to 4 bytes that make no call and whose last byte is their only endchar:
   2,059,854 of them, the shorter ones first, those of one length rising byte by byte. Given one of them, or nothing, the next is written
   to the start of out, and one word, size, answers how many bytes it has: 0 where none is left. Called with nothing and then with each
   answer, each of them comes once. No font is read.

   Other bytes are CFF_MALFORMED; then CFF_OUTPUT for fewer bytes than the next one has (four are always enough), or for no word. With a
   refusal, and where none is left, out stays as it was. */
uint8_t cff_next_charstring(const uint8_t *code, size_t code_len, uint8_t *out, size_t out_len, uint64_t *size,
                            size_t size_len);

#ifdef __cplusplus
}
#endif

#endif
