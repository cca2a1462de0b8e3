/*
** ix: exact search in collections of named texts, for C and for every language that calls C.
**
** What a call computes is proved: docs/guide/library.md says which promises hold, and what rests on the caller.
**
** TEXTS
**   A collection text is UTF-8, one document a line: its name (1 to 255 bytes), a TAB, its text, LF.
**   A stop text is UTF-8, one word a line: words that are left out of the documents. Size 0: no stop words.
**   A query is UTF-8: words, "phrases", AND, OR, NOT, NEAR/n, brackets, and patterns with stars.
**   A pattern is UTF-8: a piece of a term, with a star where anything may stand.
**   An index text is what ix_build and ix_merge give, or the program's `ix build`, `ix merge` or `ix upgrade`; version 1 or 2.
**   A run text is what ix_run gives, or the program's `ix run`: a part of a collection, to be merged with the others.
**   None of them ends with a NUL: each is handed over by its first byte and its size in bytes.
**
** THE BUFFER
**   A call puts its bytes into `out`, which has room for `out_size` of them, and tells in `found->size` how many there
**   are. Where there are more, `out` has the first `out_size` of them and nothing is written behind it: call again
**   with room for `found->size`. No NUL is put at the end. `out_size` may be 0, to learn the size alone.
**
** WHAT RESTS ON THE CALLER: nothing here can be checked from inside.
**   - NO POINTER IS NULL, also where its size is 0, and each points to as many bytes as its size says.
**   - `OUT`, `FOUND` AND THE TEXTS DO NOT OVERLAP. Texts may overlap one another: they are only read.
**   - Nobody changes a text, `out` or `found` during the call.
**   - No size is above PTRDIFF_MAX.
**   - malloc, realloc and free are those of one allocator.
**   - No call is made from a signal handler, nor in the forked child of a process with threads.
**
**
** THE HANDLE
**   An `ix_index` holds an opened index. All zero bits: closed, as in `ix_index index = {0};`. ix_index_open opens it,
**   which is paid once; then it is asked any number of times, and closed. Asking a closed handle is answered with
**   IX_CLOSED, closing it once more does nothing. What rests on the caller besides:
**   - A HANDLE IS ALL ZERO BITS BEFORE ITS FIRST CALL, and only the calls below write it.
**   - A HANDLE IS USED BY ONE THREAD AT A TIME: searching writes it too. Many handles may be opened on one text, and
**     used side by side by as many threads.
**   - It is not copied: of two copies of an open handle, closing one leaves the other dangling. To move it, copy its
**     bytes and set the old ones to zero.
**   - It overlaps no text, nor `out` and `found`.
**   - An open handle that is written over or forgotten is never freed.
**
** THREADS
**   A call starts no thread, and two calls share nothing but the texts that they read and a handle that both are
**   given. Any number may run side by side, each with its own `out`, `found` and handle.
**
** MEMORY
**   What a call takes it gives back before it returns, but what an open handle holds: a copy of the index text with its
**   tables, until ix_index_close or the next ix_index_open. The caller owns every buffer; there is nothing else to be
**   freed.
*/
#ifndef IX_H
#define IX_H

#include <stdbool.h>
#include <stddef.h>
#include <stdint.h>

#ifdef __cplusplus
extern "C" {
#endif

/* What a call answers: nothing but these. */
enum {
  IX_DONE = 0,     /* done, and `found` tells of what; that nothing was found is no refusal */
  IX_REFUSED = 1,  /* refused: `found->area` and `found->number` tell why, and `out` has the line that says it */
  IX_NOT_UTF8 = 2, /* a text that is to be UTF-8 is not: `found->area` tells which; `out` is as it was */
  IX_CLOSED = 3,   /* the handle is closed; `out` is as it was, and `found` is all zero */
  IX_SIZES = 4     /* the sizes do not sum to that of the bytes; `out` is as it was, and `found` is all zero */
};

/* What a refusal is about, in `found->area`. Its place in the area's list of errors is in `found->number`, from 1. */
enum {
  IX_COLLECTION = 1, /* the collection text breaks a rule; it need not be UTF-8 for this: that is error 2 of the list */
  IX_STOP = 2,       /* the stop text breaks a rule */
  IX_QUERY = 3,      /* the query does */
  IX_PATTERN = 4,    /* the pattern does */
  IX_INDEX = 5,      /* the bytes are no index text */
  IX_RUN = 6,        /* no run holds so many documents or tokens, counted from that number on; or memory ran out */
  IX_MERGE = 7,      /* the run texts are not merged */
  IX_BUILD = 8,      /* (of the program) */
  IX_MEMORY = 9      /* memory ran out, where no other area tells it */
};

/* What a call tells beside its answer. */
typedef struct ix_found {
  size_t count;    /* how many names or terms were found; 0 after a refusal, and for index and run texts */
  size_t size;     /* how many bytes there are for `out`, whether it has room for them or not; 0 after IX_NOT_UTF8 */
  uint32_t area;   /* IX_COLLECTION .. IX_MEMORY after a refusal or IX_NOT_UTF8; else 0 */
  uint32_t number; /* the error's number after a refusal; else 0 */
} ix_found;

/* The handle of an opened index. Its fields are the library's. */
typedef struct ix_index {
  bool is_open; /* whether it holds an index */
  void *held;   /* the index, where it does */
} ix_index;

/*
** ix_ask: asks a collection text.
**
** Gives the names of exactly the documents that satisfy the query, each with LF, in the order of the text;
** `found->count` is how many. Each document is looked at: to ask often, build an index once.
**
** Refuses with the areas IX_STOP, IX_COLLECTION, IX_QUERY (in this order of tests) and IX_MEMORY. The line is area,
** number and name, as in `query 2: Unexpected(2)`, without LF.
** IX_NOT_UTF8 with IX_STOP or IX_QUERY.
*/
uint32_t ix_ask(const uint8_t *collection, size_t collection_size, const uint8_t *stop, size_t stop_size,
                const uint8_t *query, size_t query_size, uint8_t *out, size_t out_size, ix_found *found);

/*
** ix_build: builds the index text of a collection text.
**
** Gives the one index text, of version 2, of the documents without the stop words: the same bytes as `ix build`.
** It is made by the calling thread alone, and made again by each call: keep more room than you think. An index text is
** seldom longer than its collection text.
**
** Refuses with IX_STOP, IX_COLLECTION and IX_MEMORY. IX_NOT_UTF8 with IX_STOP.
*/
uint32_t ix_build(const uint8_t *collection, size_t collection_size, const uint8_t *stop, size_t stop_size,
                  uint8_t *out, size_t out_size, ix_found *found);

/*
** ix_run: inverts a part of a collection.
**
** Gives the one run text of the documents without the stop words, which are counted from `first` on: the same bytes as
** `ix run --first`. A part begins at the number of documents before it.
**
** Refuses with IX_STOP, IX_COLLECTION, IX_RUN and IX_MEMORY. IX_NOT_UTF8 with IX_STOP.
*/
uint32_t ix_run(const uint8_t *collection, size_t collection_size, const uint8_t *stop, size_t stop_size, uint32_t first,
                uint8_t *out, size_t out_size, ix_found *found);

/*
** ix_merge: merges the runs of all parts of a collection.
**
** The run texts stand one behind another in `runs`, in any order of the parts; `sizes` has the size of each, and `count`
** is how many there are. Gives the one index text, of version 2, of the whole collection: the same bytes as ix_build of
** all documents in one, by the same stop words. `sizes` is not null either, also where `count` is 0.
**
** IX_SIZES where the sizes do not sum to `runs_size`. Refuses with IX_MERGE and IX_MEMORY. The line says what the program
** prints: `merge 1: Gap(2)` where no run has document 2 and one has a document behind it, `merge 2: Overlap(2)` where two
** have it, `merge 3: StopDiffers`, `merge 4: Source(1, Magic)` where the bytes at place 1 of the list, from 0, are no run
** text, with their error, `merge 5: TooLarge`, and `merge 6: Write` or `merge 7: Memory` where memory ran out.
*/
uint32_t ix_merge(const uint8_t *runs, size_t runs_size, const size_t *sizes, size_t count, uint8_t *out,
                  size_t out_size, ix_found *found);

/*
** ix_search: asks an index text.
**
** Gives the names of exactly the documents of the index that satisfy the query, each with LF, in the order of the
** documents; `found->count` is how many. The query is read under the stop words of the index. What is no index text of
** a collection is refused whole: whatever the bytes, no answer is made up.
**
** Refuses with IX_INDEX, IX_QUERY and IX_MEMORY. IX_NOT_UTF8 with IX_QUERY.
*/
uint32_t ix_search(const uint8_t *index, size_t index_size, const uint8_t *query, size_t query_size,
                   uint8_t *out, size_t out_size, ix_found *found);

/*
** ix_search_trusting: asks an index text without a check of the whole.
**
** If the bytes are the index text of a collection, gives what ix_search gives. Only what the query needs is read: of a
** large index text that is mapped into memory, a few pages. The stop words, the names, the terms that are asked about and
** their lists are checked; a fault elsewhere may not be noticed, and an answer may then be that of another collection. For
** index texts that ix wrote and that are kept well.
**
** Refuses with IX_INDEX, IX_QUERY and IX_MEMORY. IX_NOT_UTF8 with IX_QUERY.
*/
uint32_t ix_search_trusting(const uint8_t *index, size_t index_size, const uint8_t *query, size_t query_size,
                            uint8_t *out, size_t out_size, ix_found *found);

/*
** ix_terms: lists the terms of an index text.
**
** Gives a line for exactly each term that matches the pattern, in the order of the terms' bytes: the term, a TAB, in
** how many documents it is, LF; `found->count` is how many terms.
**
** Refuses with IX_INDEX, IX_PATTERN and IX_MEMORY. IX_NOT_UTF8 with IX_PATTERN.
*/
uint32_t ix_terms(const uint8_t *index, size_t index_size, const uint8_t *pattern, size_t pattern_size,
                  uint8_t *out, size_t out_size, ix_found *found);

/*
** ix_index_open: opens an index text once, to be asked often.
**
** The handle stands from then on for the collection of this index text, of which it keeps a copy: the caller may write
** over the text. What is no index text of a collection is refused. What the handle held before is closed, also where
** the call is refused. After IX_DONE `out` is as it was, and `found` is all zero.
**
** Refuses with IX_INDEX and IX_MEMORY; the handle is closed then.
*/
uint32_t ix_index_open(ix_index *index, const uint8_t *text, size_t text_size, uint8_t *out, size_t out_size,
                       ix_found *found);

/* ix_index_close: gives back what the handle holds. On a closed handle it does nothing. */
void ix_index_close(ix_index *index);

/*
** ix_index_search and ix_index_terms: what ix_search and ix_terms give and refuse of the index text on which the handle
** was opened, without opening it again. The handle stands for the same index afterwards. IX_CLOSED where it is closed.
*/
uint32_t ix_index_search(ix_index *index, const uint8_t *query, size_t query_size, uint8_t *out, size_t out_size,
                         ix_found *found);
uint32_t ix_index_terms(ix_index *index, const uint8_t *pattern, size_t pattern_size, uint8_t *out, size_t out_size,
                        ix_found *found);

/*
** ix_index_names: lists the documents of an opened index.
**
** Gives the names of exactly all documents of the index that the handle stands for, each with LF, in their order;
** `found->count` is how many. The handle stands for the same index afterwards. Refuses with IX_MEMORY. IX_CLOSED where
** it is closed.
*/
uint32_t ix_index_names(ix_index *index, uint8_t *out, size_t out_size, ix_found *found);

#if defined(__cplusplus)
static_assert(sizeof(ix_found) == 2 * sizeof(size_t) + 8, "ix_found");
static_assert(sizeof(ix_index) == 2 * sizeof(void *), "ix_index");
static_assert(sizeof(size_t) == 8, "ix is for machines of 64 bits");
}
#elif defined(__STDC_VERSION__) && __STDC_VERSION__ >= 201112L
_Static_assert(sizeof(ix_found) == 2 * sizeof(size_t) + 8, "ix_found");
_Static_assert(offsetof(ix_found, size) == sizeof(size_t), "ix_found.size");
_Static_assert(offsetof(ix_found, area) == 2 * sizeof(size_t), "ix_found.area");
_Static_assert(offsetof(ix_found, number) == 2 * sizeof(size_t) + 4, "ix_found.number");
_Static_assert(sizeof(ix_index) == 2 * sizeof(void *), "ix_index");
_Static_assert(offsetof(ix_index, held) == sizeof(void *), "ix_index.held");
_Static_assert(sizeof(size_t) == 8, "ix is for machines of 64 bits");
#endif

#endif
