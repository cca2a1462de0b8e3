/*
** Every call of include/ix.h with right and wrong texts, and with buffers of every size: what is put out, what is told,
** and that nothing is written behind the buffer. To be run under valgrind, which sees reads behind the texts.
*/
#include <ix.h>
#include <stdio.h>
#include <stdlib.h>
#include <string.h>

static const char *five = "a\tx y\nb\ty\nc\t\nd\ty x y\ne\tx\n";

static int faults;

static void see(int well, const char *what, int line) {
  if (!well) {
    faults++;
    fprintf(stderr, "line %d: %s\n", line, what);
  }
}
#define SEE(what) see(what, #what, __LINE__)

/* A copy of exactly these bytes on the heap, so that a read behind them is seen. */
static uint8_t *copy(const void *bytes, size_t size) {
  uint8_t *made = malloc(size ? size : 1);
  if (size) memcpy(made, bytes, size);
  return made;
}

enum call { ASK, BUILD, SEARCH, TRUSTING, TERMS, HANDLE_SEARCH, HANDLE_TERMS, HANDLE_NAMES };

/* What the calls by handle ask. */
static ix_index handle;

/* Makes a call over copies of the texts, with a buffer of exactly this size. */
static uint32_t make(enum call call, const void *one, size_t one_size, const char *two, size_t two_size, const char *three,
                     size_t three_size, uint8_t *out, size_t out_size, ix_found *found) {
  uint8_t *a = copy(one, one_size), *b = copy(two, two_size), *c = copy(three, three_size);
  uint32_t status = 9;
  switch (call) {
  case ASK: status = ix_ask(a, one_size, b, two_size, c, three_size, out, out_size, found); break;
  case BUILD: status = ix_build(a, one_size, b, two_size, out, out_size, found); break;
  case SEARCH: status = ix_search(a, one_size, c, three_size, out, out_size, found); break;
  case TRUSTING: status = ix_search_trusting(a, one_size, c, three_size, out, out_size, found); break;
  case TERMS: status = ix_terms(a, one_size, c, three_size, out, out_size, found); break;
  case HANDLE_SEARCH: status = ix_index_search(&handle, c, three_size, out, out_size, found); break;
  case HANDLE_TERMS: status = ix_index_terms(&handle, c, three_size, out, out_size, found); break;
  case HANDLE_NAMES: status = ix_index_names(&handle, out, out_size, found); break;
  }
  free(a), free(b), free(c);
  return status;
}

/* Makes a call with every size of buffer up to beyond what is wanted. */
static void expect(enum call call, const void *one, size_t one_size, const char *stop, const char *text, uint32_t status,
                   size_t count, uint32_t area, uint32_t number, const void *wanted, size_t size, int line) {
  for (size_t room = 0; room <= size + 2; room++) {
    uint8_t *out = malloc(room ? room : 1);
    memset(out, 7, room);
    ix_found found = {99, 99, 99, 99};
    uint32_t got = make(call, one, one_size, stop, strlen(stop), text, strlen(text), out, room, &found);
    size_t front = size < room ? size : room, behind = front;
    while (behind < room && out[behind] == 7) behind++;
    see(got == status && found.count == count && found.size == size && found.area == area && found.number == number, "told",
        line);
    see(memcmp(out, wanted, front) == 0 && behind == room, "put out", line);
    free(out);
  }
}
#define EXPECT(call, one, size, stop, text, status, count, area, number, wanted)                                            \
  expect(call, one, size, stop, text, status, count, area, number, wanted, strlen(wanted), __LINE__)

/* Opens the handle on a copy of a text, which is gone afterwards, and looks at what is told. */
static void open_on(const void *text, size_t size, uint32_t status, const char *wanted, int line) {
  uint8_t *held = copy(text, size), out[64];
  memset(out, 7, sizeof out);
  ix_found found = {99, 99, 99, 99};
  uint32_t got = ix_index_open(&handle, held, size, out, sizeof out, &found);
  size_t length = strlen(wanted);
  see(got == status && found.size == length && found.count == 0 && handle.is_open == (status == IX_DONE), "opened", line);
  see(memcmp(out, wanted, length) == 0 && out[length] == 7, "told", line);
  free(held);
}

/* The handle, opened and asked as often as it pleases, closed twice, asked when it is closed. */
static void by_handle(const uint8_t *index, size_t size) {
  static const ix_index closed;
  EXPECT(HANDLE_SEARCH, "", 0, "", "y", IX_CLOSED, 0, 0, 0, "");
  ix_index_close(&handle);
  SEE(memcmp(&handle, &closed, sizeof handle) == 0);
  open_on(index, size, IX_DONE, "", __LINE__);
  for (int round = 0; round < 3; round++) {
    EXPECT(HANDLE_SEARCH, "", 0, "", "\"y x\"", IX_DONE, 1, 0, 0, "d\n");
    EXPECT(HANDLE_SEARCH, "", 0, "", "NOT y", IX_DONE, 2, 0, 0, "c\ne\n");
    EXPECT(HANDLE_SEARCH, "", 0, "", "(", IX_REFUSED, 0, IX_QUERY, 3, "query 3: End");
    EXPECT(HANDLE_SEARCH, "", 0, "", "\xff", IX_NOT_UTF8, 0, IX_QUERY, 0, "");
    EXPECT(HANDLE_TERMS, "", 0, "", "*x", IX_DONE, 1, 0, 0, "x\t3\n");
    EXPECT(HANDLE_TERMS, "", 0, "", "x", IX_REFUSED, 0, IX_PATTERN, 1, "pattern 1: NoStar");
    EXPECT(HANDLE_TERMS, "", 0, "", "\xff", IX_NOT_UTF8, 0, IX_PATTERN, 0, "");
    EXPECT(HANDLE_NAMES, "", 0, "", "", IX_DONE, 5, 0, 0, "a\nb\nc\nd\ne\n");
  }
  open_on(index, size, IX_DONE, "", __LINE__);
  EXPECT(HANDLE_SEARCH, "", 0, "", "y", IX_DONE, 3, 0, 0, "a\nb\nd\n");
  open_on(index, size - 1, IX_REFUSED, "index 3: Trailer", __LINE__);
  EXPECT(HANDLE_TERMS, "", 0, "", "x*", IX_CLOSED, 0, 0, 0, "");
  open_on("", 0, IX_REFUSED, "index 1: Short", __LINE__);
  open_on(index, size, IX_DONE, "", __LINE__);
  ix_index moved = handle;
  handle = closed;
  EXPECT(HANDLE_SEARCH, "", 0, "", "y", IX_CLOSED, 0, 0, 0, "");
  handle = moved;
  EXPECT(HANDLE_SEARCH, "", 0, "", "y", IX_DONE, 3, 0, 0, "a\nb\nd\n");
  ix_index_close(&handle);
  ix_index_close(&handle);
  EXPECT(HANDLE_SEARCH, "", 0, "", "y", IX_CLOSED, 0, 0, 0, "");
  EXPECT(HANDLE_TERMS, "", 0, "", "*x", IX_CLOSED, 0, 0, 0, "");
  EXPECT(HANDLE_NAMES, "", 0, "", "", IX_CLOSED, 0, 0, 0, "");
}

/* Merges run texts that lie one behind another, with every size of buffer up to beyond what is wanted. */
static void merge(const uint8_t *runs, size_t runs_size, const size_t *sizes, size_t count, uint32_t status, uint32_t number,
                  const void *wanted, size_t size, int line) {
  uint8_t *held = copy(runs, runs_size);
  size_t *held_sizes = (size_t *)copy(sizes, count * sizeof *sizes);
  for (size_t room = 0; room <= size + 2; room++) {
    uint8_t *out = malloc(room ? room : 1);
    memset(out, 7, room);
    ix_found found = {99, 99, 99, 99};
    uint32_t got = ix_merge(held, runs_size, held_sizes, count, out, room, &found);
    size_t front = size < room ? size : room, behind = front;
    while (behind < room && out[behind] == 7) behind++;
    see(got == status && found.count == 0 && found.size == size && found.number == number, "told", line);
    see(found.area == (status == IX_REFUSED ? IX_MERGE : 0), "area", line);
    see(memcmp(out, wanted, front) == 0 && behind == room, "put out", line);
    free(out);
  }
  free(held), free(held_sizes);
}
#define MERGE(runs, sizes, count, status, number, wanted)                                                                   \
  merge(runs, sizes[0] + (count > 1 ? sizes[1] : 0), sizes, count, status, number, wanted, strlen(wanted), __LINE__)

/* The run text of a part of `five`, behind what stands in the buffer already; answers its size. */
static size_t run_part(size_t begin, size_t end, uint32_t first, const char *stop, uint8_t *out, size_t room) {
  uint8_t *part = copy(five + begin, end - begin), *words = copy(stop, strlen(stop)), none[1];
  ix_found sized, found;
  SEE(ix_run(part, end - begin, words, strlen(stop), first, none, 0, &sized) == IX_DONE);
  SEE(sized.size <= room && sized.count == 0);
  SEE(ix_run(part, end - begin, words, strlen(stop), first, out, sized.size, &found) == IX_DONE);
  SEE(found.size == sized.size && found.area == 0 && found.number == 0);
  free(part), free(words);
  return found.size;
}

/* Parts of the collection inverted by themselves, and merged in the other order, are the index of the whole. */
static void in_parts(const uint8_t *index, size_t size) {
  uint8_t runs[1000], out[64];
  size_t sizes[2], all = strlen(five), cut = 10;
  ix_found found;
  sizes[0] = run_part(cut, all, 2, "", runs, sizeof runs);
  sizes[1] = run_part(0, cut, 0, "", runs + sizes[0], sizeof runs - sizes[0]);
  merge(runs, sizes[0] + sizes[1], sizes, 2, IX_DONE, 0, index, size, __LINE__);
  MERGE(runs, sizes, 1, IX_REFUSED, 1, "merge 1: Gap(0)");
  size_t off[2] = {sizes[0], sizes[1] + 1};
  merge(runs, sizes[0] + sizes[1], off, 2, IX_SIZES, 0, "", 0, __LINE__);
  off[1] = sizes[1] - 1;
  merge(runs, sizes[0] + sizes[1], off, 2, IX_SIZES, 0, "", 0, __LINE__);
  off[0] = SIZE_MAX;
  merge(runs, sizes[0] + sizes[1], off, 2, IX_SIZES, 0, "", 0, __LINE__);
  merge(runs, sizes[0] + sizes[1], sizes, 0, IX_SIZES, 0, "", 0, __LINE__);
  sizes[0] = run_part(0, cut, 0, "", runs, sizeof runs);
  sizes[1] = run_part(cut, all, 3, "", runs + sizes[0], sizeof runs - sizes[0]);
  MERGE(runs, sizes, 2, IX_REFUSED, 1, "merge 1: Gap(2)");
  size_t one[2] = {sizes[0], sizes[0]};
  memcpy(runs + sizes[0], runs, sizes[0]);
  MERGE(runs, one, 2, IX_REFUSED, 2, "merge 2: Overlap(0)");
  sizes[1] = run_part(cut, all, 2, "x", runs + sizes[0], sizeof runs - sizes[0]);
  MERGE(runs, sizes, 2, IX_REFUSED, 3, "merge 3: StopDiffers");
  runs[sizes[0]] ^= 1;
  MERGE(runs, sizes, 2, IX_REFUSED, 4, "merge 4: Source(1, Magic)");
  SEE(ix_run((const uint8_t *)five, all, runs, 0, UINT32_MAX, out, sizeof out, &found) == IX_REFUSED);
  SEE(found.area == IX_RUN && found.number == 1 && found.size == 15 && memcmp(out, "run 1: TooLarge", 15) == 0);
  SEE(ix_run((const uint8_t *)five, all - 1, runs, 0, 0, out, sizeof out, &found) == IX_REFUSED);
  SEE(found.area == IX_COLLECTION && found.number == 5);
  SEE(ix_run((const uint8_t *)five, all, (const uint8_t *)"\xff", 1, 0, out, sizeof out, &found) == IX_NOT_UTF8);
  SEE(found.area == IX_STOP && found.number == 0 && found.size == 0);
}

int main(void) {
  size_t size = strlen(five);
  EXPECT(ASK, five, size, "", "y", IX_DONE, 3, 0, 0, "a\nb\nd\n");
  EXPECT(ASK, five, size, "", "z", IX_DONE, 0, 0, 0, "");
  EXPECT(ASK, "", 0, "", "NOT z", IX_DONE, 0, 0, 0, "");
  EXPECT(ASK, five, size, "x", "\"y x y\"", IX_DONE, 1, 0, 0, "d\n");
  EXPECT(ASK, five, size, "", "y x", IX_REFUSED, 0, IX_QUERY, 2, "query 2: Unexpected(2)");
  EXPECT(ASK, five, size, "", "", IX_REFUSED, 0, IX_QUERY, 1, "query 1: Empty");
  EXPECT(ASK, five, size - 1, "", "y", IX_REFUSED, 0, IX_COLLECTION, 5, "collection 5: NoLineEnd(5)");
  EXPECT(ASK, "\xff", 1, "", "y", IX_REFUSED, 0, IX_COLLECTION, 2, "collection 2: NotUtf8(0)");
  EXPECT(ASK, five, size, "a b", "y", IX_REFUSED, 0, IX_STOP, 1, "stop 1: NotOneWord(1)");
  EXPECT(ASK, five, size, "\xc3", "y", IX_NOT_UTF8, 0, IX_STOP, 0, "");
  EXPECT(ASK, five, size, "", "\xff", IX_NOT_UTF8, 0, IX_QUERY, 0, "");
  EXPECT(BUILD, five, size, "\xff", "", IX_NOT_UTF8, 0, IX_STOP, 0, "");
  EXPECT(BUILD, "a", 1, "", "", IX_REFUSED, 0, IX_COLLECTION, 3, "collection 3: NoTab(1)");
  EXPECT(BUILD, five, size, "a b", "", IX_REFUSED, 0, IX_STOP, 1, "stop 1: NotOneWord(1)");

  ix_found found;
  uint8_t none[1];
  SEE(make(BUILD, five, size, "", 0, "", 0, none, 0, &found) == IX_DONE);
  size_t room = found.size;
  SEE(room >= 64 && found.count == 0);
  uint8_t *index = malloc(room);
  SEE(make(BUILD, five, size, "", 0, "", 0, index, room, &found) == IX_DONE && found.size == room);
  expect(BUILD, five, size, "", "", IX_DONE, 0, 0, 0, index, room, __LINE__);

  EXPECT(SEARCH, index, room, "", "\"y x\"", IX_DONE, 1, 0, 0, "d\n");
  EXPECT(SEARCH, index, room, "", "NOT y", IX_DONE, 2, 0, 0, "c\ne\n");
  EXPECT(SEARCH, index, room, "", "(", IX_REFUSED, 0, IX_QUERY, 3, "query 3: End");
  EXPECT(SEARCH, index, room, "", "\xff", IX_NOT_UTF8, 0, IX_QUERY, 0, "");
  EXPECT(SEARCH, index, 63, "", "y", IX_REFUSED, 0, IX_INDEX, 1, "index 1: Short");
  EXPECT(SEARCH, five, size, "", "y", IX_REFUSED, 0, IX_INDEX, 1, "index 1: Short");
  EXPECT(TRUSTING, index, room, "", "\"y x\"", IX_DONE, 1, 0, 0, "d\n");
  EXPECT(TRUSTING, index, room, "", "NOT y", IX_DONE, 2, 0, 0, "c\ne\n");
  EXPECT(TRUSTING, index, room, "", "(", IX_REFUSED, 0, IX_QUERY, 3, "query 3: End");
  EXPECT(TRUSTING, index, room, "", "\xff", IX_NOT_UTF8, 0, IX_QUERY, 0, "");
  EXPECT(TRUSTING, index, 63, "", "y", IX_REFUSED, 0, IX_INDEX, 1, "index 1: Short");
  EXPECT(TRUSTING, index, room - 1, "", "y", IX_REFUSED, 0, IX_INDEX, 3, "index 3: Trailer");
  EXPECT(TERMS, index, room, "", "*x", IX_DONE, 1, 0, 0, "x\t3\n");
  EXPECT(TERMS, index, room, "", "z*", IX_DONE, 0, 0, 0, "");
  EXPECT(TERMS, index, room, "", "x", IX_REFUSED, 0, IX_PATTERN, 1, "pattern 1: NoStar");
  EXPECT(TERMS, index, room, "", "**", IX_REFUSED, 0, IX_PATTERN, 2, "pattern 2: BareStar");
  EXPECT(TERMS, index, room, "", "\xff", IX_NOT_UTF8, 0, IX_PATTERN, 0, "");
  EXPECT(TERMS, "", 0, "", "x*", IX_REFUSED, 0, IX_INDEX, 1, "index 1: Short");

  by_handle(index, room);
  in_parts(index, room);

  /* An index text with one byte changed, wherever: it is refused, or it is another index text. */
  for (size_t place = 0; place < room; place++) {
    index[place] ^= 1;
    uint8_t out[64];
    uint32_t status = make(SEARCH, index, room, "", 0, "y", 1, out, sizeof out, &found);
    SEE(status == IX_DONE || (status == IX_REFUSED && found.area == IX_INDEX));
    index[place] ^= 1;
  }
  free(index);
  printf("calls: %s\n", faults ? "FAULTS" : "each as it is to be");
  return faults != 0;
}
