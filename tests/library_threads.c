/*
** Several threads ask one index text at once, each with a buffer of its own, every second one through a handle of its
** own, and each answer is that of one thread.
*/
#include <ix.h>
#include <pthread.h>
#include <stdio.h>
#include <stdlib.h>
#include <string.h>

enum { THREADS = 8, ROUNDS = 200 };

static const char *five = "a\tx y\nb\ty\nc\t\nd\ty x y\ne\tx\n";
static uint8_t index_text[4096];
static size_t index_size;

static const struct {
  const char *query, *names;
} rows[] = {{"y", "a\nb\nd\n"}, {"\"y x\"", "d\n"}, {"NOT y", "c\ne\n"}, {"x* AND NOT y", "e\n"}, {"z", ""}};

struct asker {
  bool by_handle;
  int faults;
};

static void *ask(void *given) {
  struct asker *asker = given;
  ix_index index = {0};
  uint8_t line[32];
  ix_found opened;
  if (asker->by_handle && ix_index_open(&index, index_text, index_size, line, sizeof line, &opened) != IX_DONE)
    asker->faults++;
  for (int round = 0; round < ROUNDS; round++)
    for (size_t i = 0; i < sizeof rows / sizeof *rows; i++) {
      uint8_t out[32];
      ix_found found;
      const uint8_t *query = (const uint8_t *)rows[i].query;
      size_t query_size = strlen(rows[i].query), size = strlen(rows[i].names);
      uint32_t status =
          asker->by_handle ? ix_index_search(&index, query, query_size, out, sizeof out, &found)
                           : ix_search(index_text, index_size, query, query_size, out, sizeof out, &found);
      if (status != IX_DONE || found.size != size || memcmp(out, rows[i].names, size)) asker->faults++;
    }
  ix_index_close(&index);
  return NULL;
}

int main(void) {
  ix_found found;
  if (ix_build((const uint8_t *)five, strlen(five), (const uint8_t *)"", 0, index_text, sizeof index_text, &found) !=
          IX_DONE ||
      found.size > sizeof index_text)
    return 1;
  index_size = found.size;
  pthread_t threads[THREADS];
  struct asker askers[THREADS] = {{0}};
  int all = 0;
  for (int i = 0; i < THREADS; i++) {
    askers[i].by_handle = i % 2;
    if (pthread_create(&threads[i], NULL, ask, &askers[i])) return 1;
  }
  for (int i = 0; i < THREADS; i++) {
    pthread_join(threads[i], NULL);
    all += askers[i].faults;
  }
  printf("threads: %s\n", all ? "FAULTS" : "each answer is that of one thread");
  return all != 0;
}
