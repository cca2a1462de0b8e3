/*
** Opens an index file once, and searches it for each line of the standard input.
**
**     search_index INDEX < QUERIES
**
** Prints the query, a colon, and the names of the documents that satisfy it or the line of the refusal; answers 0, or 2
** where the index was refused.
*/
#include <ix.h>
#include <stdio.h>
#include <stdlib.h>
#include <string.h>

/* All bytes of a file, or NULL. */
static uint8_t *read_file(const char *name, size_t *size) {
  FILE *file = fopen(name, "rb");
  if (!file) return NULL;
  uint8_t *bytes = NULL;
  if (!fseek(file, 0, SEEK_END)) {
    long end = ftell(file);
    rewind(file);
    bytes = end < 0 ? NULL : malloc((size_t)end + 1);
    *size = bytes ? fread(bytes, 1, (size_t)end, file) : 0;
  }
  fclose(file);
  return bytes;
}

int main(int argc, char **argv) {
  size_t size = 0, room = 1 << 12;
  uint8_t *text = argc == 2 ? read_file(argv[1], &size) : NULL, *out = malloc(room);
  if (!text || !out) {
    fprintf(stderr, "usage: %s INDEX < QUERIES\n", argv[0]);
    return 2;
  }
  ix_index index = {0};
  ix_found found;
  uint32_t status = ix_index_open(&index, text, size, out, room, &found);
  free(text); /* the handle has a copy */
  if (status != IX_DONE) {
    fprintf(stderr, "%.*s\n", (int)(found.size < room ? found.size : room), (const char *)out);
    free(out);
    return 2;
  }
  char query[4096];
  while (fgets(query, sizeof query, stdin)) {
    query[strcspn(query, "\n")] = 0;
    while ((status = ix_index_search(&index, (const uint8_t *)query, strlen(query), out, room, &found)) != IX_NOT_UTF8 &&
           found.size > room) {
      room = found.size;
      uint8_t *more = realloc(out, room);
      if (!more) return 2;
      out = more;
    }
    for (size_t i = 0; status == IX_DONE && i < found.size; i++)
      if (out[i] == '\n') out[i] = ' ';
    printf("%s: %.*s\n", query, (int)found.size, status == IX_NOT_UTF8 ? "" : (const char *)out);
  }
  ix_index_close(&index);
  free(out);
  return 0;
}
