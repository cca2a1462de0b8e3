/*
** Searches files: each file named behind the query is a document, and the names of those that satisfy it are printed.
**
**     search_files QUERY FILE..
**
** Answers 0 where a file was found, 1 where none was, 2 where something was refused, as grep does.
*/
#include <ix.h>
#include <stdio.h>
#include <stdlib.h>
#include <string.h>

/* A text that grows. */
typedef struct text {
  uint8_t *bytes;
  size_t size, room;
} text;

static int grow(text *t, size_t more) {
  if (t->room - t->size >= more) return 1;
  size_t room = 2 * (t->size + more);
  uint8_t *bytes = realloc(t->bytes, room);
  if (!bytes) return 0;
  t->bytes = bytes;
  t->room = room;
  return 1;
}

static int put(text *t, const void *bytes, size_t size) {
  if (!grow(t, size)) return 0;
  memcpy(t->bytes + t->size, bytes, size);
  t->size += size;
  return 1;
}

/* Adds the line of a file: its name, a TAB, what it holds with each line end as a space, LF. */
static int put_file(text *t, const char *name) {
  FILE *file = fopen(name, "rb");
  if (!file) return 0;
  int well = put(t, name, strlen(name)) && put(t, "\t", 1);
  size_t start = t->size, count = 0;
  do {
    well = well && grow(t, 1 << 16);
    count = well ? fread(t->bytes + t->size, 1, 1 << 16, file) : 0;
    t->size += count;
  } while (count > 0);
  well = well && !ferror(file);
  fclose(file);
  for (size_t i = start; i < t->size; i++)
    if (t->bytes[i] == '\n') t->bytes[i] = ' ';
  return well && put(t, "\n", 1);
}

int main(int argc, char **argv) {
  if (argc < 3) {
    fprintf(stderr, "usage: %s QUERY FILE..\n", argv[0]);
    return 2;
  }
  text collection = {0}, names = {0};
  for (int i = 2; i < argc; i++)
    if (!put_file(&collection, argv[i])) {
      fprintf(stderr, "%s: cannot be read\n", argv[i]);
      return 2;
    }
  ix_found found;
  uint32_t status;
  size_t room = 1 << 12;
  do {
    if (!grow(&names, room)) {
      fprintf(stderr, "no memory\n");
      return 2;
    }
    status = ix_ask(collection.bytes, collection.size, (const uint8_t *)"", 0, (const uint8_t *)argv[1],
                    strlen(argv[1]), names.bytes, names.room, &found);
    room = found.size;
  } while (found.size > names.room);
  if (status == IX_NOT_UTF8)
    fprintf(stderr, "the query is not UTF-8\n");
  else
    fwrite(names.bytes, 1, found.size, status == IX_DONE ? stdout : stderr);
  if (status == IX_REFUSED) fputc('\n', stderr);
  free(collection.bytes);
  free(names.bytes);
  return status != IX_DONE ? 2 : found.count == 0;
}
