/* A small wdq in C: replays the event lines of standard input over pages in files.

     cc example.c $(pkg-config --cflags --libs wdq) -o example
     ./example 5=pages/5.json 7=pages/7.json -- replay --export --state --side < events.jsonl */
#include <stdio.h>
#include <stdlib.h>
#include <string.h>
#include <sys/random.h>
#include <wdq.h>

struct bytes {
  uint8_t *at;
  size_t length;
  size_t room;
};

static void give_up(const char *why) {
  fprintf(stderr, "example: %s\n", why);
  exit(70);
}

/* Appends bytes. At least one byte is always there, so that the pointer is never null. */
static void append(struct bytes *to, const void *from, size_t length) {
  if (to->length + length >= to->room) {
    to->room = 2 * (to->length + length) + 1;
    to->at = realloc(to->at, to->room);
    if (!to->at) give_up("out of memory");
  }
  if (length) memcpy(to->at + to->length, from, length);
  to->length += length;
}

static void append_stream(struct bytes *to, FILE *stream) {
  uint8_t some[4096];
  size_t count;
  if (!stream) give_up("a file can't be opened");
  while ((count = fread(some, 1, sizeof some, stream)) > 0) append(to, some, count);
  if (ferror(stream)) give_up("a file can't be read");
}

/* Appends the page of an argument such as 5=pages/5.json, and its place. */
static void append_page(const char *argument, struct bytes *pages, struct bytes *places) {
  char *name;
  struct wdq_place place = {strtoull(argument, &name, 10), pages->length, 0};
  FILE *file = *name == '=' ? fopen(name + 1, "rb") : NULL;
  append_stream(pages, file);
  fclose(file);
  place.length = pages->length - place.start;
  append(places, &place, sizeof place);
}

int main(int count, char **arguments) {
  struct bytes words = {0}, events = {0}, places = {0}, pages = {0}, out = {0};
  struct wdq_end end;
  uint64_t keys[2];
  size_t needed;
  int at = 1;
  for (; at < count && strcmp(arguments[at], "--"); at++) append_page(arguments[at], &pages, &places);
  for (at++; at < count; at++) {
    if (words.length) append(&words, "\n", 1);
    append(&words, arguments[at], strlen(arguments[at]));
  }
  append_stream(&events, stdin);
  append(&words, "", 0), append(&events, "", 0), append(&places, "", 0), append(&pages, "", 0), append(&out, "", 0);
  if (getentropy(keys, sizeof keys)) give_up("no random bytes");
  do {
    wdq_run(keys[0], keys[1], words.at, words.length, events.at, events.length, (const uint8_t *)"", 0, (const struct wdq_place *)places.at,
            places.length / sizeof(struct wdq_place), pages.at, pages.length, out.at, out.room, &end);
    needed = end.printed + end.saved + end.said;
    if (needed <= out.room) break;
    free(out.at);
    out.at = malloc(out.room = needed);
  } while (out.at);
  if (!out.at) give_up("out of memory");
  fwrite(out.at, 1, end.printed, stdout);
  if (end.said) fprintf(stderr, "%.*s\n", (int)end.said, (const char *)out.at + end.printed + end.saved);
  free(words.at), free(events.at), free(places.at), free(pages.at), free(out.at);
  return (int)end.status;
}
