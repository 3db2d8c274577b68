/* Tries the library with what a caller may give it by mistake or by malice. Each argument ends at a page of memory that can't be touched, each status
   is followed by a good call, and all runs on a stack of 1 MiB. scripts/library.sh --test compiles it with AddressSanitizer, and without: then each
   allocation fails in turn. */
#include <pthread.h>
#include <stdarg.h>
#include <stdio.h>
#include <stdlib.h>
#include <string.h>
#include <sys/mman.h>
#include <unistd.h>
#include <wdq.h>

#define EVENTS \
  "{\"kind\":\"edit\",\"entity\":\"Q1\",\"rev\":5,\"time\":\"2024-05-01T10:00:05Z\"}\n" \
  "{\"kind\":\"edit\",\"entity\":\"Q5\",\"rev\":8,\"time\":\"2024-05-01T10:00:10Z\"}\n"
#define PAGE "{\"entity\":\"Q1\",\"redirect\":\"Q2\"}"
#define TRIPLE "<http://www.wikidata.org/entity/Q1> <http://www.w3.org/2002/07/owl#sameAs> <http://www.wikidata.org/entity/Q2> .\n"
#define PRINTED "# export: 1 triples\n" TRIPLE "# state Q1 kept 5\n# state Q5 kept 8\n# side missing open Q5 8\n"
#define ALL "replay\n--export\n--state\n--side"

struct bytes {
  const void *at;
  size_t length;
};

struct given {
  struct bytes words, events, resumed, pages;
  struct wdq_place place;
  size_t room;
};

static int failed;

static void judge(int is_right, const char *form, ...) {
  va_list values;
  if (is_right) return;
  failed++;
  printf("FAILED: ");
  va_start(values, form);
  vprintf(form, values);
  va_end(values);
  putchar('\n');
}

static struct bytes text(const char *it) {
  return (struct bytes){it, strlen(it)};
}

/* So many bytes, each of this value, or a front that is followed by them. They are at one place, so only the last ones count. */
static struct bytes filled(const char *front, int value, size_t length) {
  static char at[100000000];
  memset(at, value, length);
  memcpy(at, front, strlen(front) < length ? strlen(front) : length);
  return (struct bytes){at, length};
}

/* Copies bytes to the end of memory of their own, which a page follows that can't be touched. */
static void *lend(const void *from, size_t length, void **area, size_t *size) {
  size_t page = (size_t)sysconf(_SC_PAGESIZE), whole = (length + page - 1) / page * page;
  char *at = mmap(NULL, whole + page, PROT_READ | PROT_WRITE, MAP_PRIVATE | MAP_ANONYMOUS, -1, 0);
  if (at == MAP_FAILED || mprotect(at + whole, page, PROT_NONE)) abort();
  *area = at;
  *size = whole + page;
  if (length && from) memcpy(at + whole - length, from, length);
  return at + whole - length;
}

/* Makes a call and judges its status, its message and, if they aren't null, what it printed. Gives how a run ended. */
static struct wdq_end call(const char *name, struct given given, uint64_t status, const char *said, const char *printed) {
  void *areas[7];
  size_t sizes[7];
  uint8_t *words = lend(given.words.at, given.words.length, &areas[0], &sizes[0]);
  uint8_t *events = lend(given.events.at, given.events.length, &areas[1], &sizes[1]);
  uint8_t *resumed = lend(given.resumed.at, given.resumed.length, &areas[2], &sizes[2]);
  struct wdq_place *places = lend(&given.place, sizeof given.place, &areas[3], &sizes[3]);
  uint8_t *pages = lend(given.pages.at, given.pages.length, &areas[4], &sizes[4]);
  uint8_t *out = lend(NULL, given.room, &areas[5], &sizes[5]);
  struct wdq_end *end = lend(NULL, sizeof *end, &areas[6], &sizes[6]), ended;
  wdq_run(1, 2, words, given.words.length, events, given.events.length, resumed, given.resumed.length, places, given.place.revision ? 1 : 0, pages,
          given.pages.length, out, given.room, end);
  ended = *end;
  judge(ended.status == status, "%s: status %lu", name, (unsigned long)ended.status);
  if (said && ended.printed + ended.saved + ended.said <= given.room) {
    const char *message = (const char *)out + ended.printed + ended.saved;
    judge(ended.said == strlen(said) && !memcmp(message, said, ended.said), "%s: message %.*s", name, (int)ended.said, message);
  }
  if (printed && ended.printed <= given.room)
    judge(ended.printed == strlen(printed) && !memcmp(out, printed, ended.printed), "%s: printed %.*s", name, (int)ended.printed, (const char *)out);
  for (int it = 0; it < 7; it++) munmap(areas[it], sizes[it]);
  return ended;
}

static struct given story(void) {
  return (struct given){text(ALL), text(EVENTS), text(""), text(PAGE), {5, 0, strlen(PAGE)}, 4096};
}

static void good_call(const char *name) {
  call(name, story(), WDQ_OK, "", PRINTED);
}

static void try_bytes(const char *name, struct given given, uint64_t status, const char *said, const char *printed) {
  call(name, given, status, said, printed);
  good_call("a good call behind it");
}

static void try_statuses(void) {
  struct given given = {text(""), text(""), text(""), text(""), {0, 0, 0}, 0};
  try_bytes("nothing at all", given, WDQ_BAD_WORDS, NULL, NULL);
  given = story(), given.words = text("replay\n\n"), given.room = 100;
  try_bytes("empty words", given, WDQ_BAD_WORDS, "wdq: words not understood", "");
  given = story(), given.words = text("replay\n\xff");
  try_bytes("words that aren't UTF-8", given, WDQ_BAD_WORDS, "wdq: words not understood", "");
  given = story(), given.words = filled("replay\n--horizon=", '1', 10000000);
  try_bytes("a long word", given, WDQ_BAD_WORDS, "wdq: words not understood", "");
  given = story(), given.events = text("\xff\xfe\n");
  try_bytes("a line that isn't UTF-8", given, WDQ_BAD_LINE, "wdq: line 1: NotJson", "");
  given = story(), given.events = filled("", '[', 65536);
  try_bytes("a line that is deep", given, WDQ_BAD_LINE, "wdq: line 1: NotJson", "");
  given = story(), given.events = filled("", ' ', 100000000);
  try_bytes("a line that is long", given, WDQ_BAD_LINE, "wdq: line 1: LineLong", "");
  given = story(), given.words = text("replay\n--max-bytes=3");
  try_bytes("a limit on the input", given, WDQ_TOO_LONG, "wdq: input too long", "");
  given = story(), given.words = text("replay\n--max-terms=2");
  try_bytes("a limit on the terms", given, WDQ_STORE_FULL, "wdq: store full", "");
  given = story(), given.words = text("replay\n--resume\nx"), given.resumed = text("\xff");
  try_bytes("a snapshot that isn't UTF-8", given, WDQ_BAD_SNAPSHOT, "wdq: snapshot: line 1", "");
  given = story(), given.words = text("replay\n--resume\nx");
  try_bytes("a snapshot without bytes", given, WDQ_BAD_SNAPSHOT, "wdq: snapshot: line 1", "");
  given = story(), given.words = text("follow"), given.events = text("# patch 1 +18446744073709551615 -0\n");
  try_bytes("a record without its lines", given, WDQ_BAD_LINE, "wdq: line 2: Short", "");
}

#define LACKS "# state Q1 kept 5\n# state Q5 kept 8\n# side %s open Q1 5\n# side missing open Q5 8\n"

/* Tries pages that are none: each gives an entry of the side output. */
static void try_page(const char *name, const char *cause, struct bytes pages, size_t start, size_t length) {
  struct given given = story();
  char printed[sizeof LACKS + 20];
  given.words = text("replay\n--state\n--side");
  given.pages = pages;
  given.place = (struct wdq_place){5, start, length};
  snprintf(printed, sizeof printed, LACKS, cause);
  try_bytes(name, given, WDQ_OK, "", printed);
}

static void try_pages(void) {
  try_page("a page without bytes", "unfit-notjson", text(""), 0, 0);
  try_page("a place behind the pages", "missing", text(PAGE), 1000, 1);
  try_page("a place that goes past the end", "missing", text(PAGE), 1, strlen(PAGE));
  try_page("a place with a great start", "missing", text(PAGE), SIZE_MAX, 2);
  try_page("a place with a great length", "missing", text(PAGE), 2, SIZE_MAX);
  try_page("a page that isn't UTF-8", "unfit-notjson", text("\xff"), 0, 1);
  try_page("a page that is large", "unfit-large", filled(PAGE, ' ', 100000000), 0, 100000000);
  try_page("a page that is deep", "unfit-deep", filled("", '[', 8388608), 0, 8388608);
}

/* Tries every room for what a run leaves, from none to more than it needs. */
static void try_rooms(void) {
  struct given given = story();
  struct wdq_end whole, end;
  given.words = text(ALL "\n--save\nx");
  given.room = 1 << 16;
  whole = call("a saved run", given, WDQ_OK, "", NULL);
  judge(whole.saved > 0, "nothing is saved");
  for (given.room = 0; given.room < whole.printed + whole.saved + 2; given.room++) {
    end = call("a room", given, WDQ_OK, "", NULL);
    judge(end.printed == whole.printed && end.saved == whole.saved && end.said == whole.said, "other lengths in a room of %zu", given.room);
  }
}

static void try_large_input(void) {
  const char line[] = "{\"watermark\":\"2024-05-01T10:00:08Z\"}\n";
  size_t count = 500000, length = sizeof line - 1;
  char *lines = malloc(count * length);
  struct given given = story();
  for (size_t it = 0; it < count; it++) memcpy(lines + it * length, line, length);
  given.events = (struct bytes){lines, count * length};
  call("a large input", given, WDQ_OK, "", "# export: 0 triples\n");
  given.words = text("drill\n--size\n2000");
  call("a drill", given, WDQ_OK, "", NULL);
  free(lines);
}

static void *try_all(void *unused) {
  try_statuses();
  try_pages();
  try_rooms();
  try_large_input();
  return unused;
}

static void *repeat(void *name) {
  for (int it = 0; it < 200; it++) good_call(name);
  return NULL;
}

/* Runs a function in so many threads at once, each with a stack of 1 MiB. */
static void run_threads(int count, void *(*function)(void *), const char *name) {
  pthread_attr_t with_stack;
  pthread_t threads[8];
  pthread_attr_init(&with_stack);
  pthread_attr_setstacksize(&with_stack, 1 << 20);
  for (int it = 0; it < count; it++)
    if (pthread_create(&threads[it], &with_stack, function, (void *)name)) abort();
  for (int it = 0; it < count; it++) pthread_join(threads[it], NULL);
}

#ifdef FAILING_MEMORY
extern void *__libc_malloc(size_t), *__libc_realloc(void *, size_t);
extern void __libc_free(void *);
static long until_failure = -1, blocks;

static int fails(void) {
  return until_failure >= 0 && !until_failure--;
}

void *malloc(size_t size) {
  void *at = fails() ? NULL : __libc_malloc(size);
  blocks += at != NULL;
  return at;
}

void *realloc(void *block, size_t size) {
  void *at = fails() ? NULL : __libc_realloc(block, size);
  blocks += at && !block;
  return at;
}

void free(void *block) {
  blocks -= block != NULL;
  __libc_free(block);
}

/* Makes the story's run with each allocation refused in turn, until one comes that isn't reached. A run may do without some of them. */
static void try_refusals(void) {
  struct given given = story();
  uint8_t out[4096];
  struct wdq_end end;
  long refused = 0, stopped = 0, before = blocks;
  for (until_failure = -1; until_failure < 0; refused++) {
    until_failure = refused;
    wdq_run(1, 2, given.words.at, given.words.length, given.events.at, given.events.length, given.resumed.at, 0, &given.place, 1, given.pages.at,
            given.pages.length, out, sizeof out, &end);
    judge(blocks == before, "%ld blocks stay after refusal %ld", blocks - before, refused);
    judge(end.status == WDQ_OUT_OF_MEMORY || (end.status == WDQ_OK && end.printed == strlen(PRINTED)), "status %lu after refusal %ld",
          (unsigned long)end.status, refused);
    stopped += end.status != 0;
  }
  until_failure = -1;
  judge(stopped > 50, "only %ld refusals stop a run", stopped);
  good_call("a good call behind the refusals");
}
#endif

int main(void) {
#ifdef FAILING_MEMORY
  try_refusals();
#else
  run_threads(1, try_all, NULL);
  run_threads(4, repeat, "calls of several threads");
#endif
  puts(failed ? "the calls FAILED" : "the calls are as they should be");
  return failed > 0;
}
