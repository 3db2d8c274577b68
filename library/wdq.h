/* wdq in one call: a replay of edits of Wikidata over pages in memory. docs/LIBRARY.md says more, docs/USAGE.md what each command does.

   Each call stands alone: nothing is kept between calls, threads may call at the same time, and a call works after any status of another. */
#ifndef WDQ_H
#define WDQ_H

#include <stddef.h>
#include <stdint.h>

#ifdef __cplusplus
extern "C" {
#endif

/* Where the page of a revision is: so many bytes of the pages, from a start on. If a revision has several places, the last one counts. A place that
   isn't wholly within the pages has no page: the revision is missing. */
struct wdq_place {
  uint64_t revision;
  size_t start;
  size_t length;
};

/* How a run ended: a status of enum wdq_status, and how many bytes there are of what it printed, of the snapshot that it kept last, and of the line
   that says how it ended, such as "wdq: line 4: Rev". This line is empty after status 0, and where memory was refused for it. The three follow each
   other in out. */
struct wdq_end {
  uint64_t status;
  size_t printed;
  size_t saved;
  size_t said;
};

/* The exit statuses of the program. docs/USAGE.md says what is printed before each. Reading and writing can't fail in memory, so 3 and 4 don't
   occur. */
enum wdq_status {
  WDQ_OK = 0,            /* the whole input was read, and all output was made */
  WDQ_BAD_WORDS = 1,     /* the words aren't understood, or aren't UTF-8; nothing is printed */
  WDQ_BAD_LINE = 2,      /* a line of the input is refused; the message has its number and the cause */
  WDQ_READ_FAULT = 3,
  WDQ_WRITE_FAULT = 4,
  WDQ_TOO_LONG = 5,      /* the input has more bytes than --max-bytes allows */
  WDQ_STORE_FULL = 6,    /* the triples have no room within --max-terms */
  WDQ_OUT_OF_MEMORY = 7, /* malloc or realloc gave NULL; all that was taken is given back */
  WDQ_BAD_SNAPSHOT = 8   /* the snapshot to go on from is refused; the message has the number of the line */
};

/* Runs one command.

   key0, key1  two random numbers, so that nobody can choose terms that the store finds slowly. They change nothing that is printed.
   words       the command and its options, divided by line feeds, as "replay\n--export". The file names of --save and --resume may be any, and so
               may the folder of --from: they are looked at for nothing else.
   events      the input: event lines, or for "follow" the records of changes.
   resumed     the snapshot of --resume; without this option it isn't read.
   places      where each revision's page is among the bytes of pages.
   out         gets what was printed, then the snapshot that was kept last, then the message, without a line feed or a zero at its end.
   end         says how the run ended.

   If out_length is less than printed + saved + said, what has no room is left out: call again with so much room. Where both end with status 0,
   the second call prints the same.

   The caller owes, and nothing checks:
   - no pointer is null, also where its length is 0;
   - each length is at most PTRDIFF_MAX bytes, and so many bytes can be read, and at out and end written, until the call returns;
   - places and end are aligned as their types, to 8 bytes;
   - out and end overlap neither each other nor anything else that is passed; what is only read may overlap;
   - malloc, realloc and free are of one allocator, and no call is made in a signal handler;
   - the stack has 1 MiB left.
   Nothing is owed of the bytes themselves: whatever they are, the call returns with a status. */
void wdq_run(uint64_t key0, uint64_t key1,
             const uint8_t *words, size_t words_length,
             const uint8_t *events, size_t events_length,
             const uint8_t *resumed, size_t resumed_length,
             const struct wdq_place *places, size_t places_count,
             const uint8_t *pages, size_t pages_length,
             uint8_t *out, size_t out_length,
             struct wdq_end *end);

#ifdef __cplusplus
}
#endif

#endif
