/* What the C tests of this folder share: counted expectations, and a small page. */
#ifndef TRYING_H
#define TRYING_H

#include <bokdrez.h>

#include <inttypes.h>
#include <stdio.h>
#include <stdlib.h>
#include <string.h>

/* Some of these are not used by each test. */
#if defined(__GNUC__)
#define MAYBE_UNUSED __attribute__((unused))
#else
#define MAYBE_UNUSED
#endif

/* Four elements, two of them with a class that the sheet names. */
static const char PAGE[] MAYBE_UNUSED =
    "{\"version\":1,\"nodes\":[{\"tag\":\"html\"},{\"tag\":\"body\",\"parent\":0},"
    "{\"tag\":\"p\",\"parent\":1,\"attrs\":{\"class\":\"a\"}},{\"tag\":\"i\",\"parent\":2}],"
    "\"sheets\":[{\"origin\":\"author\",\"text\":\".a{color:red} .b{width:1em} p:hover{clear:both} i{color:inherit}\"}]}";

static int passed_count, failed_count;

/* Counts whether something holds. */
MAYBE_UNUSED static void expect(int holds, const char *what) {
  if (holds) {
    passed_count++;
  } else {
    failed_count++;
    fprintf(stderr, "not so: %s\n", what);
  }
}

/* Says how many passed and failed. The status that the program ends with. */
MAYBE_UNUSED static int ended(void) {
  printf("%d passed, %d failed\n", passed_count, failed_count);
  return failed_count > 0 || passed_count == 0;
}

/* A block of memory. Where there is none, the test ends. */
MAYBE_UNUSED static void *block_of(size_t size) {
  void *block = malloc(size > 0 ? size : 1);
  if (block == NULL) {
    fputs("no memory for the test itself\n", stderr);
    exit(1);
  }
  return block;
}

MAYBE_UNUSED static const uint8_t *bytes_of(const char *text) {
  return (const uint8_t *)text;
}

/* Opens a session over a job that is right. */
MAYBE_UNUSED static void open_right(const char *job, size_t length, bokdrez_session *session) {
  bokdrez_why why;
  uint64_t needed;
  uint32_t status = bokdrez_open(bytes_of(job), length, session, &why, NULL, 0, &needed);
  if (status != BOKDREZ_DONE) {
    fprintf(stderr, "a job is not opened: status %" PRIu32 "\n", status);
    exit(1);
  }
}

MAYBE_UNUSED static void restyle_right(bokdrez_session *session) {
  bokdrez_counts counts;
  uint32_t status = bokdrez_restyle(session, &counts);
  if (status != BOKDREZ_DONE) {
    fprintf(stderr, "no restyle: status %" PRIu32 "\n", status);
    exit(1);
  }
}

/* An edit in JSON that is right. */
MAYBE_UNUSED static void edit_right(bokdrez_session *session, const char *json) {
  bokdrez_why why;
  uint64_t needed;
  uint32_t status = bokdrez_edit(session, bytes_of(json), strlen(json), &why, NULL, 0, &needed);
  if (status != BOKDREZ_DONE) {
    fprintf(stderr, "an edit is not made: status %" PRIu32 ", %s\n", status, json);
    exit(1);
  }
}

/* The lines of all elements, in a block with a zero at its end; where some are stale, an empty text. */
MAYBE_UNUSED static char *text_of(bokdrez_session *session) {
  uint64_t needed;
  uint32_t status = bokdrez_text(session, NULL, 0, &needed);
  char *text = (char *)block_of((size_t)needed + 1);
  if (status == BOKDREZ_NO_ROOM) {
    status = bokdrez_text(session, (uint8_t *)text, (size_t)needed, &needed);
  }
  if (status != BOKDREZ_DONE && status != BOKDREZ_STALE) {
    fprintf(stderr, "no text: status %" PRIu32 "\n", status);
    exit(1);
  }
  text[needed] = '\0';
  return text;
}

/* Whether the text of a session is this one. */
MAYBE_UNUSED static int has_text(bokdrez_session *session, const char *text) {
  char *now = text_of(session);
  int is_same = strcmp(now, text) == 0;
  free(now);
  return is_same;
}

#endif
