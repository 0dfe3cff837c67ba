/* Times one call for C on a document. bench/embed compiles and runs it.
 *
 *   embed JOB NODE WHAT COUNT ROUNDS
 *
 * opens the job in the file JOB, styles it, makes the call WHAT COUNT times, and prints the nanoseconds that each took in the
 * best of ROUNDS. The edits give the element NODE one value of `class` after another. Where each is to be followed by a
 * restyle, the time of both is printed. */
#ifndef _POSIX_C_SOURCE
#define _POSIX_C_SOURCE 200809L
#endif
#include <bokdrez.h>

#include <inttypes.h>
#include <stdio.h>
#include <stdlib.h>
#include <string.h>
#include <time.h>

static bokdrez_why why;
static bokdrez_counts counts;
static uint64_t needed;
static uint8_t *buffer;
static size_t room;

static void want_done(const char *call, uint32_t status) {
  if (status != BOKDREZ_DONE) {
    fprintf(stderr, "embed: %s: status %" PRIu32 "\n", call, status);
    exit(1);
  }
}

/* Each call gives another value than the one before. */
static uint32_t set(bokdrez_session *session, uint64_t node, unsigned long number) {
  char value[8];
  int length = snprintf(value, sizeof value, "c%lu", number % 16);
  return bokdrez_set(session, node, (const uint8_t *)"class", 5, (const uint8_t *)value, (size_t)length, &why);
}

static uint32_t edit(bokdrez_session *session, uint64_t node, unsigned long number) {
  char json[128];
  int length = snprintf(json, sizeof json, "{\"op\":\"set\",\"node\":%" PRIu64 ",\"name\":\"class\",\"value\":\"c%lu\"}", node, number % 16);
  return bokdrez_edit(session, (const uint8_t *)json, (size_t)length, &why, NULL, 0, &needed);
}

static uint32_t set_and_restyle(bokdrez_session *session, uint64_t node, unsigned long number) {
  want_done("bokdrez_set", set(session, node, number));
  return bokdrez_restyle(session, &counts);
}

static uint32_t edit_and_restyle(bokdrez_session *session, uint64_t node, unsigned long number) {
  want_done("bokdrez_edit", edit(session, node, number));
  return bokdrez_restyle(session, &counts);
}

static uint32_t restyle(bokdrez_session *session, uint64_t node, unsigned long number) {
  (void)node;
  (void)number;
  return bokdrez_restyle(session, &counts);
}

static uint32_t style(bokdrez_session *session, uint64_t node, unsigned long number) {
  (void)number;
  return bokdrez_style(session, node, buffer, room, &needed);
}

static uint32_t text(bokdrez_session *session, uint64_t node, unsigned long number) {
  (void)node;
  (void)number;
  return bokdrez_text(session, buffer, room, &needed);
}

/* The calls by their names. */
static const struct {
  const char *name;
  uint32_t (*call)(bokdrez_session *session, uint64_t node, unsigned long number);
} CALLS[] = {
    {"set", set},         {"edit", edit},   {"set_and_restyle", set_and_restyle}, {"edit_and_restyle", edit_and_restyle},
    {"restyle", restyle}, {"style", style}, {"text", text},
};

static void *block_of(size_t size) {
  void *block = malloc(size > 0 ? size : 1);
  if (block == NULL) {
    fputs("embed: no memory\n", stderr);
    exit(1);
  }
  return block;
}

/* Opens the job of a file, styles it, and makes the buffer as long as its text is. */
static void open_file(const char *name, bokdrez_session *session) {
  FILE *file = fopen(name, "rb");
  if (file == NULL || fseek(file, 0, SEEK_END) != 0) {
    fprintf(stderr, "embed: %s can't be read\n", name);
    exit(1);
  }
  size_t length = (size_t)ftell(file);
  uint8_t *job = (uint8_t *)block_of(length);
  rewind(file);
  length = fread(job, 1, length, file);
  fclose(file);
  want_done("bokdrez_open", bokdrez_open(job, length, session, &why, NULL, 0, &needed));
  free(job);
  want_done("bokdrez_restyle", bokdrez_restyle(session, &counts));
  bokdrez_text(session, NULL, 0, &needed);
  room = (size_t)needed;
  buffer = (uint8_t *)block_of(room);
}

/* The processor time of this thread, in nanoseconds. */
static double now(void) {
  struct timespec time;
  clock_gettime(CLOCK_THREAD_CPUTIME_ID, &time);
  return (double)time.tv_sec * 1e9 + (double)time.tv_nsec;
}

int main(int count, char **words) {
  bokdrez_session session = BOKDREZ_NONE;
  double best = 0;
  size_t what = 0;
  while (count == 6 && what < sizeof CALLS / sizeof CALLS[0] && strcmp(words[3], CALLS[what].name) != 0) {
    what++;
  }
  if (count != 6 || what == sizeof CALLS / sizeof CALLS[0]) {
    fputs("usage: embed JOB NODE WHAT COUNT ROUNDS\n", stderr);
    return 2;
  }
  uint64_t node = strtoull(words[2], NULL, 10);
  unsigned long times = strtoul(words[4], NULL, 10), rounds = strtoul(words[5], NULL, 10);
  open_file(words[1], &session);
  for (unsigned long round = 0; round < rounds; round++) {
    double start = now();
    for (unsigned long number = 0; number < times; number++) {
      want_done(words[3], CALLS[what].call(&session, node, number));
    }
    double spent = (now() - start) / (double)times;
    best = round == 0 || spent < best ? spent : best;
    want_done("bokdrez_restyle", bokdrez_restyle(&session, &counts));
  }
  printf("%.1f\n", best);
  bokdrez_close(&session);
  free(buffer);
  return 0;
}
