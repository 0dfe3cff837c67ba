/* Eight sessions in eight threads at once, and one that goes from thread to thread. */
#ifndef _POSIX_C_SOURCE
#define _POSIX_C_SOURCE 200809L
#endif
#include "trying.h"

#include <pthread.h>

#define THREADS 8
#define ROUNDS 20

/* What a thread works on, and the text that comes of it. */
struct work {
  bokdrez_session session;
  unsigned first;
  unsigned rounds;
  char *text;
};

/* Makes one edit of several kinds. */
static uint32_t make_edit(bokdrez_session *session, unsigned number) {
  static const char put[] = "{\"op\":\"insert\",\"parent\":2,\"index\":0,\"nodes\":[{\"tag\":\"p\",\"attrs\":{\"class\":\"a\"}}]}";
  bokdrez_why why;
  uint64_t needed;
  uint8_t value[] = {(uint8_t)('a' + number % 3)};
  switch (number % 4) {
    case 0:
      return bokdrez_set(session, 3, bytes_of("class"), 5, value, 1, &why);
    case 1:
      return bokdrez_state(session, 3, BOKDREZ_HOVER, number / 4 % 2, &why);
    case 2:
      return bokdrez_edit(session, bytes_of(put), strlen(put), &why, NULL, 0, &needed);
    default:
      return bokdrez_unset(session, 3, bytes_of("class"), 5, &why);
  }
}

static void work_on(struct work *work) {
  for (unsigned number = work->first; number < work->first + work->rounds; number++) {
    if (make_edit(&work->session, number) != BOKDREZ_DONE) {
      return;
    }
    restyle_right(&work->session);
  }
  work->text = text_of(&work->session);
}

/* A thread that opens a session, works on it and closes it. */
static void *whole(void *given) {
  struct work *work = (struct work *)given;
  open_right(PAGE, strlen(PAGE), &work->session);
  restyle_right(&work->session);
  work_on(work);
  bokdrez_close(&work->session);
  return NULL;
}

/* A thread that does a part of the work on a session which another one opened. */
static void *part(void *given) {
  work_on((struct work *)given);
  return NULL;
}

static void start(pthread_t *thread, void *(*run)(void *), struct work *work) {
  if (pthread_create(thread, NULL, run, work) != 0) {
    fputs("no thread\n", stderr);
    exit(1);
  }
}

static struct work work_from(unsigned first, unsigned rounds) {
  struct work work = {BOKDREZ_NONE, first, rounds, NULL};
  return work;
}

/* The text that a thread came to is that of the same work here. */
static void expect_alone(struct work *work, const char *what) {
  struct work alone = work_from(work->first, work->rounds);
  whole(&alone);
  expect(work->text != NULL && alone.text != NULL && strcmp(work->text, alone.text) == 0, what);
  free(alone.text);
  free(work->text);
}

static void at_once(void) {
  pthread_t threads[THREADS];
  struct work works[THREADS];
  for (unsigned k = 0; k < THREADS; k++) {
    works[k] = work_from(k, ROUNDS);
    start(&threads[k], whole, &works[k]);
  }
  for (unsigned k = 0; k < THREADS; k++) {
    pthread_join(threads[k], NULL);
  }
  for (unsigned k = 0; k < THREADS; k++) {
    expect_alone(&works[k], "a session in its own thread has the text of one alone");
  }
}

/* A session is opened here, goes through threads, and is closed here. */
static void from_thread_to_thread(void) {
  struct work work = work_from(0, ROUNDS / 4);
  open_right(PAGE, strlen(PAGE), &work.session);
  restyle_right(&work.session);
  for (unsigned k = 0; k < 4; k++) {
    pthread_t thread;
    free(work.text);
    work.text = NULL;
    work.first = k * (ROUNDS / 4);
    start(&thread, part, &work);
    pthread_join(thread, NULL);
  }
  bokdrez_close(&work.session);
  work.first = 0;
  work.rounds = ROUNDS / 4 * 4;
  expect_alone(&work, "a session that four threads worked on has the text of one alone");
}

int main(void) {
  at_once();
  from_thread_to_thread();
  return ended();
}
