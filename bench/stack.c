/* Makes one call for C on a thread with little stack. bench/stack compiles and runs it.
 *
 *   stack JOB EDIT CALL BYTES
 *
 * opens the job in the file JOB and styles it, with all the stack that there is, and then makes CALL on a thread with so many
 * bytes of stack: `open` opens the job once more, `edit` makes the edit in the file EDIT, `set`, `unset` and `state` change
 * the last element, `restyle` comes after the edit, `style` and `text` and `changed` read. Where the stack lacks, it ends by
 * a signal. */
#ifndef _POSIX_C_SOURCE
#define _POSIX_C_SOURCE 200809L
#endif
#include <bokdrez.h>

#include <pthread.h>
#include <stdio.h>
#include <stdlib.h>
#include <string.h>

/* A text that was read from a file. */
struct text {
  uint8_t *bytes;
  size_t length;
};

static struct text job, edit;
static bokdrez_session session = BOKDREZ_NONE;
static bokdrez_why why;
static bokdrez_counts counts;
static uint64_t needed, node;
static uint8_t *buffer;
static uint32_t *numbers;
static size_t room;
static const char *call;
static uint32_t status;

static void fail(const char *what) {
  fprintf(stderr, "stack: %s\n", what);
  exit(1);
}

static void *block_of(size_t size) {
  void *block = malloc(size > 0 ? size : 1);
  if (block == NULL) {
    fail("no memory");
  }
  return block;
}

static struct text text_of(const char *name) {
  struct text text;
  FILE *file = fopen(name, "rb");
  if (file == NULL || fseek(file, 0, SEEK_END) != 0) {
    fail("a file can't be read");
  }
  text.length = (size_t)ftell(file);
  text.bytes = (uint8_t *)block_of(text.length);
  rewind(file);
  text.length = fread(text.bytes, 1, text.length, file);
  fclose(file);
  return text;
}

static uint32_t make(const char *name) {
  const uint8_t *class_name = (const uint8_t *)"class", *value = (const uint8_t *)"a b c";
  if (strcmp(name, "open") == 0) {
    return bokdrez_open(job.bytes, job.length, &session, &why, NULL, 0, &needed);
  } else if (strcmp(name, "edit") == 0) {
    return bokdrez_edit(&session, edit.bytes, edit.length, &why, NULL, 0, &needed);
  } else if (strcmp(name, "set") == 0) {
    return bokdrez_set(&session, node, class_name, 5, value, 5, &why);
  } else if (strcmp(name, "unset") == 0) {
    return bokdrez_unset(&session, node, class_name, 5, &why);
  } else if (strcmp(name, "state") == 0) {
    return bokdrez_state(&session, node, BOKDREZ_HOVER, 1, &why);
  } else if (strcmp(name, "restyle") == 0) {
    return bokdrez_restyle(&session, &counts);
  } else if (strcmp(name, "style") == 0) {
    return bokdrez_style(&session, node, buffer, room, &needed);
  } else if (strcmp(name, "text") == 0) {
    return bokdrez_text(&session, buffer, room, &needed);
  } else if (strcmp(name, "changed") == 0) {
    return bokdrez_changed(&session, numbers, room, &needed);
  }
  bokdrez_close(&session);
  return BOKDREZ_DONE;
}

static void *on_thread(void *nothing) {
  status = make(call);
  return nothing;
}

int main(int count, char **words) {
  pthread_attr_t attributes;
  pthread_t thread;
  if (count != 5) {
    fail("wants JOB EDIT CALL BYTES");
  }
  job = text_of(words[1]);
  edit = text_of(words[2]);
  call = words[3];
  if (make("open") != BOKDREZ_DONE || make("restyle") != BOKDREZ_DONE) {
    fail("the job is not styled");
  }
  make("text");
  room = (size_t)needed;
  buffer = (uint8_t *)block_of(room);
  numbers = (uint32_t *)block_of(room * sizeof *numbers);
  make("changed");
  node = needed;
  if (strcmp(call, "restyle") == 0 && make("edit") != BOKDREZ_DONE) {
    fail("the edit is not made");
  }
  if (pthread_attr_init(&attributes) != 0 || pthread_attr_setstacksize(&attributes, strtoul(words[4], NULL, 10)) != 0 ||
      pthread_create(&thread, &attributes, on_thread, NULL) != 0 || pthread_join(thread, NULL) != 0) {
    fail("no such thread");
  }
  bokdrez_close(&session);
  return status == BOKDREZ_DONE ? 0 : 1;
}
