/* Texts that are made piece by piece, for jobs and edits that pass limits. */
#ifndef MADE_TEXT_H
#define MADE_TEXT_H

#include "trying.h"

struct made {
  char *at;
  size_t length;
  size_t room;
};

/* Appends a piece, where a # stands for the number. */
MAYBE_UNUSED static void add(struct made *text, const char *piece, unsigned long number) {
  size_t most = strlen(piece) + 32;
  if (text->length + most > text->room) {
    text->room = 2 * (text->length + most);
    char *at = (char *)block_of(text->room);
    if (text->at != NULL) {
      memcpy(at, text->at, text->length);
    }
    free(text->at);
    text->at = at;
  }
  for (const char *from = piece; *from != '\0'; from++) {
    if (*from == '#') {
      text->length += (size_t)sprintf(text->at + text->length, "%lu", number);
    } else {
      text->at[text->length++] = *from;
    }
  }
}

/* A text of a front, so many pieces whose numbers count from `first`, and a back. */
MAYBE_UNUSED static struct made made_of(const char *front, const char *piece, unsigned long first, unsigned long count,
                                        const char *back) {
  struct made text = {NULL, 0, 0};
  add(&text, front, 0);
  for (unsigned long number = first; number < first + count; number++) {
    add(&text, piece, number);
  }
  add(&text, back, 0);
  return text;
}

#endif
