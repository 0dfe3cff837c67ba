/* The limit of 4,000,000 numbers of elements, which no job is long enough to pass: by insertions that are taken out again. */
#include "made_text.h"

#define PIECE 62500ul
#define MOST 4000000ul

static bokdrez_why why;
static uint64_t needed;

static uint32_t edit(bokdrez_session *session, const struct made *text) {
  return bokdrez_edit(session, bytes_of(text->at), text->length, &why, NULL, 0, &needed);
}

/* Removes the element of a number. */
static uint32_t remove_element(bokdrez_session *session, unsigned long number) {
  struct made text = made_of("", "{\"op\":\"remove\",\"node\":#}", number, 1, "");
  uint32_t status = edit(session, &text);
  free(text.at);
  return status;
}

int main(void) {
  static const char page[] = "{\"version\":1,\"nodes\":[{\"tag\":\"html\"}]}";
  bokdrez_session session = BOKDREZ_NONE;
  open_right(page, strlen(page), &session);
  struct made many = made_of("{\"op\":\"insert\",\"parent\":1,\"index\":0,\"nodes\":[{\"tag\":\"p\"}", ",{\"tag\":\"i\",\"parent\":0}",
                             1, PIECE - 1, "]}");
  unsigned long given = 1;
  for (; given + PIECE <= MOST; given += PIECE) {
    expect(edit(&session, &many) == BOKDREZ_DONE, "an insertion within the limit is made");
    expect(remove_element(&session, given + 1) == BOKDREZ_DONE, "it is taken out again");
  }
  uint32_t status = edit(&session, &many);
  expect(status == BOKDREZ_REFUSED && why.what == BOKDREZ_LIMIT_PASSED && why.kind == BOKDREZ_KIND_NUMBERS && why.number == MOST,
         "an insertion past the limit of numbers is refused");
  restyle_right(&session);
  expect(has_text(&session, "1 html{display: block}\n"), "the root is left");
  bokdrez_close(&session);
  free(many.at);
  return ended();
}
