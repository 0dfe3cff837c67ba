/* What bokdrez_changed tells: the elements that the last restyle cascaded, in tree order as it was then. */
#include "trying.h"

/* In tree order these are 1, 2, 4, 3. */
static const char TREE[] = "{\"version\":1,\"nodes\":[{\"tag\":\"html\"},{\"tag\":\"p\",\"parent\":0},"
                           "{\"tag\":\"p\",\"parent\":0},{\"tag\":\"i\",\"parent\":1}]}";
static const uint32_t ORDER[] = {1, 2, 4, 3};

#define UNTOLD 0xeeeeeeeeu

static bokdrez_session session = BOKDREZ_NONE;
static uint32_t numbers[5];
static uint64_t needed;

/* The status of the call with so much room, over soiled numbers. */
static uint32_t changed(size_t room) {
  memset(numbers, 0xee, sizeof numbers);
  needed = UINT64_MAX;
  return bokdrez_changed(&session, room > 0 ? numbers : NULL, room, &needed);
}

/* Whether all four are told, in tree order, and no more. */
static int has_all(void) {
  return needed == 4 && memcmp(numbers, ORDER, sizeof ORDER) == 0 && numbers[4] == UNTOLD;
}

int main(void) {
  open_right(TREE, strlen(TREE), &session);
  expect(changed(0) == BOKDREZ_DONE && needed == 0, "before the first restyle there is none");
  expect(changed(5) == BOKDREZ_DONE && needed == 0 && numbers[0] == UNTOLD, "and none is told where there is room");
  restyle_right(&session);
  expect(changed(0) == BOKDREZ_NO_ROOM && needed == 4, "without room the length is told");
  expect(changed(3) == BOKDREZ_NO_ROOM && needed == 4, "and so it is with one too few");
  expect(changed(4) == BOKDREZ_DONE && has_all(), "what fits just is told, in tree order");
  expect(changed(5) == BOKDREZ_DONE && has_all(), "and so it is with more room");
  edit_right(&session, "{\"op\":\"remove\",\"node\":2}");
  expect(changed(4) == BOKDREZ_DONE && has_all(), "what was removed since stays on the list");
  restyle_right(&session);
  expect(changed(0) == BOKDREZ_DONE && needed == 0, "a restyle that cascades nothing leaves none");
  edit_right(&session, "{\"op\":\"set\",\"node\":3,\"name\":\"style\",\"value\":\"color:red\"}");
  restyle_right(&session);
  expect(changed(1) == BOKDREZ_DONE && needed == 1 && numbers[0] == 3, "and one that cascades one element tells it alone");
  bokdrez_close(&session);
  return ended();
}
