/* Opens a session and forgets it: the sanitizer has to report the leak. */
#include "trying.h"

static void open_and_forget(void) {
  bokdrez_session session = BOKDREZ_NONE;
  open_right(PAGE, strlen(PAGE), &session);
  restyle_right(&session);
  session.held = NULL;
}

/* Writes over what calls left on the stack, where the sanitizer would find the session. */
static int scrub(void) {
  volatile uint8_t room[1 << 16];
  for (size_t k = 0; k < sizeof room; k++) {
    room[k] = 0;
  }
  return room[sizeof room / 2];
}

int main(void) {
  open_and_forget();
  return scrub();
}
