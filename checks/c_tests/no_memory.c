/* Each allocation of each call refused in turn. It is linked with --wrap=malloc and --wrap=realloc, so that what the library
 * asks for comes here.
 *
 * Where one is refused, the call ends with no memory, tells nothing more, and all is as it was; then the same call is made
 * again, and does what it should. Or it does that all the same: a list that wanted to give room back keeps it, and one that
 * asked for all its room at once makes do with less at a time. */
#include "trying.h"

#ifdef __cplusplus
extern "C" {
#endif
void *__real_malloc(size_t size);
void *__real_realloc(void *block, size_t size);
void *__wrap_malloc(size_t size);
void *__wrap_realloc(void *block, size_t size);

/* How many allocations are still given; none is refused while it is below 0. */
static long left = -1;
static int was_refused;

static int is_refused(void) {
  if (left < 0 || left-- > 0) {
    return 0;
  }
  was_refused = 1;
  return 1;
}

void *__wrap_malloc(size_t size) {
  return is_refused() ? NULL : __real_malloc(size);
}

void *__wrap_realloc(void *block, size_t size) {
  return is_refused() ? NULL : __real_realloc(block, size);
}
#ifdef __cplusplus
}
#endif

static const char OTHER_PAGE[] =
    "{\"version\":1,\"nodes\":[{\"tag\":\"html\"},{\"tag\":\"q\",\"parent\":0,\"attrs\":{\"style\":\"--k:2px;width:var(--k)\"},"
    "\"states\":[\"focus\"]}],\"sheets\":[{\"origin\":\"ua\",\"text\":\"@layer a{q{height:calc(1px)}} q:focus{color:lime}\"},"
    "{\"origin\":\"user\",\"text\":\"q{margin:1px 2px!important}\"}],\"batches\":[[{\"op\":\"remove\",\"node\":2}]]}";

static const char INSERT[] =
    "{\"op\":\"insert\",\"parent\":2,\"index\":1,\"nodes\":[{\"tag\":\"p\",\"attrs\":{\"class\":\"a b\",\"style\":\"top:1px\"}},"
    "{\"tag\":\"i\",\"parent\":0,\"states\":[\"hover\"]}]}";
static const char MOVE[] = "{\"op\":\"move\",\"node\":4,\"parent\":2,\"index\":0}";
static const char REMOVE[] = "{\"op\":\"remove\",\"node\":3}";
static const char SET[] = "{\"op\":\"set\",\"node\":3,\"name\":\"style\",\"value\":\"--x:red;color:var(--x)\"}";
static const char UNSET[] = "{\"op\":\"unset\",\"node\":3,\"name\":\"class\"}";
static const char STATE[] = "{\"op\":\"state\",\"node\":3,\"state\":\"hover\",\"on\":true}";
static const char ADD[] =
    "{\"op\":\"add_sheet\",\"index\":0,\"origin\":\"user\",\"text\":\"@layer a,b;p:not(.c){border-style:solid}\"}";
static const char REPLACE[] = "{\"op\":\"replace_sheet\",\"sheet\":1,\"text\":\"@layer b{p{font-size:larger}} .a i{top:3px}\"}";
static const char ENABLE[] = "{\"op\":\"enable_sheet\",\"sheet\":1,\"on\":false}";
static const char REMOVE_SHEET[] = "{\"op\":\"remove_sheet\",\"sheet\":1}";
static const char *const EDITS[] = {INSERT, MOVE, REMOVE, SET, UNSET, STATE, ADD, REPLACE, ENABLE, REMOVE_SHEET};
#define EDIT_COUNT (sizeof EDITS / sizeof EDITS[0])

/* What comes before an edit is tried: not even a restyle; a restyle alone; behind it an edit of the document, by which what
 * marks elements is made; or that and then one of the sheets, with which it goes. */
enum came { NO_RESTYLE, NOTHING, AN_EDIT, A_SHEET_EDIT, CAME_COUNT };
static int came = NOTHING;
static const char EARLIER[] = "{\"op\":\"state\",\"node\":2,\"state\":\"focus\",\"on\":true}";

/* 44 elements, of which 40 have a class that a rule asks for below another class. A restyle keeps count of the names above
 * an element where it has many to match, and else from where it has styled many. */
#define LEAF ",{\"tag\":\"b\",\"parent\":2,\"attrs\":{\"class\":\"b\"}}"
#define TEN_LEAVES LEAF LEAF LEAF LEAF LEAF LEAF LEAF LEAF LEAF LEAF
static const char BELOW_PAGE[] =
    "{\"version\":1,\"nodes\":[{\"tag\":\"html\"},{\"tag\":\"body\",\"parent\":0},"
    "{\"tag\":\"p\",\"parent\":1,\"attrs\":{\"class\":\"a\"}},{\"tag\":\"i\",\"parent\":2}"
    TEN_LEAVES TEN_LEAVES TEN_LEAVES TEN_LEAVES "],"
    "\"sheets\":[{\"origin\":\"author\",\"text\":\".a .b{color:red} body .b:hover{width:1em} p:hover{clear:both} .d .b{}\"}]}";
/* One element is matched and styled, 40 are, or one is matched and 42 are styled. */
static const char MATCH_ONE[] = "{\"op\":\"state\",\"node\":9,\"state\":\"hover\",\"on\":true}";
static const char MATCH_MANY[] = "{\"op\":\"set\",\"node\":1,\"name\":\"class\",\"value\":\"a d\"}";
static const char STYLE_MANY[] = "{\"op\":\"state\",\"node\":3,\"state\":\"hover\",\"on\":true}";
static const char *const MATCHES[] = {MATCH_ONE, MATCH_MANY, STYLE_MANY};
#define MATCH_COUNT (sizeof MATCHES / sizeof MATCHES[0])

/* The page that a session is opened over, and the edit that a restyle of the second page comes behind. */
static const char *page = PAGE;
static const char *match = MATCH_ONE;

/* What a call told. */
static bokdrez_why why;
static bokdrez_counts counts;
static uint64_t needed;
static uint8_t buffer[4096];

/* The calls that are tried. An edit in JSON is EDITED and its place in EDITS. */
enum call { OPEN, SET_CALL, UNSET_CALL, STATE_CALL, FIRST_RESTYLE, RESTYLE, STYLE, TEXT, EDITED };

static uint32_t make(int call, bokdrez_session *session) {
  needed = 1;
  memset(&why, 1, sizeof why);
  memset(&counts, 1, sizeof counts);
  switch (call) {
    case OPEN:
      return bokdrez_open(bytes_of(OTHER_PAGE), strlen(OTHER_PAGE), session, &why, buffer, sizeof buffer, &needed);
    case SET_CALL:
      return bokdrez_set(session, 3, bytes_of("class"), 5, bytes_of("b and-a-class-with-a-long-name"), 30, &why);
    case UNSET_CALL:
      return bokdrez_unset(session, 3, bytes_of("class"), 5, &why);
    case STATE_CALL:
      return bokdrez_state(session, 3, BOKDREZ_HOVER, 1, &why);
    case FIRST_RESTYLE:
    case RESTYLE:
      return bokdrez_restyle(session, &counts);
    case STYLE:
      return bokdrez_style(session, 3, buffer, sizeof buffer, &needed);
    case TEXT:
      return bokdrez_text(session, buffer, sizeof buffer, &needed);
    default:
      return bokdrez_edit(session, bytes_of(EDITS[call - EDITED]), strlen(EDITS[call - EDITED]), &why, NULL, 0, &needed);
  }
}

/* The session as it is before the call. */
static void make_ready(int call, bokdrez_session *session) {
  open_right(page, strlen(page), session);
  if (call == FIRST_RESTYLE || came == NO_RESTYLE) {
    return;
  }
  restyle_right(session);
  if (came != NOTHING) {
    edit_right(session, EARLIER);
  }
  if (came == A_SHEET_EDIT) {
    edit_right(session, ADD);
  }
  if (call == RESTYLE && page == BELOW_PAGE) {
    edit_right(session, match);
  } else if (call == RESTYLE) {
    edit_right(session, INSERT);
    edit_right(session, SET);
    edit_right(session, ADD);
  }
}

/* What all that is there comes to: the text after a restyle. */
static char *standing(bokdrez_session *session) {
  restyle_right(session);
  return text_of(session);
}

/* Whether a call told nothing but its status. */
static int is_silent(int call) {
  if (call == FIRST_RESTYLE || call == RESTYLE) {
    return counts.matched == 0 && counts.cascaded == 0;
  }
  int is_needed_told = call != SET_CALL && call != UNSET_CALL && call != STATE_CALL;
  if (is_needed_told && needed != 0) {
    return 0;
  }
  return call == STYLE || call == TEXT || (why.what == 0 && why.kind == 0 && why.number == 0);
}

/* The text that is there before a call, what comes of the session without it, and with it. */
struct due {
  char *before;
  char *without;
  char *with;
};

static struct due due_of(int call) {
  struct due due;
  bokdrez_session session = BOKDREZ_NONE;
  make_ready(call, &session);
  due.before = text_of(&session);
  due.without = standing(&session);
  make_ready(call, &session);
  expect(make(call, &session) == BOKDREZ_DONE, "the call is done where there is memory");
  due.with = standing(&session);
  bokdrez_close(&session);
  return due;
}

/* Makes a call again that found no memory: it is done, and so is all that it should do. */
static void make_again(int call, bokdrez_session *session, const struct due *due) {
  expect(make(call, session) == BOKDREZ_DONE, "the same call again is done");
  char *text = standing(session);
  expect(strcmp(text, due->with) == 0, "the same call again does what it should");
  free(text);
}

/* After a refusal all is as it was: the text that is there, and what comes of the session. */
static void expect_as_it_was(int call, long number, const struct due *due) {
  bokdrez_session session = BOKDREZ_NONE;
  make_ready(call, &session);
  left = number;
  make(call, &session);
  left = -1;
  expect(has_text(&session, due->before), "after no memory the text is as it was");
  char *text = standing(&session);
  expect(strcmp(text, due->without) == 0, "after no memory the session is as it was");
  free(text);
  bokdrez_close(&session);
}

/* Makes a call with one of its allocations refused. Whether there was one of this number. */
static int is_tried(int call, long number, const struct due *due) {
  bokdrez_session session = BOKDREZ_NONE;
  make_ready(call, &session);
  was_refused = 0;
  left = number;
  uint32_t status = make(call, &session);
  left = -1;
  int is_tried_here = was_refused;
  if (status == BOKDREZ_NO_MEMORY) {
    expect(is_tried_here, "there is no memory only where it was refused");
    expect(is_silent(call), "at no memory nothing more is told");
    make_again(call, &session, due);
    expect_as_it_was(call, number, due);
  } else {
    expect(status == BOKDREZ_DONE, "the status is done or no memory");
    char *text = standing(&session);
    expect(strcmp(text, due->with) == 0, "the call does what it should");
    free(text);
  }
  bokdrez_close(&session);
  return is_tried_here;
}

/* An opening that finds no memory leaves a handle of no session as it was. */
static void open_into_none(void) {
  int is_more = 1;
  for (long number = 0; is_more; number++) {
    bokdrez_session session = BOKDREZ_NONE;
    was_refused = 0;
    left = number;
    uint32_t status = make(OPEN, &session);
    left = -1;
    is_more = was_refused;
    if (status == BOKDREZ_NO_MEMORY) {
      expect(session.held == NULL, "a handle of none stays one where there is no memory");
      expect(bokdrez_restyle(&session, &counts) == BOKDREZ_NO_SESSION, "there is no session where none was opened");
    } else {
      expect(status == BOKDREZ_DONE && session.held != NULL, "a session is opened into a handle of none");
    }
    bokdrez_close(&session);
  }
}

/* Makes a call with each of its allocations refused in turn. */
static void try_each(int call) {
  struct due due = due_of(call);
  long number = 0;
  while (is_tried(call, number, &due)) {
    number++;
  }
  free(due.before);
  free(due.without);
  free(due.with);
}

int main(void) {
  for (int call = OPEN; call < EDITED; call++) {
    try_each(call);
  }
  for (came = NO_RESTYLE; came < CAME_COUNT; came++) {
    for (int edit = 0; edit < (int)EDIT_COUNT; edit++) {
      try_each(EDITED + edit);
    }
  }
  came = NOTHING;
  page = BELOW_PAGE;
  try_each(FIRST_RESTYLE);
  for (int edit = 0; edit < (int)MATCH_COUNT; edit++) {
    match = MATCHES[edit];
    try_each(RESTYLE);
  }
  open_into_none();
  return ended();
}
