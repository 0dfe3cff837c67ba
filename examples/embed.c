/* A page of 200 elements that takes 1,000 edits, in C. It prints what each edit changed, and at the end all styles.
 *
 * In the folder above, where tools/c_library has made the library behind ./style build (it can't be tried unproved), this
 * compiles and runs it:
 *
 *   cc -std=c99 -Iinclude -o out/embed examples/embed.c -Lout -lbokdrez -Wl,-rpath,"$PWD/out"
 *   out/embed
 *
 * examples/embed.py does the same in Python, and prints the same text. */
#include <bokdrez.h>

#include <inttypes.h>
#include <stdarg.h>
#include <stdio.h>
#include <stdlib.h>
#include <string.h>

#define SECTIONS 18u
#define PARAGRAPHS 9u
#define ELEMENTS (2u + SECTIONS * (2u + PARAGRAPHS))
#define EDITS 1000u

/* Bytes that grow, and numbers that do. */
struct bytes {
  uint8_t *at;
  size_t length;
  size_t room;
};
struct numbers {
  uint32_t *at;
  size_t length;
  size_t room;
};

static struct bytes json, text;
static struct numbers changed;
static bokdrez_why why;
static uint8_t path[256];
static uint64_t needed;
/* The number that the next element gets which an edit puts in. */
static uint64_t next_number = ELEMENTS + 1u;

static void *resized(void *block, size_t size) {
  void *at = realloc(block, size);
  if (at == NULL) {
    fputs("embed: no memory\n", stderr);
    exit(1);
  }
  return at;
}

static void grow_bytes(struct bytes *bytes, size_t room) {
  if (room > bytes->room) {
    bytes->at = (uint8_t *)resized(bytes->at, room);
    bytes->room = room;
  }
}

static void grow_numbers(struct numbers *numbers, size_t room) {
  if (room > numbers->room) {
    numbers->at = (uint32_t *)resized(numbers->at, room * sizeof *numbers->at);
    numbers->room = room;
  }
}

/* Appends a piece to `json`, as printf would print it. */
static void add(const char *format, ...) {
  char piece[256];
  va_list list;
  va_start(list, format);
  int length = vsnprintf(piece, sizeof piece, format, list);
  va_end(list);
  if (length < 0 || (size_t)length >= sizeof piece) {
    fputs("embed: a piece is too long\n", stderr);
    exit(1);
  }
  if (json.length + (size_t)length > json.room) {
    grow_bytes(&json, 2 * (json.length + (size_t)length));
  }
  memcpy(json.at + json.length, piece, (size_t)length);
  json.length += (size_t)length;
}

/* The page: a body with sections, each with a heading and some paragraphs. Elements are numbered from 1 in the order of the
 * list, but `parent` is a place in the list, from 0. */
static void write_page(void) {
  json.length = 0;
  add("{\"version\":1,\"nodes\":[{\"tag\":\"html\"},{\"tag\":\"body\",\"parent\":0}");
  for (uint32_t section = 0; section < SECTIONS; section++) {
    uint32_t place = 2 + section * (2 + PARAGRAPHS);
    add(",{\"tag\":\"section\",\"parent\":1},{\"tag\":\"h2\",\"parent\":%" PRIu32 "}", place);
    for (uint32_t paragraph = 0; paragraph < PARAGRAPHS; paragraph++) {
      uint32_t class_number = (section + paragraph) % 5;
      add(",{\"tag\":\"p\",\"parent\":%" PRIu32 ",\"attrs\":{\"class\":\"c%" PRIu32 "\"}}", place, class_number);
    }
  }
  add("],\"sheets\":[{\"origin\":\"author\",\"text\":\"h2{font-size:larger} p{color:navy}");
  for (uint32_t class_number = 0; class_number < 5; class_number++) {
    add(" .c%" PRIu32 "{width:%" PRIu32 "px}", class_number, 10 * (class_number + 1));
  }
  add(" .c3{font-size:2em} section:hover{color:green} section:hover h2{visibility:hidden} p:first-child{clear:both}\"}]}");
}

static uint32_t section_number(uint32_t section) {
  return 3 + section % SECTIONS * (2 + PARAGRAPHS);
}

static uint32_t paragraph_number(uint32_t paragraph) {
  return section_number(paragraph / PARAGRAPHS) + 2 + paragraph % PARAGRAPHS;
}

/* What a status means that is not to come here. */
static const char *status_text(uint32_t status) {
  switch (status) {
    case BOKDREZ_NOT_JSON:
      return "the bytes are no JSON value";
    case BOKDREZ_NOT_A_JOB:
      return "the value is of another shape";
    case BOKDREZ_LIMIT:
      return "a limit is passed";
    case BOKDREZ_NO_MEMORY:
      return "there is no memory";
    case BOKDREZ_REFUSED:
      return "the edit is refused";
    case BOKDREZ_NO_SESSION:
      return "there is no session";
    case BOKDREZ_NO_ROOM:
      return "the buffer is too small";
    case BOKDREZ_STALE:
      return "the style is stale";
    case BOKDREZ_NO_NODE:
      return "there is no such element";
    case BOKDREZ_BAD_ARGUMENT:
      return "an argument is wrong";
    default:
      return "the status is unknown";
  }
}

/* Ends the program where a call did not end with Done: there is nothing better to do here. */
static void want_done(const char *call, uint32_t status, bokdrez_session *session) {
  if (status == BOKDREZ_DONE) {
    return;
  }
  fprintf(stderr, "embed: %s: %s", call, status_text(status));
  if (status == BOKDREZ_NOT_A_JOB && needed <= sizeof path) {
    fprintf(stderr, ", at '%.*s'", (int)needed, (const char *)path);
  }
  if (status == BOKDREZ_LIMIT) {
    fprintf(stderr, ", of kind %" PRIu32 ": %" PRIu64, why.kind, why.number);
  }
  fputs("\n", stderr);
  bokdrez_close(session);
  exit(1);
}

/* Prints why an edit was refused. */
static void print_refusal(void) {
  switch (why.what) {
    case BOKDREZ_UNKNOWN_NODE:
      printf("refused: there is no element %" PRIu64 "\n", why.number);
      break;
    case BOKDREZ_UNKNOWN_SHEET:
      printf("refused: there is no sheet %" PRIu64 "\n", why.number);
      break;
    case BOKDREZ_BAD_PLACE:
      printf("refused: it can't be there\n");
      break;
    default:
      printf("refused: a limit of kind %" PRIu32 ": %" PRIu64 "\n", why.kind, why.number);
      break;
  }
}

static uint32_t edit_by_json(bokdrez_session *session) {
  return bokdrez_edit(session, json.at, json.length, &why, path, sizeof path, &needed);
}

/* Makes the edit of a number. Each 120th names an element that is gone. */
static uint32_t make_edit(bokdrez_session *session, uint32_t number) {
  static const uint8_t name[] = {'c', 'l', 'a', 's', 's'};
  uint8_t value[] = {'c', (uint8_t)('0' + number % 7)};
  uint32_t section = section_number(number / 6 * 7), paragraph = paragraph_number(number * 37);
  json.length = 0;
  if (number % 120 == 0) {
    return bokdrez_set(session, next_number - 1, name, sizeof name, value, sizeof value, &why);
  }
  switch (number % 6) {
    case 0:
      return bokdrez_set(session, paragraph, name, sizeof name, value, sizeof value, &why);
    case 1:
      return bokdrez_state(session, section, BOKDREZ_HOVER, 1, &why);
    case 2:
      return bokdrez_state(session, section, BOKDREZ_HOVER, 0, &why);
    case 3:
      return bokdrez_unset(session, paragraph, name, sizeof name, &why);
    case 4:
      add("{\"op\":\"insert\",\"parent\":%" PRIu32 ",\"index\":0,\"nodes\":[{\"tag\":\"p\"}]}", section);
      return edit_by_json(session);
    default:
      add("{\"op\":\"remove\",\"node\":%" PRIu64 "}", next_number);
      next_number++;
      return edit_by_json(session);
  }
}

/* Which of two numbers is the smaller one, for qsort. */
static int in_order(const void *left, const void *right) {
  uint32_t a = *(const uint32_t *)left, b = *(const uint32_t *)right;
  return a < b ? -1 : a > b;
}

/* The elements that the last restyle went to, in order. */
static void read_changed(bokdrez_session *session) {
  uint32_t status = bokdrez_changed(session, changed.at, changed.room, &needed);
  if (status == BOKDREZ_NO_ROOM) {
    grow_numbers(&changed, (size_t)needed);
    status = bokdrez_changed(session, changed.at, changed.room, &needed);
  }
  want_done("bokdrez_changed", status, session);
  changed.length = (size_t)needed;
  if (changed.length > 0) {
    qsort(changed.at, changed.length, sizeof *changed.at, in_order);
  }
}

/* Styles again, and prints what changed. */
static void restyle(bokdrez_session *session) {
  bokdrez_counts counts;
  want_done("bokdrez_restyle", bokdrez_restyle(session, &counts), session);
  read_changed(session);
  printf("%" PRIu64 " matched, %" PRIu64 " cascaded", counts.matched, counts.cascaded);
  for (size_t k = 0; k < changed.length; k++) {
    printf("%s%" PRIu32, k == 0 ? ": " : " ", changed.at[k]);
  }
  printf("\n");
}

/* The line of one element, or of all of them where the number is 0. */
static uint32_t read_lines(bokdrez_session *session, uint64_t number) {
  if (number == 0) {
    return bokdrez_text(session, text.at, text.room, &needed);
  }
  return bokdrez_style(session, number, text.at, text.room, &needed);
}

static void print_lines(bokdrez_session *session, uint64_t number) {
  uint32_t status = read_lines(session, number);
  if (status == BOKDREZ_NO_ROOM) {
    grow_bytes(&text, (size_t)needed);
    status = read_lines(session, number);
  }
  want_done("reading styles", status, session);
  fwrite(text.at, 1, (size_t)needed, stdout);
}

int main(void) {
  bokdrez_session session = BOKDREZ_NONE;
  if (bokdrez_version() != BOKDREZ_VERSION) {
    fputs("embed: the library is of another version\n", stderr);
    return 1;
  }
  write_page();
  uint32_t status = bokdrez_open(json.at, json.length, &session, &why, path, sizeof path, &needed);
  want_done("bokdrez_open", status, &session);
  printf("page: ");
  restyle(&session);
  for (uint32_t number = 1; number <= EDITS; number++) {
    status = make_edit(&session, number);
    printf("edit %" PRIu32 ": ", number);
    if (status == BOKDREZ_REFUSED) {
      print_refusal();
      continue;
    }
    want_done("an edit", status, &session);
    restyle(&session);
    if (changed.length == 1) {
      print_lines(&session, changed.at[0]);
    }
  }
  print_lines(&session, 0);
  bokdrez_close(&session);
  free(json.at);
  free(text.at);
  free(changed.at);
  return 0;
}
