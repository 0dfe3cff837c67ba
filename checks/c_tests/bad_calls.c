/* Calls that have to be refused, and calls that nearly have to be: the status, what is told with it, and that the session is
 * as it was. */
#ifndef _GNU_SOURCE
#define _GNU_SOURCE
#endif
#include "made_text.h"

#include <sys/mman.h>
#include <unistd.h>

#define INPUT_LIMIT 67108864u
#define HUGE_NODE UINT64_MAX
/* In 32 bits this would be the root. */
#define PAST_32_BITS 4294967297u

/* What a call told. Before each call all of it is soiled. */
static bokdrez_why why;
static uint8_t path[64];
static uint64_t needed;
static bokdrez_counts counts;

/* The page that the calls are made on, which `main` begins as none, and its text. */
static bokdrez_session page;
static char *due;

static void soil(void) {
  memset(&why, 0xee, sizeof why);
  memset(path, 0xee, sizeof path);
  memset(&counts, 0xee, sizeof counts);
  needed = HUGE_NODE;
}

static uint32_t open_job(bokdrez_session *session, const char *job, size_t length) {
  soil();
  return bokdrez_open(bytes_of(job), length, session, &why, path, sizeof path, &needed);
}

static uint32_t edit(bokdrez_session *session, const char *json, size_t length) {
  soil();
  return bokdrez_edit(session, bytes_of(json), length, &why, path, sizeof path, &needed);
}

static uint32_t set(bokdrez_session *session, uint64_t node, const char *name, size_t length, const char *value,
                    size_t value_length) {
  soil();
  return bokdrez_set(session, node, bytes_of(name), length, bytes_of(value), value_length, &why);
}

static uint32_t unset(bokdrez_session *session, uint64_t node, const char *name, size_t length) {
  soil();
  return bokdrez_unset(session, node, bytes_of(name), length, &why);
}

static uint32_t state(bokdrez_session *session, uint64_t node, uint32_t which, uint32_t on) {
  soil();
  return bokdrez_state(session, node, which, on, &why);
}

/* Expects a status and why; and that the page is as it was. */
static void expect_told(const char *call, uint32_t status, uint32_t wanted, uint32_t what, uint32_t kind, uint64_t number) {
  int is_so = status == wanted && why.what == what && why.kind == kind && why.number == number;
  if (!is_so) {
    fprintf(stderr, "status %" PRIu32 ", what %" PRIu32 ", kind %" PRIu32 ", number %" PRIu64 "; ", status, why.what, why.kind,
            why.number);
  }
  expect(is_so, call);
  if (page.held != NULL) {
    expect(has_text(&page, due), "the page is as it was");
  }
}

static void expect_status(const char *call, uint32_t status, uint32_t wanted) {
  expect_told(call, status, wanted, 0, 0, 0);
}

static void expect_limit(const char *call, uint32_t status, uint32_t wanted, uint32_t kind, uint64_t number) {
  expect_told(call, status, wanted, BOKDREZ_LIMIT_PASSED, kind, number);
}

/* Expects a pointer in `path`; the empty one where none is told. */
static void expect_pointer(const char *call, const char *pointer) {
  int is_so = needed == strlen(pointer) && memcmp(path, pointer, strlen(pointer)) == 0;
  if (!is_so) {
    fprintf(stderr, "%" PRIu64 " bytes needed; ", needed);
  }
  expect(is_so, call);
}

/* A place behind which nothing may be read: so many bytes are there. */
static const char *before_a_wall(size_t length) {
  size_t size = (size_t)sysconf(_SC_PAGESIZE);
  char *block = (char *)mmap(NULL, 2 * size, PROT_READ | PROT_WRITE, MAP_PRIVATE | MAP_ANONYMOUS, -1, 0);
  if (block == (char *)MAP_FAILED || mprotect(block + size, size, PROT_NONE) != 0) {
    fputs("no pages for the test itself\n", stderr);
    exit(1);
  }
  memset(block, 'a', size);
  return block + size - length;
}

/* All calls on a handle that has no session: this comes before all else that is wrong with them. */
static void without_session(bokdrez_session *none) {
  const char *few = before_a_wall(4);
  uint8_t byte;
  uint32_t number;
  uint32_t status = edit(none, "{\"op\":\"remove\",\"node\":2}", 24);
  expect_status("an edit without a session", status, BOKDREZ_NO_SESSION);
  expect_pointer("an edit without a session has no pointer", "");
  expect_status("an edit that is no JSON", edit(none, "{", 1), BOKDREZ_NO_SESSION);
  expect_status("an edit of another shape", edit(none, "[]", 2), BOKDREZ_NO_SESSION);
  expect_status("an edit that is too long", edit(none, few, (size_t)INPUT_LIMIT + 1), BOKDREZ_NO_SESSION);
  expect_status("set", set(none, 1, "class", 5, "a", 1), BOKDREZ_NO_SESSION);
  expect_status("set of a bad name", set(none, 0, NULL, 0, "\xff", 1), BOKDREZ_NO_SESSION);
  expect_status("set of what is too long", set(none, 1, few, SIZE_MAX / 2, few, SIZE_MAX / 2), BOKDREZ_NO_SESSION);
  expect_status("unset", unset(none, 1, "class", 5), BOKDREZ_NO_SESSION);
  expect_status("unset of a bad name", unset(none, HUGE_NODE, " ", 1), BOKDREZ_NO_SESSION);
  expect_status("a state", state(none, 1, BOKDREZ_HOVER, 1), BOKDREZ_NO_SESSION);
  expect_status("a state of no number", state(none, 0, 3, 2), BOKDREZ_NO_SESSION);
  soil();
  expect(bokdrez_restyle(none, &counts) == BOKDREZ_NO_SESSION, "a restyle");
  expect(counts.matched == 0 && counts.cascaded == 0, "a restyle without a session counts nothing");
  soil();
  expect(bokdrez_style(none, HUGE_NODE, NULL, 0, &needed) == BOKDREZ_NO_SESSION && needed == 0, "a style");
  soil();
  expect(bokdrez_style(none, 1, &byte, 1, &needed) == BOKDREZ_NO_SESSION && needed == 0, "a style of the root");
  soil();
  expect(bokdrez_text(none, NULL, 0, &needed) == BOKDREZ_NO_SESSION && needed == 0, "the text");
  soil();
  expect(bokdrez_changed(none, &number, 1, &needed) == BOKDREZ_NO_SESSION && needed == 0, "what changed");
}

/* A handle that never had a session, and one whose session is closed, also twice. */
static void handles_of_none(void) {
  bokdrez_session none = BOKDREZ_NONE;
  without_session(&none);
  bokdrez_close(&none);
  expect(none.held == NULL, "a close of none leaves none");
  without_session(&none);
  expect_status("a job that is refused", open_job(&none, "{", 1), BOKDREZ_NOT_JSON);
  expect(none.held == NULL, "a job that is refused opens nothing");
  open_right(PAGE, strlen(PAGE), &none);
  restyle_right(&none);
  bokdrez_close(&none);
  expect(none.held == NULL, "a closed session is none");
  without_session(&none);
  bokdrez_close(&none);
  expect(none.held == NULL, "a second close leaves none");
}

#define NODES "{\"version\":1,\"nodes\":[{\"tag\":\"html\"},{\"tag\":\"p\",\"parent\":0"

/* Jobs and edits of another shape, and the pointer that is told. */
struct shape {
  const char *json;
  const char *pointer;
};

static const struct shape JOBS[] = {
    {"[]", ""},
    {"7", ""},
    {"{}", "/version"},
    {"{\"version\":2,\"nodes\":[{\"tag\":\"html\"}]}", "/version"},
    {"{\"version\":1}", "/nodes"},
    {"{\"version\":1,\"nodes\":[]}", "/nodes"},
    {"{\"version\":1,\"nodes\":[{\"tag\":\"html\",\"parent\":0}]}", "/nodes/0/parent"},
    {"{\"version\":1,\"nodes\":[{\"tag\":\"html\"},{\"tag\":\"a b\",\"parent\":0}]}", "/nodes/1/tag"},
    {NODES ",\"attrs\":{\"a~/b\":3}}]}", "/nodes/1/attrs/a~0~1b"},
    {NODES ",\"states\":[\"hover\",\"hoover\"]}]}", "/nodes/1/states/1"},
    {NODES "}],\"sheets\":[{\"origin\":\"reader\",\"text\":\"\"}]}", "/sheets/0/origin"},
    {NODES "}],\"batches\":[[],[{\"op\":\"paint\"}]]}", "/batches/1/0/op"},
    {NODES "}],\"batches\":[[{\"op\":\"set\",\"node\":1,\"name\":\"k\"}]]}", "/batches/0/0/value"},
};

static const struct shape EDITS[] = {
    {"[]", ""},
    {"null", ""},
    {"{}", "/op"},
    {"{\"op\":\"paint\",\"node\":1}", "/op"},
    {"{\"op\":\"remove\"}", "/node"},
    {"{\"op\":\"remove\",\"node\":-1}", "/node"},
    {"{\"op\":\"remove\",\"node\":2.0}", "/node"},
    {"{\"op\":\"remove\",\"node\":18446744073709551616}", "/node"},
    {"{\"op\":\"set\",\"node\":3,\"name\":\"\",\"value\":\"\"}", "/name"},
    {"{\"op\":\"set\",\"node\":3,\"name\":\"a b\",\"value\":3}", "/name"},
    {"{\"op\":\"set\",\"node\":3,\"name\":\"k\",\"value\":null}", "/value"},
    {"{\"op\":\"state\",\"node\":3,\"state\":\"hoover\",\"on\":true}", "/state"},
    {"{\"op\":\"state\",\"node\":3,\"state\":\"hover\",\"on\":1}", "/on"},
    {"{\"op\":\"insert\",\"parent\":1,\"index\":0,\"nodes\":[]}", "/nodes"},
    {"{\"op\":\"insert\",\"parent\":1,\"index\":0,\"nodes\":[{\"tag\":\"p\"},{\"tag\":\"q\"}]}", "/nodes/1/parent"},
    {"{\"op\":\"add_sheet\",\"index\":0,\"origin\":\"author\",\"enabled\":0,\"text\":\"\"}", "/enabled"},
    {"{\"op\":\"replace_sheet\",\"sheet\":1}", "/text"},
};

static void wrong_shapes(void) {
  for (size_t k = 0; k < sizeof JOBS / sizeof JOBS[0]; k++) {
    expect_status(JOBS[k].json, open_job(&page, JOBS[k].json, strlen(JOBS[k].json)), BOKDREZ_NOT_A_JOB);
    expect_pointer(JOBS[k].json, JOBS[k].pointer);
  }
  for (size_t k = 0; k < sizeof EDITS / sizeof EDITS[0]; k++) {
    expect_status(EDITS[k].json, edit(&page, EDITS[k].json, strlen(EDITS[k].json)), BOKDREZ_NOT_A_JOB);
    expect_pointer(EDITS[k].json, EDITS[k].pointer);
  }
}

/* A pointer is written where all of it fits, and nothing past the room. */
static void pointers_in_a_room(void) {
  static const char json[] = "{\"op\":\"remove\",\"node\":true}";
  soil();
  uint32_t status = bokdrez_edit(&page, bytes_of(json), strlen(json), &why, NULL, 0, &needed);
  expect_status("an edit without room for its pointer", status, BOKDREZ_NOT_A_JOB);
  expect(needed == strlen("/node"), "the pointer's length is told without room");
  soil();
  status = bokdrez_edit(&page, bytes_of(json), strlen(json), &why, path, 4, &needed);
  expect_status("an edit with too little room for its pointer", status, BOKDREZ_NOT_A_JOB);
  expect(needed == 5 && path[4] == 0xee, "nothing is written past too little room");
  soil();
  status = bokdrez_edit(&page, bytes_of(json), strlen(json), &why, path, 5, &needed);
  expect_status("an edit with just the room for its pointer", status, BOKDREZ_NOT_A_JOB);
  expect(needed == 5 && memcmp(path, "/node", 5) == 0 && path[5] == 0xee, "a pointer takes the whole room");
  soil();
  status = bokdrez_open(bytes_of("{}"), 2, &page, &why, NULL, 0, &needed);
  expect_status("a job without room for its pointer", status, BOKDREZ_NOT_A_JOB);
  expect(needed == strlen("/version"), "the pointer's length of a job is told without room");
}

/* Texts that are no JSON, and one that is too long, of which nothing is read. */
static void no_json(void) {
  static const char *const texts[] = {"{", "", "\xff", "\"\xc3\"", "[1,]", "{\"op\":\"remove\",\"node\":2} x", "\"\\ud800\""};
  for (size_t k = 0; k < sizeof texts / sizeof texts[0]; k++) {
    expect_status(texts[k], open_job(&page, texts[k], strlen(texts[k])), BOKDREZ_NOT_JSON);
    expect_pointer("no pointer of what is no JSON", "");
    expect_status(texts[k], edit(&page, texts[k], strlen(texts[k])), BOKDREZ_NOT_JSON);
    expect_pointer("no pointer of what is no JSON", "");
  }
  expect_status("a job of null and length 0", open_job(&page, NULL, 0), BOKDREZ_NOT_JSON);
  expect_status("an edit of null and length 0", edit(&page, NULL, 0), BOKDREZ_NOT_JSON);
  const char *few = before_a_wall(3);
  size_t lengths[] = {(size_t)INPUT_LIMIT + 1, SIZE_MAX / 2};
  for (size_t k = 0; k < 2; k++) {
    expect_limit("a job that is too long", open_job(&page, few, lengths[k]), BOKDREZ_LIMIT, BOKDREZ_KIND_INPUT, INPUT_LIMIT);
    expect_pointer("no pointer of a job that is too long", "");
    expect_limit("an edit that is too long", edit(&page, few, lengths[k]), BOKDREZ_LIMIT, BOKDREZ_KIND_INPUT, INPUT_LIMIT);
    expect_pointer("no pointer of an edit that is too long", "");
  }
}

/* Texts that are just as long as an input may be are read. */
static void just_an_input(void) {
  char *blanks = (char *)block_of(INPUT_LIMIT);
  memset(blanks, ' ', INPUT_LIMIT);
  expect_status("a job that is just within the limit", open_job(&page, blanks, INPUT_LIMIT), BOKDREZ_NOT_JSON);
  expect_status("an edit that is just within the limit", edit(&page, blanks, INPUT_LIMIT), BOKDREZ_NOT_JSON);
  expect_status("a name that is just within the limit", unset(&page, 3, blanks, INPUT_LIMIT), BOKDREZ_BAD_ARGUMENT);
  expect_limit("a value that is just an input", set(&page, 3, "class", 5, blanks, INPUT_LIMIT), BOKDREZ_REFUSED,
               BOKDREZ_KIND_VALUE, 1048576);
  free(blanks);
}

/* Makes a job or an edit that passes a limit, and looks what is told. */
static void pass_limit(int is_job, uint32_t kind, uint64_t number, struct made text) {
  uint32_t status = is_job ? open_job(&page, text.at, text.length) : edit(&page, text.at, text.length);
  expect_limit(is_job ? "a job past a limit" : "an edit past a limit", status, is_job ? BOKDREZ_LIMIT : BOKDREZ_REFUSED, kind,
               number);
  expect_pointer("no pointer where a limit is passed", "");
  free(text.at);
}

static void jobs_past_limits(void) {
  static const char nodes[] = "{\"version\":1,\"nodes\":[{\"tag\":\"html\"}";
  static const char attrs[] = "{\"version\":1,\"nodes\":[{\"tag\":\"html\",\"attrs\":{\"k\":\"\"";
  static const char value[] = "{\"version\":1,\"nodes\":[{\"tag\":\"html\",\"attrs\":{\"k\":\"";
  static const char sheets[] = "{\"version\":1,\"nodes\":[{\"tag\":\"html\"}],\"sheets\":[{\"origin\":\"ua\",\"text\":\"\"}";
  static const char sheet[] = "{\"version\":1,\"nodes\":[{\"tag\":\"html\"}],\"sheets\":[{\"origin\":\"ua\",\"text\":\"";
  static const char batches[] = "{\"version\":1,\"nodes\":[{\"tag\":\"html\"}],\"batches\":[[]";
  pass_limit(1, BOKDREZ_KIND_ELEMENTS, 65536, made_of(nodes, ",{\"tag\":\"p\",\"parent\":0}", 0, 65536, "]}"));
  pass_limit(1, BOKDREZ_KIND_DEPTH, 256, made_of(nodes, ",{\"tag\":\"p\",\"parent\":#}", 0, 256, "]}"));
  pass_limit(1, BOKDREZ_KIND_ATTRIBUTES, 64, made_of(attrs, ",\"k#\":\"\"", 0, 64, "}}]}"));
  pass_limit(1, BOKDREZ_KIND_VALUE, 1048576, made_of(value, "x", 0, 1048577, "\"}}]}"));
  pass_limit(1, BOKDREZ_KIND_SHEETS, 256, made_of(sheets, ",{\"origin\":\"ua\",\"text\":\"\"}", 0, 256, "]}"));
  pass_limit(1, BOKDREZ_KIND_TEXT, 4194304, made_of(sheet, " ", 0, 4194305, "\"}]}"));
  pass_limit(1, BOKDREZ_KIND_BATCHES, 10000, made_of(batches, ",[]", 0, 10000, "]}"));
}

/* Fills a second session with sheets up to their limit, and looks at one more. */
static void sheets_past_limit(void) {
  static const char add_one[] = "{\"op\":\"add_sheet\",\"index\":0,\"origin\":\"user\",\"text\":\"\"}";
  bokdrez_session other = BOKDREZ_NONE;
  struct made job = made_of("{\"version\":1,\"nodes\":[{\"tag\":\"html\"}],\"sheets\":[{\"origin\":\"ua\",\"text\":\"\"}",
                            ",{\"origin\":\"ua\",\"text\":\"\"}", 0, 255, "]}");
  open_right(job.at, job.length, &other);
  expect_limit("a sheet past the limit", edit(&other, add_one, strlen(add_one)), BOKDREZ_REFUSED, BOKDREZ_KIND_SHEETS, 256);
  bokdrez_close(&other);
  free(job.at);
}

static void edits_past_limits(void) {
#define INSERT "{\"op\":\"insert\",\"parent\":1,\"index\":0,\"nodes\":[{\"tag\":\"p\""
  static const char insert[] = INSERT "}";
  static const char attrs[] = INSERT ",\"attrs\":{\"k\":\"\"";
  static const char value[] = "{\"op\":\"set\",\"node\":3,\"name\":\"class\",\"value\":\"";
  static const char sheet[] = "{\"op\":\"add_sheet\",\"index\":0,\"origin\":\"author\",\"text\":\"";
  static const char other[] = "{\"op\":\"replace_sheet\",\"sheet\":1,\"text\":\"";
  pass_limit(0, BOKDREZ_KIND_ATTRIBUTES, 64, made_of(attrs, ",\"k#\":\"\"", 0, 64, "}}]}"));
  pass_limit(0, BOKDREZ_KIND_ELEMENTS, 65536, made_of(insert, ",{\"tag\":\"p\",\"parent\":0}", 0, 65535, "]}"));
  pass_limit(0, BOKDREZ_KIND_DEPTH, 256, made_of(insert, ",{\"tag\":\"p\",\"parent\":#}", 0, 255, "]}"));
  pass_limit(0, BOKDREZ_KIND_VALUE, 1048576, made_of(value, "x", 0, 1048577, "\"}"));
  pass_limit(0, BOKDREZ_KIND_TEXT, 4194304, made_of(sheet, " ", 0, 4194305, "\"}"));
  pass_limit(0, BOKDREZ_KIND_TEXT, 4194304, made_of(other, " ", 0, 4194305, "\"}"));
  sheets_past_limit();
}

static void refuse(const char *json, uint32_t what, uint64_t number) {
  expect_told(json, edit(&page, json, strlen(json)), BOKDREZ_REFUSED, what, 0, number);
  expect_pointer("no pointer of a refused edit", "");
}

static void refused_edits(void) {
  refuse("{\"op\":\"remove\",\"node\":0}", BOKDREZ_UNKNOWN_NODE, 0);
  refuse("{\"op\":\"remove\",\"node\":5}", BOKDREZ_UNKNOWN_NODE, 5);
  refuse("{\"op\":\"remove\",\"node\":4294967297}", BOKDREZ_UNKNOWN_NODE, PAST_32_BITS);
  refuse("{\"op\":\"unset\",\"node\":18446744073709551615,\"name\":\"k\"}", BOKDREZ_UNKNOWN_NODE, HUGE_NODE);
  refuse("{\"op\":\"move\",\"node\":3,\"parent\":77,\"index\":0}", BOKDREZ_UNKNOWN_NODE, 77);
  refuse("{\"op\":\"enable_sheet\",\"sheet\":2,\"on\":false}", BOKDREZ_UNKNOWN_SHEET, 2);
  refuse("{\"op\":\"remove_sheet\",\"sheet\":0}", BOKDREZ_UNKNOWN_SHEET, 0);
  refuse("{\"op\":\"replace_sheet\",\"sheet\":4294967297,\"text\":\"\"}", BOKDREZ_UNKNOWN_SHEET, PAST_32_BITS);
  refuse("{\"op\":\"remove\",\"node\":1}", BOKDREZ_BAD_PLACE, 0);
  refuse("{\"op\":\"move\",\"node\":2,\"parent\":4,\"index\":0}", BOKDREZ_BAD_PLACE, 0);
  refuse("{\"op\":\"insert\",\"parent\":2,\"index\":2,\"nodes\":[{\"tag\":\"p\"}]}", BOKDREZ_BAD_PLACE, 0);
  refuse("{\"op\":\"add_sheet\",\"index\":2,\"origin\":\"ua\",\"text\":\"\"}", BOKDREZ_BAD_PLACE, 0);
}

/* The calls without JSON, with elements that are not there. */
static void unknown_elements(void) {
  static const uint64_t nodes[] = {0, 5, PAST_32_BITS, HUGE_NODE};
  for (size_t k = 0; k < sizeof nodes / sizeof nodes[0]; k++) {
    uint64_t node = nodes[k];
    expect_told("set", set(&page, node, "class", 5, "a", 1), BOKDREZ_REFUSED, BOKDREZ_UNKNOWN_NODE, 0, node);
    expect_told("unset", unset(&page, node, "class", 5), BOKDREZ_REFUSED, BOKDREZ_UNKNOWN_NODE, 0, node);
    expect_told("state", state(&page, node, BOKDREZ_FOCUS, 0), BOKDREZ_REFUSED, BOKDREZ_UNKNOWN_NODE, 0, node);
    expect_status("a bad argument comes before the element", set(&page, node, "", 0, "a", 1), BOKDREZ_BAD_ARGUMENT);
    expect_status("so in unset", unset(&page, node, "a b", 3), BOKDREZ_BAD_ARGUMENT);
    expect_status("so in a state", state(&page, node, 3, 0), BOKDREZ_BAD_ARGUMENT);
    soil();
    expect(bokdrez_style(&page, node, path, sizeof path, &needed) == BOKDREZ_NO_NODE, "the style of no element");
    expect(needed == 0 && path[0] == 0xee, "the style of no element takes no room");
  }
}

/* Names and values that are none. */
static void bad_names(void) {
  static const char *const names[] = {"a b", " ", "a\n", "\x7f", "\x1f", "\xff", "a\xc3", "\xed\xa0\x80", "\xf5\x80\x80\x80", "\xc0\xaf"};
  char longest[257];
  const char *few = before_a_wall(3);
  memset(longest, 'n', sizeof longest);
  for (size_t k = 0; k < sizeof names / sizeof names[0]; k++) {
    expect_status("set of a bad name", set(&page, 3, names[k], strlen(names[k]), "a", 1), BOKDREZ_BAD_ARGUMENT);
    expect_status("unset of a bad name", unset(&page, 3, names[k], strlen(names[k])), BOKDREZ_BAD_ARGUMENT);
  }
  expect_status("set of a name with a zero", set(&page, 3, "a\0b", 3, "a", 1), BOKDREZ_BAD_ARGUMENT);
  expect_status("set of the empty name", set(&page, 3, "", 0, "a", 1), BOKDREZ_BAD_ARGUMENT);
  expect_status("set of null", set(&page, 3, NULL, 0, "a", 1), BOKDREZ_BAD_ARGUMENT);
  expect_status("unset of null", unset(&page, 3, NULL, 0), BOKDREZ_BAD_ARGUMENT);
  expect_status("set of 257 bytes", set(&page, 3, longest, 257, "a", 1), BOKDREZ_BAD_ARGUMENT);
  expect_status("unset of 257 bytes", unset(&page, 3, longest, 257), BOKDREZ_BAD_ARGUMENT);
  expect_status("unset of 256 bytes", unset(&page, 3, longest, 256), BOKDREZ_DONE);
  expect_status("set of a name past an input", set(&page, 3, few, (size_t)INPUT_LIMIT + 1, "a", 1), BOKDREZ_BAD_ARGUMENT);
  expect_status("unset of a name past an input", unset(&page, 3, few, SIZE_MAX / 2), BOKDREZ_BAD_ARGUMENT);
  expect_status("a value past an input", set(&page, 3, "k", 1, few, (size_t)INPUT_LIMIT + 1), BOKDREZ_BAD_ARGUMENT);
  expect_status("a value that is not UTF-8", set(&page, 3, "k", 1, "a\xff", 2), BOKDREZ_BAD_ARGUMENT);
  expect_status("a value with half a character", set(&page, 3, "k", 1, "\xf0\x9f\x98", 3), BOKDREZ_BAD_ARGUMENT);
  expect_status("a value that is there", set(&page, 3, "class", 5, "a", 1), BOKDREZ_DONE);
  expect_status("an attribute that is not there", unset(&page, 3, "k", 1), BOKDREZ_DONE);
  struct made value = made_of("", "x", 0, 1048577, "");
  expect_limit("a value past its limit", set(&page, 3, "class", 5, value.at, value.length), BOKDREZ_REFUSED, BOKDREZ_KIND_VALUE,
               1048576);
  free(value.at);
}

static void bad_states(void) {
  static const uint32_t numbers[] = {3, 4, 255, 256, UINT32_MAX};
  for (size_t k = 0; k < sizeof numbers / sizeof numbers[0]; k++) {
    expect_status("no such state", state(&page, 3, numbers[k], 1), BOKDREZ_BAD_ARGUMENT);
    expect_status("no such truth", state(&page, 3, BOKDREZ_HOVER, numbers[k] - 1), BOKDREZ_BAD_ARGUMENT);
  }
  expect_status("out of a state where it is not", state(&page, 3, BOKDREZ_HOVER, 0), BOKDREZ_DONE);
}

/* The most attributes of an element, one of them with a value of null and length 0, and one more. */
static void attributes_past_limit(void) {
  bokdrez_session other = BOKDREZ_NONE;
  open_right(PAGE, strlen(PAGE), &other);
  for (unsigned long k = 0; k < 64; k++) {
    struct made name = made_of("", "k#", k, 1, "");
    expect_status("an attribute", set(&other, 2, name.at, name.length, NULL, 0), BOKDREZ_DONE);
    free(name.at);
  }
  uint32_t status = set(&other, 2, "k", 1, "", 0);
  expect_limit("an attribute too many", status, BOKDREZ_REFUSED, BOKDREZ_KIND_ATTRIBUTES, 64);
  expect_status("another value of one that is there", set(&other, 2, "k7", 2, "v", 1), BOKDREZ_DONE);
  bokdrez_close(&other);
}

/* Reading with no room, too little, and just enough. Nothing is written past a room. */
static void rooms(void) {
  uint8_t line[64];
  uint32_t numbers[8];
  uint64_t whole = 0;
  expect(bokdrez_style(&page, 3, NULL, 0, &whole) == BOKDREZ_NO_ROOM, "a style without room");
  expect(whole == strlen("3 p{color: #ff0000}\n"), "the length of a style is told without room");
  memset(line, 0xee, sizeof line);
  expect(bokdrez_style(&page, 3, line, (size_t)whole - 1, &needed) == BOKDREZ_NO_ROOM, "a style with too little room");
  expect(needed == whole && line[whole - 1] == 0xee, "nothing is written past too little room");
  expect(bokdrez_style(&page, 3, line, (size_t)whole, &needed) == BOKDREZ_DONE, "a style with just the room");
  expect(needed == whole && line[whole] == 0xee && memcmp(line, "3 p{color: #ff0000}\n", (size_t)whole) == 0, "a style");
  size_t length = strlen(due);
  uint8_t *text = (uint8_t *)block_of(length + 1);
  memset(text, 0xee, length + 1);
  expect(bokdrez_text(&page, NULL, 0, &needed) == BOKDREZ_NO_ROOM && needed == length, "the text without room");
  expect(bokdrez_text(&page, text, length - 1, &needed) == BOKDREZ_NO_ROOM && needed == length, "with too little room");
  expect(text[length - 1] == 0xee, "nothing is written past too little room for the text");
  expect(bokdrez_text(&page, text, length, &needed) == BOKDREZ_DONE && needed == length, "with just the room");
  expect(memcmp(text, due, length) == 0 && text[length] == 0xee, "the text");
  free(text);
  memset(numbers, 0xee, sizeof numbers);
  expect(bokdrez_changed(&page, NULL, 0, &needed) == BOKDREZ_NO_ROOM && needed == 4, "what changed without room");
  expect(bokdrez_changed(&page, numbers, 3, &needed) == BOKDREZ_NO_ROOM && needed == 4, "with too little room");
  expect(numbers[3] == 0xeeeeeeeeu, "nothing is written past too little room for numbers");
  expect(bokdrez_changed(&page, numbers, 4, &needed) == BOKDREZ_DONE && needed == 4, "with just the room");
  expect(numbers[0] + numbers[1] + numbers[2] + numbers[3] == 10 && numbers[4] == 0xeeeeeeeeu, "what changed");
}

/* The status and the room of a style before the first restyle, and after edits. */
static uint32_t style_status(bokdrez_session *session, uint64_t node) {
  uint8_t line[128];
  needed = HUGE_NODE;
  uint32_t status = bokdrez_style(session, node, line, sizeof line, &needed);
  expect(status == BOKDREZ_DONE || needed == 0, "nothing is needed where there is no line");
  return status;
}

static uint32_t text_status(bokdrez_session *session) {
  uint8_t text[512];
  needed = HUGE_NODE;
  uint32_t status = bokdrez_text(session, text, sizeof text, &needed);
  expect(status == BOKDREZ_DONE || needed == 0, "nothing is needed where there is no text");
  return status;
}

static void stale_styles(void) {
  uint32_t numbers[8];
  bokdrez_session other = BOKDREZ_NONE;
  open_right(PAGE, strlen(PAGE), &other);
  expect(style_status(&other, 1) == BOKDREZ_STALE && text_status(&other) == BOKDREZ_STALE, "all is stale at first");
  expect(style_status(&other, 5) == BOKDREZ_NO_NODE, "no element, before the first restyle");
  expect(bokdrez_changed(&other, numbers, 8, &needed) == BOKDREZ_DONE && needed == 0, "nothing changed at first");
  restyle_right(&other);
  expect(set(&other, 3, "class", 5, "b", 1) == BOKDREZ_DONE, "a class that the sheet names");
  expect(style_status(&other, 3) == BOKDREZ_STALE && style_status(&other, 4) == BOKDREZ_STALE, "it is stale, and what is below");
  expect(text_status(&other) == BOKDREZ_STALE, "a text with a stale line");
  expect(bokdrez_changed(&other, numbers, 8, &needed) == BOKDREZ_DONE && needed == 4, "what changed is of the last restyle");
  expect(bokdrez_restyle(&other, &counts) == BOKDREZ_DONE && counts.matched == 1 && counts.cascaded == 2, "a restyle of two");
  expect(style_status(&other, 3) == BOKDREZ_DONE && text_status(&other) == BOKDREZ_DONE, "after a restyle nothing is stale");
  edit_right(&other, "{\"op\":\"remove\",\"node\":4}");
  expect(style_status(&other, 4) == BOKDREZ_NO_NODE, "no element has the number of one that is gone");
  edit_right(&other, "{\"op\":\"insert\",\"parent\":2,\"index\":0,\"nodes\":[{\"tag\":\"q\"}]}");
  expect(style_status(&other, 5) == BOKDREZ_STALE, "what was put in is stale");
  restyle_right(&other);
  expect(bokdrez_restyle(&other, &counts) == BOKDREZ_DONE && counts.matched + counts.cascaded == 0, "a restyle of nothing");
  expect(bokdrez_changed(&other, NULL, 0, &needed) == BOKDREZ_DONE && needed == 0, "which changes nothing, and takes no room");
  bokdrez_close(&other);
}

int main(void) {
  page.held = NULL;
  expect(bokdrez_version() == BOKDREZ_VERSION, "the library is of the header's version");
  handles_of_none();
  open_right(PAGE, strlen(PAGE), &page);
  restyle_right(&page);
  due = text_of(&page);
  wrong_shapes();
  pointers_in_a_room();
  no_json();
  just_an_input();
  jobs_past_limits();
  edits_past_limits();
  refused_edits();
  unknown_elements();
  bad_names();
  bad_states();
  attributes_past_limit();
  rooms();
  stale_styles();
  open_right(PAGE, strlen(PAGE), &page);
  expect(text_status(&page) == BOKDREZ_STALE, "a session that is opened in the place of another one is not styled");
  bokdrez_close(&page);
  free(due);
  return ended();
}
