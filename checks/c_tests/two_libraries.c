/* Two libraries of the kit in one process, and the same edits put through both in turn. The second is a copy of the first whose
 * calls begin with second_; checks/c_interface makes it. It links a third part with both: functions with the names of the
 * kit's memory calls, which end the process. So each library has to call what is within it. */
#include "trying.h"

#ifdef __cplusplus
extern "C" {
#endif
extern __typeof__(bokdrez_open) second_open;
extern __typeof__(bokdrez_edit) second_edit;
extern __typeof__(bokdrez_set) second_set;
extern __typeof__(bokdrez_restyle) second_restyle;
extern __typeof__(bokdrez_text) second_text;
extern __typeof__(bokdrez_close) second_close;
#ifdef __cplusplus
}
#endif

#define LIBRARIES 2
#define STEPS 60

struct library {
  __typeof__(bokdrez_open) *open;
  __typeof__(bokdrez_edit) *edit;
  __typeof__(bokdrez_set) *set;
  __typeof__(bokdrez_restyle) *restyle;
  __typeof__(bokdrez_text) *text;
  __typeof__(bokdrez_close) *close;
};
static const struct library libraries[LIBRARIES] = {
    {bokdrez_open, bokdrez_edit, bokdrez_set, bokdrez_restyle, bokdrez_text, bokdrez_close},
    {second_open, second_edit, second_set, second_restyle, second_text, second_close},
};

static bokdrez_session sessions[LIBRARIES] = {BOKDREZ_NONE, BOKDREZ_NONE};
static uint8_t texts[LIBRARIES][4096];
static uint64_t lengths[LIBRARIES];
static bokdrez_why why;
static uint64_t needed;

static int opens(int k) {
  const struct library *library = &libraries[k];
  return library->open(bytes_of(PAGE), strlen(PAGE), &sessions[k], &why, NULL, 0, &needed) == BOKDREZ_DONE;
}

static int sets(int k, const char *name, const char *value) {
  const struct library *library = &libraries[k];
  return library->set(&sessions[k], 3, bytes_of(name), strlen(name), bytes_of(value), strlen(value), &why) == BOKDREZ_DONE;
}

/* One of three edits: one more element, another class, another declaration in a `style` attribute. */
static int edits(int k, int step) {
  static const char INSERT[] = "{\"op\":\"insert\",\"parent\":2,\"index\":0,\"nodes\":[{\"tag\":\"p\"}]}";
  const struct library *library = &libraries[k];
  char value[64];
  if (step % 3 == 0) {
    return library->edit(&sessions[k], bytes_of(INSERT), strlen(INSERT), &why, NULL, 0, &needed) == BOKDREZ_DONE;
  }
  if (step % 3 == 1) {
    return sets(k, "class", step % 2 == 0 ? "a" : "b");
  }
  sprintf(value, "top:%dpx", step);
  return sets(k, "style", value);
}

/* Styles again, and reads the lines of all elements. */
static int restyles(int k) {
  const struct library *library = &libraries[k];
  bokdrez_counts counts;
  return library->restyle(&sessions[k], &counts) == BOKDREZ_DONE &&
         library->text(&sessions[k], texts[k], sizeof texts[k], &lengths[k]) == BOKDREZ_DONE;
}

static int are_same(void) {
  return lengths[0] > 0 && lengths[0] == lengths[1] && memcmp(texts[0], texts[1], (size_t)lengths[0]) == 0;
}

int main(void) {
  int step, k;
  for (k = 0; k < LIBRARIES; k++) {
    expect(opens(k) && restyles(k), "each opens a session");
  }
  expect(are_same(), "both tell the same of it");
  for (step = 0; step < STEPS; step++) {
    for (k = 0; k < LIBRARIES; k++) {
      expect(edits(k, step) && restyles(k), "an edit is made in turn with the other library's");
    }
    expect(are_same(), "both tell the same after it");
  }
  libraries[0].close(&sessions[0]);
  expect(edits(1, 1) && restyles(1), "one goes on where the other one is closed");
  libraries[1].close(&sessions[1]);
  expect(sessions[0].held == NULL && sessions[1].held == NULL, "both are closed");
  return ended();
}
