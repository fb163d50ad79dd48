/* questions TABLE: asks the library the questions of a table (cases/tables/frames.txt says what
 * each is), and compares what it answers with what stands there. Status 0: all is so; 1: an answer
 * differs; 2: the table isn't one. */
#include "question_frames.h"
#include "question_sections.h"

/* Answers a question that changes nothing. */
static void look(const question *asked, answer *out) {
  static const struct {
    const char *name;
    void (*ask)(const question *, answer *);
  } known[] = {{"value", ask_value}, {"word", ask_word},        {"fde", ask_fde},
               {"find", ask_find},   {"verdict", ask_verdict},  {"row", ask_row},
               {"alike", ask_alike}, {"step", ask_step},        {"step-asking", ask_step},
               {"region", ask_region}, {"step-by-table", ask_step}, {"columns", ask_columns},
               {"section", ask_section}, {"header", ask_header}};
  for (size_t i = 0; i < sizeof known / sizeof *known; i++)
    if (strcmp(known[i].name, asked->words[0]) == 0) {
      known[i].ask(asked, out);
      return;
    }
  refuse("no question", asked->words[0]);
}

static void ask(const question *asked, answer *out) {
  if (strcmp(asked->words[0], "forget") == 0)
    ask_forget(out);
  else if (strcmp(asked->words[0], "row-by-table") == 0)
    ask_row_by_table(asked, true, out);
  else if (strcmp(asked->words[0], "row-by-number") == 0)
    ask_row_by_table(asked, false, out);
  else
    look(asked, out);
}

int main(int count, char **words) {
  static char line[MOST_LETTERS];
  static question asked;
  static answer told;
  FILE *table = count == 2 ? fopen(words[1], "r") : NULL;
  if (table == NULL) refuse("a table is wanted", words[0]);
  if (!frames_c_memory(&memory)) refuse("no memory", words[0]);
  int answers = 0, differ = 0;
  for (int number = 1; fgets(line, sizeof line, table) != NULL; number++) {
    if (line[0] == '#' || line[0] == '\n') continue;
    read_question(&asked, line);
    told.length = 0;
    told.letters[0] = '\0';
    ask(&asked, &told);
    answers++;
    if (strcmp(told.letters, asked.wanted) != 0) {
      differ++;
      printf("line %d, %s: %s, and not %s\n", number, asked.words[0], told.letters, asked.wanted);
    }
  }
  fclose(table);
  free_all();
  printf("%d answers, %d differ\n", answers, differ);
  return answers == 0 || differ > 0;
}
