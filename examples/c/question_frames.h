/* Questions of rows, values and steps. */
#ifndef QUESTION_FRAMES_H
#define QUESTION_FRAMES_H

#include "question_state.h"
#include <inttypes.h>

static frames_row_table table_of(known_section *known) {
  frames_row_table table = {0};
  if (frames_c_row_table(known->section, &table, &known->section) != FRAMES_ROW_TABLE_MADE)
    refuse("no row table", known->name);
  return table;
}

static frames_frame frame_at(uint64_t pc) {
  frames_frame frame = {.at_instruction = 1};
  memcpy(frame.columns, columns, sizeof columns);
  frame.columns[16] = pc;
  return frame;
}

static void tell_row(answer *out, const frames_row *row) {
  if (row->cfa == FRAMES_CFA_MISSING) tell(out, "cfa missing");
  if (row->cfa == FRAMES_CFA_OFFSET)
    tell(out, "cfa %" PRIu64 "%+" PRId64, row->cfa_column, (int64_t)row->cfa_offset);
  if (row->cfa == FRAMES_CFA_EXPRESSION) tell(out, "cfa expression");
  for (int column = 0; column < 17; column++) {
    int64_t number = (int64_t)row->numbers[column];
    if (row->rules[column] == FRAMES_UNSET) continue;
    tell(out, ", %d ", column);
    switch (row->rules[column]) {
      case FRAMES_UNDEFINED: tell(out, "undefined"); break;
      case FRAMES_SAME: tell(out, "same"); break;
      case FRAMES_OFFSET: tell(out, "at cfa%+" PRId64, number); break;
      case FRAMES_VAL_OFFSET: tell(out, "is cfa%+" PRId64, number); break;
      case FRAMES_REGISTER: tell(out, "in %" PRId64, number); break;
      case FRAMES_EXPRESSION: tell(out, "at expression"); break;
      case FRAMES_VAL_EXPRESSION: tell(out, "is expression"); break;
      default: tell(out, "no rule");
    }
  }
}

/* row NAME PC */
static void ask_row(const question *asked, answer *out) {
  known_section *known = section_of(asked, 1);
  frames_row row;
  if (frames_c_row(known->section, hexadecimal(asked, 2), &row, &known->section))
    tell_row(out, &row);
  else
    tell(out, "none");
}

/* Whether the table makes of a frame what its section makes of it. */
static bool steps_alike(known_section *known, frames_row_table *table, uint64_t pc) {
  frames_frame one = frame_at(pc), other = frame_at(pc);
  uint64_t by_section = frames_c_step(known->section, memory, &one, &known->section, &memory);
  uint64_t by_table = frames_c_row_table_step(*table, memory, &other, table, &memory);
  return by_section == by_table && memcmp(&one, &other, sizeof one) == 0;
}

/* row-by-number NAME PC, by the rows that a row table has; row-by-table besides asks for a step by
 * the table, and by the section. */
static void ask_row_by_table(const question *asked, bool steps, answer *out) {
  known_section *known = section_of(asked, 1);
  frames_row_table table = table_of(known);
  frames_row row;
  uint64_t pc = hexadecimal(asked, 2);
  if (steps && !steps_alike(known, &table, pc)) tell(out, "another step, ");
  if (frames_c_row_table_row(table, pc, &row, &table))
    tell_row(out, &row);
  else
    tell(out, "none");
  frames_c_row_table_free(table);
}

static bool rows_alike(known_section *known, frames_row_table *table, uint64_t pc) {
  frames_row one, other;
  memset(&one, 0, sizeof one);
  memset(&other, 0, sizeof other);
  bool by_section = frames_c_row(known->section, pc, &one, &known->section);
  bool by_table = frames_c_row_table_row(*table, pc, &other, table);
  return by_section == by_table && memcmp(&one, &other, sizeof one) == 0;
}

/* alike NAME FIRST COUNT: whether the table answers as its section at each address. */
static void ask_alike(const question *asked, answer *out) {
  known_section *known = section_of(asked, 1);
  frames_row_table table = table_of(known);
  uint64_t first = hexadecimal(asked, 2), count = hexadecimal(asked, 3), i = 0;
  while (i < count && rows_alike(known, &table, first + i) && steps_alike(known, &table, first + i))
    i++;
  if (i == count)
    tell(out, "alike");
  else
    tell(out, "not at %" PRIx64, first + i);
  frames_c_row_table_free(table);
}

/* Steps by the words that are told when they are asked for. */
static uint64_t step_asking(known_section *known, frames_frame *frame) {
  frames_word words[32];
  uint8_t nothing[1] = {0};
  for (size_t count = 0; count < 32; count++) {
    uint64_t outcome = frames_c_step_asking(known->section, 0, nothing, 0, words, count, frame,
                                            &known->section);
    words[count].address = frame->missing;
    if (outcome != FRAMES_NO_BYTES || !recorded_word(frame->missing, &words[count].word))
      return outcome;
  }
  refuse("too many words are asked for", known->name);
  return 0;
}

static uint64_t step_by_table(known_section *known, frames_frame *frame) {
  frames_row_table table = table_of(known);
  uint64_t outcome = frames_c_row_table_step(table, memory, frame, &table, &memory);
  frames_c_row_table_free(table);
  return outcome;
}

/* What came of a frame whose FDE is one of a signal or isn't. */
static void tell_step(answer *out, uint64_t outcome, const frames_frame *frame, uint8_t signal) {
  tell(out, signal == 1 ? "signal, " : "call, ");
  switch (outcome) {
    case FRAMES_FRAME:
      tell(out, frame->at_instruction == signal ? "frame" : "another frame");
      for (int i = 0; i < 17; i++)
        if (frame->columns[i] != columns[i]) tell(out, " %d=%" PRIx64, i, frame->columns[i]);
      break;
    case FRAMES_NO_ROW: tell(out, "no row"); break;
    case FRAMES_OUTERMOST: tell(out, "undefined"); break;
    case FRAMES_NO_BYTES: tell(out, "no bytes at %" PRIx64, frame->missing); break;
    default: tell(out, "outcome %" PRIu64, outcome);
  }
}

/* step NAME PC, step-asking, step-by-table */
static void ask_step(const question *asked, answer *out) {
  known_section *known = section_of(asked, 1);
  uint64_t pc = hexadecimal(asked, 2), outcome;
  frames_frame frame = frame_at(pc);
  frames_fde fde;
  if (strcmp(asked->words[0], "step-asking") == 0)
    outcome = step_asking(known, &frame);
  else if (strcmp(asked->words[0], "step-by-table") == 0)
    outcome = step_by_table(known, &frame);
  else
    outcome = frames_c_step(known->section, memory, &frame, &known->section, &memory);
  if (frames_c_find(known->section, pc, &fde, &known->section))
    tell_step(out, outcome, &frame, fde.signal);
  else
    tell(out, outcome == FRAMES_NO_FDE ? "none" : "a step of no FDE");
}

/* A section at 0 with one FDE, of the address in column 16, whose one row has an expression: of the
 * CFA, or of column 3 where the CFA, on which it starts, is a number. Column 16 is the same. Gives
 * the place of the expression's bytes. */
static size_t expression_section(byte_row *out, const byte_row *expression, const uint64_t *start) {
  byte_row program = {.length = 0};
  push_byte(&program, start == NULL ? 0x0f : 0x0c);
  if (start != NULL) {
    push_byte(&program, 7);
    push_uleb(&program, *start - columns[7]);
    push_byte(&program, 0x16);
    push_byte(&program, 3);
  }
  push_uleb(&program, expression->length);
  size_t before = program.length;
  push_all(&program, expression);
  push_byte(&program, 0x08);
  push_byte(&program, 16);
  out->length = 0;
  push_number(out, 9, 4);
  push_number(out, 0, 4);
  push_number(out, 0x1078010001, 5);
  push_number(out, 4 + 8 + 8 + program.length, 4);
  push_number(out, 17, 4);
  push_number(out, columns[16], 8);
  push_number(out, 1, 8);
  size_t place = out->length + before;
  push_all(out, &program);
  return place;
}

static void tell_expression_refusal(answer *out, const frames_refusal *why, size_t place) {
  const char *name = why->kind == FRAMES_SHORT       ? "Short"
                     : why->kind == FRAMES_TOO_WIDE  ? "TooWide"
                     : why->kind == FRAMES_DEPTH     ? "Depth"
                     : why->kind == FRAMES_OPERATION ? "Operation"
                                                     : "otherwise";
  tell(out, "refused %s { at: %" PRId64, name, (int64_t)(why->at - place));
  if (why->kind == FRAMES_OPERATION) tell(out, ", byte: %" PRIu64, why->detail);
  tell(out, " }");
}

/* Tells the value of an expression, which starts on a number or on none. */
static void tell_value(answer *out, const byte_row *expression, const uint64_t *start) {
  byte_row bytes;
  size_t place = expression_section(&bytes, expression, start);
  frames_frame frame = frame_at(columns[16]);
  frames_refusal why;
  frames_section section = {0};
  if (!frames_c_read(0, bytes.at, bytes.length, &why, &section)) {
    tell_expression_refusal(out, &why, place);
    return;
  }
  uint64_t outcome = frames_c_step(section, memory, &frame, &section, &memory);
  if (outcome == FRAMES_FRAME)
    tell(out, "%" PRIx64, frame.columns[start == NULL ? 7 : 3]);
  else if (outcome == FRAMES_NO_BYTES)
    tell(out, "no bytes at %" PRIx64, frame.missing);
  else
    tell(out, "outcome %" PRIu64, outcome);
  frames_c_free(section);
}

/* value START BYTES */
static void ask_value(const question *asked, answer *out) {
  byte_row expression;
  bytes_of(&expression, asked, 2);
  if (strcmp(word_of(asked, 1), "-") == 0) {
    tell_value(out, &expression, NULL);
  } else {
    uint64_t start = hexadecimal(asked, 1);
    tell_value(out, &expression, &start);
  }
}

/* word ADDRESS: the value of DW_OP_const8u ADDRESS, DW_OP_deref. */
static void ask_word(const question *asked, answer *out) {
  byte_row expression = {.length = 0};
  answer told = {.length = 0};
  char missing[64];
  snprintf(missing, sizeof missing, "no bytes at %" PRIx64, hexadecimal(asked, 1));
  push_byte(&expression, 0x0e);
  push_number(&expression, hexadecimal(asked, 1), 8);
  push_byte(&expression, 0x06);
  tell_value(&told, &expression, NULL);
  tell(out, "%s", strcmp(told.letters, missing) == 0 ? "none" : told.letters);
}

#endif
