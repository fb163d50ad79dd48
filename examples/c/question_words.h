/* A question's words, and the text of an answer. */
#ifndef QUESTION_WORDS_H
#define QUESTION_WORDS_H

#include <stdarg.h>
#include <stdbool.h>
#include <stdint.h>
#include <stdio.h>
#include <stdlib.h>
#include <string.h>

enum { MOST_WORDS = 24, MOST_BYTES = 4096, MOST_LETTERS = 3 * MOST_BYTES };

/* The words of a line, and what is wanted behind ` = `. */
typedef struct {
  char letters[MOST_LETTERS];
  const char *words[MOST_WORDS];
  int count;
  char wanted[MOST_LETTERS];
} question;

typedef struct {
  char letters[MOST_LETTERS];
  size_t length;
} answer;

typedef struct {
  uint8_t at[MOST_BYTES];
  size_t length;
} byte_row;

/* Ends the program: the table isn't one. */
static void refuse(const char *what, const char *word) {
  printf("questions: %s: '%s'\n", what, word);
  exit(2);
}

__attribute__((format(printf, 2, 3))) static void tell(answer *out, const char *format, ...) {
  va_list list;
  va_start(list, format);
  int more = vsnprintf(out->letters + out->length, MOST_LETTERS - out->length, format, list);
  va_end(list);
  if (more < 0 || out->length + (size_t)more >= MOST_LETTERS) refuse("too long an answer", format);
  out->length += (size_t)more;
}

/* Takes a line apart. */
static void read_question(question *out, const char *line) {
  const char *equals = strstr(line, " = ");
  size_t length = equals == NULL ? 0 : (size_t)(equals - line);
  if (equals == NULL || strlen(line) >= MOST_LETTERS) refuse("no question with its answer", line);
  memcpy(out->letters, line, length);
  out->letters[length] = '\0';
  strcpy(out->wanted, equals + 3);
  out->wanted[strcspn(out->wanted, "\n")] = '\0';
  out->count = 0;
  for (char *word = strtok(out->letters, " "); word != NULL; word = strtok(NULL, " ")) {
    if (out->count == MOST_WORDS) refuse("too many words", line);
    out->words[out->count++] = word;
  }
}

static const char *word_of(const question *asked, int index) {
  if (index >= asked->count) refuse("too few words", asked->words[0]);
  return asked->words[index];
}

static uint64_t number_in(const char *word, int base) {
  char *end;
  uint64_t number = strtoull(word, &end, base);
  if (end == word || *end != '\0') refuse("no number", word);
  return number;
}

static uint64_t hexadecimal(const question *asked, int index) {
  return number_in(word_of(asked, index), 16);
}

/* Pairs of digits, or a dash for none. */
static void bytes_of(byte_row *out, const question *asked, int index) {
  const char *word = word_of(asked, index);
  out->length = 0;
  if (strcmp(word, "-") == 0) return;
  for (; word[0] != '\0' && word[1] != '\0'; word += 2) {
    char pair[3] = {word[0], word[1], '\0'};
    if (out->length == MOST_BYTES) refuse("too many bytes", word);
    out->at[out->length++] = (uint8_t)number_in(pair, 16);
  }
  if (word[0] != '\0') refuse("half a byte", word);
}

static void push_byte(byte_row *out, uint64_t byte) {
  if (out->length == MOST_BYTES) refuse("too many bytes", "made");
  out->at[out->length++] = (uint8_t)byte;
}

/* A number of so many bytes, lowest first. */
static void push_number(byte_row *out, uint64_t number, int bytes) {
  for (int i = 0; i < bytes; i++) push_byte(out, number >> (8 * i));
}

static void push_uleb(byte_row *out, uint64_t number) {
  for (; number >= 0x80; number >>= 7) push_byte(out, number | 0x80);
  push_byte(out, number);
}

static void push_all(byte_row *out, const byte_row *more) {
  for (size_t i = 0; i < more->length; i++) push_byte(out, more->at[i]);
}

#endif
