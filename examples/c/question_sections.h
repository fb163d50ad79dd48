/* Questions to sections and headers. */
#ifndef QUESTION_SECTIONS_H
#define QUESTION_SECTIONS_H

#include "question_state.h"
#include <inttypes.h>

/* A refusal as it is named. */
static void tell_refusal(answer *out, const frames_refusal *why) {
  static const char *const names[] = {"NoMemory",     "Short",   "TooWide", "Encoding",
                                      "NoCie",        "Version", "Augmentation", "Column",
                                      "Range",        "Opcode",  "Location", "Remember",
                                      "Operation",    "Depth",   "CfaRule", "TooLong"};
  if (why->kind > FRAMES_TOO_LONG) refuse("no kind of refusal", names[0]);
  tell(out, "refused %s { start: %" PRIu64 ", at: %" PRIu64, names[why->kind], why->start, why->at);
  switch (why->kind) {
    case FRAMES_ENCODING:
    case FRAMES_VERSION:
    case FRAMES_OPCODE:
    case FRAMES_OPERATION:
      tell(out, ", byte: %" PRIu64, why->detail);
      break;
    case FRAMES_COLUMN:
      tell(out, ", column: %" PRIu64, why->detail);
      break;
    default:
      if (why->detail != 0) tell(out, ", detail: %" PRIu64, why->detail);
  }
  tell(out, " }");
}

/* section NAME ADDRESS BYTES */
static void ask_section(const question *asked, answer *out) {
  uint64_t address = hexadecimal(asked, 2);
  byte_row bytes;
  frames_refusal why;
  frames_section section = {0};
  bytes_of(&bytes, asked, 3);
  if (!frames_c_read(address, bytes.at, bytes.length, &why, &section)) {
    tell_refusal(out, &why);
    return;
  }
  tell(out, "accepted, %zu FDEs", frames_c_count(section, &section));
  keep_section(word_of(asked, 1), address, &bytes, section);
}

/* header NAME SECTION ADDRESS BYTES: the section is read again, with the header. */
static void ask_header(const question *asked, answer *out) {
  static const char *const names[] = {"NoMemory", "Short", "Version", "Encoding", "Section",
                                      "Count",    "Fde",   "Order",   "Overlap"};
  const known_section *known = section_of(asked, 2);
  byte_row bytes;
  frames_refusal why;
  frames_header told;
  frames_section section = {0};
  bytes_of(&bytes, asked, 4);
  if (!frames_c_read_with_header(known->address, known->bytes.at, known->bytes.length,
                                 hexadecimal(asked, 3), bytes.at, bytes.length, &why, &told,
                                 &section))
    refuse("no section", known->name);
  if (told.accepted == 1 && told.kind == 0 && told.at == 0)
    tell(out, "accepted");
  else if (told.accepted == 0 && told.kind <= FRAMES_HEADER_OVERLAP)
    tell(out, "refused %s { at: %" PRIu64 " }", names[told.kind], told.at);
  keep_section(word_of(asked, 1), known->address, &known->bytes, section);
}

/* The number of the FDE that stands at a place, in order of bytes. */
static size_t number_at(known_section *known, uint64_t place) {
  frames_entry entries[64];
  size_t count, number = 0;
  if (frames_c_table(known->section, entries, 64, &count, &known->section) == FRAMES_TABLE_ROOM)
    refuse("too many FDEs", known->name);
  for (size_t i = 0; i < count; i++) number += entries[i].place < place;
  return number;
}

static void tell_address(answer *out, const char *name, uint8_t has, uint64_t address) {
  if (has == 1)
    tell(out, " %s %" PRIx64, name, address);
  else
    tell(out, " %s none", address == 0 ? name : "an address that isn't there");
}

/* fde NAME PC */
static void ask_fde(const question *asked, answer *out) {
  known_section *known = section_of(asked, 1);
  frames_fde fde;
  if (!frames_c_find(known->section, hexadecimal(asked, 2), &fde, &known->section)) {
    tell(out, "none");
    return;
  }
  tell(out, "number %zu place %" PRIu32, number_at(known, fde.place), fde.place);
  tell(out, " first %" PRIx64 " range %" PRIx64, fde.first, fde.range);
  tell(out, fde.signal == 1 ? " signal" : " call");
  tell_address(out, "lsda", fde.has_lsda, fde.lsda);
  tell_address(out, "personality", fde.has_personality, fde.personality);
}

/* find NAME PC: the first address of the FDE, by the header where one was accepted. */
static void ask_find(const question *asked, answer *out) {
  known_section *known = section_of(asked, 1);
  frames_fde fde;
  if (frames_c_find(known->section, hexadecimal(asked, 2), &fde, &known->section))
    tell(out, "fde %" PRIx64, fde.first);
  else
    tell(out, "fde none");
}

/* verdict FIRST ADDRESS BYTES LOOK KIND, of the table at an address */
static void ask_verdict(const question *asked, answer *out) {
  static const char *const names[] = {"Short",  "TooWide", "Encoding",
                                      "Filter", "Chain",   "TypeEntry"};
  frames_verdict told;
  byte_row bytes;
  bytes_of(&bytes, asked, 3);
  uint64_t outcome =
      frames_c_verdict(hexadecimal(asked, 1), hexadecimal(asked, 2), bytes.at, bytes.length,
                       hexadecimal(asked, 4), hexadecimal(asked, 5), &told);
  if (outcome != told.outcome || outcome > FRAMES_TABLE_TYPE) refuse("no outcome", asked->words[0]);
  if (outcome == FRAMES_CONTINUE)
    tell(out, "continue");
  else if (outcome == FRAMES_CLEANUP)
    tell(out, "cleanup %" PRIx64, told.pad);
  else if (outcome == FRAMES_HANDLER)
    tell(out, "handler %" PRIx64 " %" PRIu64, told.pad, told.filter);
  else if (outcome == FRAMES_TERMINATE)
    tell(out, "terminate");
  else if (outcome == FRAMES_TABLE_ENCODING)
    tell(out, "refused Encoding { at: %" PRIu64 ", byte: %" PRIu64 " }", told.at, told.byte);
  else
    tell(out, "refused %s { at: %" PRIu64 " }", names[outcome - FRAMES_TABLE_SHORT], told.at);
}

#endif
