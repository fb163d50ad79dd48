/* What the examples that walk stacks share: the objects that are loaded in this program, each with
 * its section, and the registers of a saved context. Include it after _GNU_SOURCE is defined. */
#ifndef LOADED_OBJECTS_H
#define LOADED_OBJECTS_H

#include "frames_c.h"
#include <link.h>
#include <stdio.h>
#include <stdlib.h>
#include <string.h>
#include <ucontext.h>

enum { OBJECTS = 256 };
/* The addresses from `first` up to `last`, without that one, and the section of their code. */
struct object {
  uint64_t first, last;
  frames_section section;
};
static struct object objects[OBJECTS];
static int count_objects, dropped_objects;

/* The section to which a header leads. It ends at a length of 0; `end` is its segment's end. */
static bool read_section(const uint8_t *header, size_t length, const uint8_t *end,
                         frames_section *section) {
  int32_t distance;
  memcpy(&distance, header + 4, 4);
  const uint8_t *bytes = header + 4 + distance;
  frames_refusal refusal;
  frames_header told;
  return frames_c_read_with_header((uintptr_t)bytes, bytes, (size_t)(end - bytes),
                                   (uintptr_t)header, header, length, &refusal, &told, section);
}

static int read_object(struct dl_phdr_info *info, size_t size, void *unused) {
  (void)size, (void)unused;
  struct object object = {.first = UINT64_MAX};
  const ElfW(Phdr) *header = NULL;
  for (int i = 0; i < info->dlpi_phnum; i++) {
    const ElfW(Phdr) *part = &info->dlpi_phdr[i];
    uint64_t first = info->dlpi_addr + part->p_vaddr;
    if (part->p_type == PT_GNU_EH_FRAME) header = part;
    if (part->p_type != PT_LOAD) continue;
    if (first < object.first) object.first = first;
    if (first + part->p_memsz > object.last) object.last = first + part->p_memsz;
  }
  if (header == NULL) return 0;
  const int kept = count_objects;
  for (int i = 0; i < info->dlpi_phnum && kept < OBJECTS; i++) {
    const ElfW(Phdr) *load = &info->dlpi_phdr[i];
    if (load->p_type != PT_LOAD || header->p_vaddr - load->p_vaddr >= load->p_filesz) continue;
    const uint8_t *begin = (const uint8_t *)(info->dlpi_addr + load->p_vaddr);
    if (read_section((const uint8_t *)(info->dlpi_addr + header->p_vaddr), header->p_memsz,
                     begin + load->p_filesz, &object.section))
      objects[count_objects++] = object;
  }
  dropped_objects += count_objects == kept;
  return 0;
}

static int by_first(const void *one, const void *other) {
  uint64_t a = ((const struct object *)one)->first, b = ((const struct object *)other)->first;
  return a < b ? -1 : a > b;
}

/* Reads the sections of all objects, in ascending order of their addresses. It says how many were
 * left out: those whose section is refused, and those beyond OBJECTS. */
static void read_objects(void) {
  dl_iterate_phdr(read_object, NULL);
  if (dropped_objects > 0) fprintf(stderr, "%d objects are left out\n", dropped_objects);
  qsort(objects, (size_t)count_objects, sizeof *objects, by_first);
}

/* The registers of a context, in the columns of x86-64. */
static const int saved_columns[17] = {REG_RAX, REG_RDX, REG_RCX, REG_RBX, REG_RSI, REG_RDI,
                                      REG_RBP, REG_RSP, REG_R8,  REG_R9,  REG_R10, REG_R11,
                                      REG_R12, REG_R13, REG_R14, REG_R15, REG_RIP};

static void take_registers(const ucontext_t *context, frames_frame *frame) {
  frame->at_instruction = 1;
  for (int i = 0; i < 17; i++)
    frame->columns[i] = (uint64_t)context->uc_mcontext.gregs[saved_columns[i]];
}

#endif
