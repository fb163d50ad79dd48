// over: frames_c
// The library for C as a peer of the harness's benches parse, rows and trace. A backtrace asks which
// image has an address by one range alone, as the harness's other unwinders do. Where FRAMES_ROWS is
// 'table', each section that is read has its row table made too, which then tells rows and steps.
// Where FRAMES_TRACE is 'walk', a backtrace is one walk over the memory's bytes, which are lent.
#include "frames_c.h"
#include "product.h"
#include <cstdlib>
#include <cstring>
#include <new>
static_assert(sizeof(frames_row) == 37 * 8, "a row is out[37] of product_row");

struct product_section {
  frames_section held;
  frames_row_table rows;
};
struct product_memory {
  frames_memory held;
  uint64_t address;
  const uint8_t *bytes;
  size_t length;
};
struct product_registry {
  uint64_t base, size;
  frames_modules modules;
};
struct product_caller { uint32_t left; };

// a call takes a handle and gives it back
static product_section *own(const product_section *s) { return const_cast<product_section *>(s); }
static product_memory *own(const product_memory *m) { return const_cast<product_memory *>(m); }

product_section *product_section_read(uint64_t address, const uint8_t *bytes, size_t length,
                                      uint64_t fault[3]) {
  frames_refusal refusal;
  frames_section section = {nullptr};
  if (frames_c_read(address, bytes, length, &refusal, &section)) {
    static const char *kind = getenv("FRAMES_ROWS");
    auto *made = new product_section{section, {nullptr}};
    if (kind && !strcmp(kind, "table"))
      if (frames_c_row_table(made->held, &made->rows, &made->held)) abort();
    return made;
  }
  fault[0] = refusal.kind;
  fault[1] = refusal.start;
  fault[2] = refusal.at;
  return nullptr;
}
void product_section_free(product_section *s) {
  if (s->rows.at) frames_c_row_table_free(s->rows);
  frames_c_free(s->held);
  delete s;
}
uint64_t product_section_count(const product_section *s) {
  return frames_c_count(s->held, &own(s)->held);
}
int product_row(const product_section *s, uint64_t pc, uint64_t out[37]) {
  if (s->rows.at)
    return frames_c_row_table_row(s->rows, pc, reinterpret_cast<frames_row *>(out), &own(s)->rows);
  return frames_c_row(s->held, pc, reinterpret_cast<frames_row *>(out), &own(s)->held);
}
int product_fde(const product_section *s, uint64_t pc, uint64_t out[2]) {
  frames_fde fde;
  if (!frames_c_find(s->held, pc, &fde, &own(s)->held)) return 0;
  out[0] = fde.first;
  out[1] = fde.range;
  return 1;
}

product_memory *product_memory_new(void) {
  frames_memory memory = {nullptr};
  return frames_c_memory(&memory) ? new product_memory{memory, 0, nullptr, 0} : nullptr;
}
int product_memory_push(product_memory *m, uint64_t address, const uint8_t *bytes, size_t length) {
  m->address = address;
  m->bytes = bytes;
  m->length = length;
  return (int)frames_c_memory_push(m->held, address, bytes, length, &m->held);
}
void product_memory_free(product_memory *m) {
  frames_c_memory_free(m->held);
  delete m;
}
product_registry *product_registry_new(uint32_t, uint32_t, uint32_t, product_caller **first) {
  *first = new product_caller{1};
  return new product_registry{0, 0, {nullptr}};
}
uint32_t product_registry_close(product_registry *r, product_caller *first) {
  if (r->modules.at) frames_c_modules_free(r->modules);
  delete r;
  delete first;
  return 1;
}
product_caller *product_caller_split(product_registry *, product_caller *, uint32_t give) {
  return new product_caller{give};
}
void product_caller_join(product_registry *, product_caller *, product_caller *other) {
  delete other;
}
uint32_t product_caller_left(product_caller *me) { return me->left; }
int product_register(product_registry *r, product_caller *, uint64_t base, uint64_t size,
                     uint32_t) {
  r->base = base;
  r->size = size;
  return 0;
}
int product_deregister(product_registry *r, product_caller *, uint64_t) {
  r->base = r->size = 0;
  return 0;
}
int product_try_registered(product_registry *r, product_caller *, uint64_t pc,
                           uint32_t *payload) {
  *payload = 0;
  return pc - r->base < r->size;
}
// The one range as a list of modules, made at the first walk.
static frames_modules *modules_of(product_registry *r, product_section *section) {
  if (r->modules.at) return &r->modules;
  bool made = frames_c_modules(&r->modules);
  uint64_t added = 1;
  if (section->rows.at) {
    frames_row_table rows = {nullptr};
    if (made && frames_c_row_table_share(section->rows, &rows, &section->rows))
      added = frames_c_modules_add_rows(r->modules, r->base, r->size, rows, &r->modules);
  } else {
    frames_section share = {nullptr};
    if (made && frames_c_share(section->held, &share, &section->held))
      added = frames_c_modules_add(r->modules, r->base, r->size, share, &r->modules);
  }
  if (added) abort();
  return &r->modules;
}
static uint32_t walk(frames_modules *modules, const product_memory *memory, frames_frame *frame,
                     uint64_t *pcs, uint64_t *sps, uint32_t *end) {
  frames_line lines[256];
  size_t count = 0;
  *end = (uint32_t)frames_c_walk(*modules, memory->address, memory->bytes, memory->length, frame,
                                 lines, 256, &count, modules);
  for (size_t i = 0; i < count; i++) {
    pcs[i] = lines[i].pc;
    sps[i] = lines[i].sp;
  }
  return (uint32_t)count;
}

uint32_t product_trace(product_registry *r, product_caller *me, product_section *const *sections,
                       size_t, const uint64_t columns[17], const product_memory *memory,
                       uint64_t *pcs, uint64_t *sps, uint32_t *end) {
  frames_frame frame = {};
  for (int column = 0; column < 17; column++) frame.columns[column] = columns[column];
  frame.at_instruction = 1;
  product_section *section = sections[0];
  static const char *kind = getenv("FRAMES_TRACE");
  if (kind && !strcmp(kind, "walk"))
    return walk(modules_of(r, section), memory, &frame, pcs, sps, end);
  *end = 5;
  for (uint32_t count = 0; count < 256; count++) {
    pcs[count] = frame.columns[16];
    sps[count] = frame.columns[7];
    uint32_t payload;
    uint64_t look = frame.columns[16] - !frame.at_instruction;
    *end = 0;
    if (!product_try_registered(r, me, look, &payload)) return count + 1;
    uint64_t outcome = section->rows.at
        ? frames_c_row_table_step(section->rows, memory->held, &frame, &section->rows,
                                  &own(memory)->held)
        : frames_c_step(section->held, memory->held, &frame, &section->held, &own(memory)->held);
    *end = (uint32_t)outcome;
    if (outcome != FRAMES_FRAME) return count + 1;
  }
  return 256;
}
