/* Sections read as libgcc reads them, without a proof: for those that the proved library refuses,
 * for the records that a loaded object's table leads to, and for the bounds of all that is
 * registered. So also CIEs before the first byte, as static programs have them, CIEs of version 4,
 * the augmentation letter B, and encodings relative to text and data. */
#include "dropin.h"
#include <string.h>

/* Pointer encodings after the LSB: a format, to what the number is relative, and indirect. */
enum {
  ABSPTR = 0x00, ULEB128 = 0x01, UDATA2 = 0x02, UDATA4 = 0x03, UDATA8 = 0x04, SIGNED = 0x08,
  PCREL = 0x10, TEXTREL = 0x20, DATAREL = 0x30, ALIGNED = 0x50, RELATIVE = 0x70, INDIRECT = 0x80,
  OMIT = 0xff
};

/* The byte after a number; NULL where its format isn't known. An aligned one stands at the next
 * multiple of its size. */
static const uint8_t *read_number(uint8_t encoding, const uint8_t *at, uint64_t *value) {
  static const uint8_t sizes[] = {[ABSPTR] = 8, [UDATA2] = 2, [UDATA4] = 4, [UDATA8] = 8};
  const unsigned format = encoding % SIGNED;
  unsigned bits = 0;
  *value = 0;
  if ((encoding & ~INDIRECT) == ALIGNED) at += -(uintptr_t)at % sizeof *value;
  if (format == ULEB128) {
    do {
      if (bits < 64) *value |= (uint64_t)(*at & 0x7f) << bits;
      bits += 7;
    } while (*at++ & 0x80);
  } else if (format < sizeof sizes) {
    memcpy(value, at, sizes[format]);
    at += sizes[format];
    bits = 8 * sizes[format];
  } else {
    return NULL;
  }
  if (encoding & SIGNED && bits < 64 && *value >> (bits - 1) != 0) *value |= UINT64_MAX << bits;
  return at;
}

/* The byte after a pointer. One that is 0 is relative to nothing. */
const uint8_t *read_pointer(uint8_t encoding, const uint8_t *at, const struct section *of,
                            uint64_t *value) {
  const uint8_t *end = read_number(encoding, at, value);
  if (end == NULL || *value == 0) return end;
  switch (encoding & RELATIVE) {
    case ABSPTR: case ALIGNED: break;
    case PCREL: *value += (uintptr_t)at; break;
    case TEXTREL: *value += (uintptr_t)of->text; break;
    case DATAREL: *value += (uintptr_t)of->data; break;
    default: return NULL;
  }
  if (encoding & INDIRECT) memcpy(value, (const void *)(uintptr_t)*value, sizeof *value);
  return end;
}

/* How a CIE's FDEs write their addresses. */
static uint8_t encoding_of(const uint8_t *cie) {
  const uint8_t *letter = cie + 9, *at = letter;
  uint64_t passed;
  while (*at++) continue;
  if (letter[-1] >= 4) { /* the version */
    if (at[0] != sizeof(void *) || at[1] != 0) return OMIT;
    at += 2;
  }
  if (*letter != 'z') return ABSPTR;
  /* both factors, the return address, which is 16, and the length of what the letters say */
#pragma GCC unroll 4
  for (unsigned numbers = 0; numbers < 4; numbers++)
    while (*at++ & 0x80) continue;
  for (;;) switch (*++letter) {
      case 'R': return *at;
      case 'L': at++; break;
      case 'B': case 'S': break;
      case 'P':
        at = read_number(*at, at + 1, &passed);
        if (at == NULL) return OMIT;
        break;
      default: return ABSPTR;
    }
}

/* Reads a record, and goes past it; false at the end. A CIE has no addresses, and neither has an
 * FDE that a linker threw away, whose first address is 0 as far as it was written. */
bool next_record(const struct record **at, const struct section *of, unwind_range *fde) {
  const struct record *record = *at;
  if (record->length == 0) return false;
  *at = after(record);
  *fde = (unwind_range){.at = (uintptr_t)record};
  if (record->back == 0) return true;
  const uint8_t *first = (const uint8_t *)&record->first;
  const uint8_t encoding = encoding_of((const uint8_t *)&record->back - record->back);
  if (encoding == (PCREL | SIGNED | UDATA4) && record->first != 0) {
    fde->first = (uintptr_t)first + (uint64_t)record->first;
    fde->size = record->size;
    return true;
  }
  const uint8_t *size = read_pointer(encoding, first, of, &fde->first);
  const bool is_read = size != NULL && read_number(encoding, size, &fde->size) != NULL;
  if (!is_read || fde->first == 0 || (size == first + 4 && (uint32_t)fde->first == 0))
    fde->size = 0;
  return true;
}

/* How many FDEs with addresses a section has. As many as there is room for are written. */
size_t read_fdes(const struct section *section, unwind_range *into, size_t room) {
  const void *const one[] = {section->begin, NULL};
  const void *const *list = section->is_array ? section->begin : one;
  size_t count = 0;
  for (; *list != NULL; list++) {
    const struct record *at = *list;
    for (unwind_range fde; next_record(&at, section, &fde);) {
      if (fde.size == 0) continue;
      if (count < room) into[count] = fde;
      count++;
    }
  }
  return count;
}
