/* shared FILE: four threads search the section of an ELF file at once, each by a share of its own,
 * and all by one table that is plain memory. Both must find the same. Status 0: they do. */
#include "frames_c.h"
#include <elf.h>
#include <pthread.h>
#include <stdio.h>
#include <stdlib.h>
#include <string.h>

enum { THREADS = 4, LAPS = 20000 };

struct worker {
  pthread_t thread;
  frames_section share;
  const frames_entry *table;
  size_t count;
  unsigned wrong;
};

/* Each entry's first address, its last one, and the one after it. */
static void probe(struct worker *me, uint64_t pc) {
  frames_fde fde;
  frames_entry entry;
  bool found = frames_c_find(me->share, pc, &fde, &me->share);
  bool listed = frames_c_search(me->table, me->count, pc, &entry);
  if (found != listed) me->wrong++;
  if (!found || !listed) return;
  if (fde.first != entry.first || fde.range != entry.range || fde.place != entry.place) me->wrong++;
  if (pc < fde.first || pc - fde.first >= fde.range) me->wrong++;
}

static void *work(void *given) {
  struct worker *me = given;
  for (unsigned lap = 0; lap < LAPS; lap++) {
    const frames_entry *entry = &me->table[(lap * 7919u) % me->count];
    probe(me, entry->first);
    probe(me, entry->first + entry->range - 1);
    probe(me, entry->first + entry->range);
  }
  return NULL;
}

static uint8_t *whole(const char *name, size_t *length) {
  FILE *file = fopen(name, "rb");
  if (!file || fseek(file, 0, SEEK_END)) return NULL;
  *length = (size_t)ftell(file);
  rewind(file);
  uint8_t *bytes = malloc(*length);
  if (bytes && fread(bytes, 1, *length, file) != *length) bytes = NULL;
  fclose(file);
  return bytes;
}

static const Elf64_Shdr *named(const uint8_t *bytes, const char *name) {
  const Elf64_Ehdr *elf = (const void *)bytes;
  const Elf64_Shdr *part = (const void *)(bytes + elf->e_shoff);
  const char *names = (const char *)bytes + part[elf->e_shstrndx].sh_offset;
  for (int i = 0; i < elf->e_shnum; i++)
    if (!strcmp(names + part[i].sh_name, name)) return &part[i];
  return NULL;
}

int main(int count, char **words) {
  size_t length;
  uint8_t *bytes = count > 1 ? whole(words[1], &length) : NULL;
  const Elf64_Shdr *part = bytes ? named(bytes, ".eh_frame") : NULL;
  frames_refusal refusal;
  frames_section first = {0};
  const uint8_t *at = part ? bytes + part->sh_offset : NULL;
  if (!part || !frames_c_read(part->sh_addr, at, part->sh_size, &refusal, &first)) return 2;
  size_t room = frames_c_count(first, &first), entries = 0;
  frames_entry *table = calloc(room, sizeof *table);
  uint64_t made = frames_c_table(first, table, room, &entries, &first);
  if (made != FRAMES_TABLE_MADE || entries == 0) return 3;
  static struct worker workers[THREADS];
  for (int i = 0; i < THREADS; i++) {
    workers[i] = (struct worker){.table = table, .count = entries};
    if (!frames_c_share(first, &workers[i].share, &first)) return 4;
  }
  frames_c_free(first);
  for (int i = 0; i < THREADS; i++) pthread_create(&workers[i].thread, NULL, work, &workers[i]);
  unsigned wrong = 0;
  for (int i = 0; i < THREADS; i++) {
    pthread_join(workers[i].thread, NULL);
    wrong += workers[i].wrong;
    frames_c_free(workers[i].share);
  }
  free(table);
  free(bytes);
  printf("%zu of %zu FDEs in the table, %d threads, %u wrong\n", entries, room, THREADS, wrong);
  return wrong != 0;
}
