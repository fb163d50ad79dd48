/* Each call once with a handle that is nothing, {0}, in a child of its own: the read near address 0
 * ends it, as the headers say. Status 0: all are so. */
#define _GNU_SOURCE
#include "check.h"
#include "frames_c.h"
#include "registry_c.h"
#include <signal.h>
#include <sys/resource.h>
#include <sys/wait.h>
#include <unistd.h>

/* What is nothing, and what else the calls are given. */
static registry_client client, other;
static registry_reader reader;
static frames_section section;
static frames_memory memory;
static frames_row_table table;
static frames_modules modules;
static const registry_member member = {0x1000, 0x10, 0};
static const uint8_t bytes[8];
static const frames_word word;
static const uint64_t pc = 0x1000;

static bool ended_there(pid_t child) {
  int status;
  return child > 0 && waitpid(child, &status, 0) == child && WIFSIGNALED(status) &&
         WTERMSIG(status) == SIGSEGV;
}

/* A sanitizer's handler would end the child otherwise. */
#define ENDS(call)               \
  do {                           \
    pid_t child = fork();        \
    if (child == 0) {            \
      signal(SIGSEGV, SIG_DFL);  \
      call;                      \
      _exit(0);                  \
    }                            \
    CHECK(ended_there(child));   \
  } while (0)

static int clients(void) {
  registry_answer answer;
  registry_found found;
  registry_place place;
  uint32_t seen;
  ENDS(registry_c_split(client, 0, &other, &client));
  ENDS(registry_c_join(client, other, &client, &other));
  ENDS(registry_c_close(client, &seen));
  ENDS(registry_c_left(client, &client));
  ENDS(registry_c_seen(client, &client));
  ENDS(registry_c_try_registered(client, pc, &found, &client));
  ENDS(registry_c_try_loaded(client, pc, &found, &client));
  ENDS(registry_c_find(client, pc, &place, &client));
  ENDS(registry_c_find_cached(client, pc, &place, &client));
  ENDS(registry_c_reader(client, &reader, &client));
  ENDS(registry_c_register(client, &member, &answer, &client));
  ENDS(registry_c_deregister(client, pc, &answer, &client));
  ENDS(registry_c_replace(client, &member, &answer, &client));
  ENDS(registry_c_load(client, &member, &answer, &client));
  ENDS(registry_c_unload(client, pc, &answer, &client));
  return 0;
}

static int readers(void) {
  registry_reader again = {0};
  registry_found found;
  registry_place place;
  ENDS(registry_c_reader_again(reader, &again, &reader));
  ENDS(registry_c_reader_drop(reader));
  ENDS(registry_c_reader_try_registered(reader, pc, &found, &reader));
  ENDS(registry_c_reader_try_loaded(reader, pc, &found, &reader));
  ENDS(registry_c_reader_find(reader, pc, &place, &reader));
  return 0;
}

static int sections(void) {
  frames_section share = {0};
  frames_fde fde;
  frames_claim claim;
  frames_entry entry;
  frames_row row;
  size_t count;
  ENDS(frames_c_share(section, &share, &section));
  ENDS(frames_c_free(section));
  ENDS(frames_c_count(section, &section));
  ENDS(frames_c_find(section, pc, &fde, &section));
  ENDS(frames_c_claim(section, pc, &claim, &section));
  ENDS(frames_c_table(section, &entry, 1, &count, &section));
  ENDS(frames_c_row(section, pc, &row, &section));
  ENDS(frames_c_rows(section, &pc, 1, &row, 1, &section));
  ENDS(frames_c_row_table(section, &table, &section));
  return 0;
}

static int memories(void) {
  frames_frame frame = {0};
  ENDS(frames_c_memory_push(memory, pc, bytes, sizeof bytes, &memory));
  ENDS(frames_c_memory_free(memory));
  ENDS(frames_c_step(section, memory, &frame, &section, &memory));
  ENDS(frames_c_step_lent(section, pc, bytes, sizeof bytes, &frame, &section));
  ENDS(frames_c_step_asking(section, pc, bytes, sizeof bytes, &word, 1, &frame, &section));
  return 0;
}

static int tables(void) {
  frames_row_table share = {0};
  frames_frame frame = {0};
  frames_row row;
  ENDS(frames_c_row_table_share(table, &share, &table));
  ENDS(frames_c_row_table_free(table));
  ENDS(frames_c_row_table_row(table, pc, &row, &table));
  ENDS(frames_c_row_table_step(table, memory, &frame, &table, &memory));
  ENDS(frames_c_row_table_step_lent(table, pc, bytes, sizeof bytes, &frame, &table));
  ENDS(frames_c_row_table_step_asking(table, pc, bytes, sizeof bytes, &word, 1, &frame, &table));
  return 0;
}

static int lists(void) {
  frames_modules again = {0};
  frames_frame frame = {0};
  frames_line line;
  size_t count;
  ENDS(frames_c_modules_add(modules, pc, 0x10, section, &modules));
  ENDS(frames_c_modules_add_rows(modules, pc, 0x10, table, &modules));
  ENDS(frames_c_modules_share(modules, &again, &modules));
  ENDS(frames_c_modules_free(modules));
  ENDS(frames_c_walk(modules, pc, bytes, sizeof bytes, &frame, &line, 1, &count, &modules));
  return 0;
}

int main(void) {
  struct rlimit no_core = {0, 0};
  setrlimit(RLIMIT_CORE, &no_core);
  return clients() || readers() || sections() || memories() || tables() || lists();
}
