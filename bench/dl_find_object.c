// dl_find_object OBJECTS THREADS ROUNDS FOLDER: loads FOLDER/0.so and so on, so many of them, and
// measures glibc's _dl_find_object at random addresses inside of them, as lookup_bench measures a
// lookup: the same loop by the same random numbers over as many addresses, as many laps, and the
// same line printed.
#define _GNU_SOURCE
#include <dlfcn.h>
#include <pthread.h>
#include <stdint.h>
#include <stdio.h>
#include <stdlib.h>
#include <sys/mman.h>
#include <time.h>

enum { PROBES = 8192, LAPS = 9, MOST_THREADS = 4 };

// The first of the random numbers.
static const uint64_t SEED = 88172645463325252;

// An address inside of an object, and where the object begins.
struct probe {
  uint64_t pc, start;
};

// What a thread does, what it took in nanoseconds, and how many lookups were answered rightly.
struct part {
  pthread_t thread;
  uint64_t seed, rounds, wall, processor, right;
};

static struct probe probes[PROBES];

static uint64_t next(uint64_t number) {
  number ^= number << 13;
  number ^= number >> 7;
  return number ^ number << 17;
}

static uint64_t nanos(clockid_t clock) {
  struct timespec time;
  clock_gettime(clock, &time);
  return (uint64_t)time.tv_sec * 1000000000 + (uint64_t)time.tv_nsec;
}

static void fail(const char *what) {
  fprintf(stderr, "%s\n", what);
  exit(1);
}

// Loads the objects, with a hole after each eight of them, and answers where each begins.
static uint64_t *load(uint32_t objects, const char *folder) {
  uint64_t *starts = calloc(objects, sizeof *starts);
  if (!starts) fail("no memory");
  for (uint32_t index = 0; index < objects; index++) {
    char path[4096];
    snprintf(path, sizeof path, "%s/%u.so", folder, index);
    if (index % 8 == 0) mmap(NULL, 1 << 16, PROT_NONE, MAP_PRIVATE | MAP_ANONYMOUS, -1, 0);
    void *object = dlopen(path, RTLD_NOW | RTLD_LOCAL);
    void *inside = object ? dlsym(object, "f") : NULL;
    struct dl_find_object found;
    if (!inside || _dl_find_object(inside, &found)) fail(path);
    starts[index] = (uint64_t)found.dlfo_map_start;
  }
  return starts;
}

// Addresses in the text of the objects, which begins on their second page.
static void fill(const uint64_t *starts, uint32_t objects) {
  uint64_t number = SEED;
  for (int index = 0; index < PROBES; index++) {
    number = next(number);
    uint64_t start = starts[(number >> 20) % objects];
    probes[index] = (struct probe){start + 4096 + (number >> 9) % 4, start};
  }
}

// The loop without a lookup. The sum is of the addresses.
static uint64_t pass_often(uint64_t number, uint64_t rounds) {
  uint64_t sum = 0;
  for (uint64_t round = 0; round < rounds; round++) {
    number = next(number);
    const struct probe *probe = &probes[number % PROBES];
    sum += probe->pc ^ probe->start;
  }
  return sum;
}

static uint64_t find_often(uint64_t number, uint64_t rounds) {
  uint64_t right = 0;
  for (uint64_t round = 0; round < rounds; round++) {
    number = next(number);
    const struct probe *probe = &probes[number % PROBES];
    struct dl_find_object found;
    if (_dl_find_object((void *)probe->pc, &found)) continue;
    right += (uint64_t)found.dlfo_map_start == probe->start;
  }
  return right;
}

static void *run(void *of) {
  struct part *part = of;
  uint64_t wall = nanos(CLOCK_MONOTONIC), processor = nanos(CLOCK_THREAD_CPUTIME_ID);
  part->right = find_often(part->seed, part->rounds);
  part->processor = nanos(CLOCK_THREAD_CPUTIME_ID) - processor;
  part->wall = nanos(CLOCK_MONOTONIC) - wall;
  return NULL;
}

// One lap of so many threads. The last part is this thread's, as it is in lookup_bench.
static struct part lap(int threads, uint64_t rounds) {
  struct part parts[MOST_THREADS], sum = {0};
  for (int index = 0; index < threads; index++) {
    struct part *part = &parts[index];
    *part = (struct part){.seed = SEED + (uint64_t)index, .rounds = rounds};
    if (index == threads - 1) run(part);
    else if (pthread_create(&part->thread, NULL, run, part)) fail("no thread");
  }
  for (int index = 0; index < threads; index++) {
    if (index < threads - 1) pthread_join(parts[index].thread, NULL);
    sum.wall += parts[index].wall;
    sum.processor += parts[index].processor;
    sum.right += parts[index].right;
  }
  return sum;
}

static uint64_t least(uint64_t one, uint64_t other) { return one < other ? one : other; }

int main(int count, char **words) {
  if (count != 5) fail("dl_find_object OBJECTS THREADS ROUNDS FOLDER");
  int objects = atoi(words[1]), threads = atoi(words[2]), rounds = atoi(words[3]);
  if (objects < 1 || threads < 1 || threads > MOST_THREADS || rounds < 1) fail("a number");
  fill(load((uint32_t)objects, words[4]), (uint32_t)objects);
  uint64_t wall = UINT64_MAX, processor = UINT64_MAX, passed = UINT64_MAX, sum = 0;
  for (uint64_t turn = 0; turn < LAPS; turn++) {
    uint64_t before = nanos(CLOCK_THREAD_CPUTIME_ID);
    sum += pass_often(SEED + turn, (uint64_t)rounds);
    passed = least(passed, nanos(CLOCK_THREAD_CPUTIME_ID) - before);
    struct part one = lap(threads, (uint64_t)rounds);
    if (one.right != (uint64_t)rounds * (uint64_t)threads) fail("a wrong answer");
    wall = least(wall, one.wall);
    processor = least(processor, one.processor);
  }
  double all = (double)rounds * threads;
  printf("%d objects, %d threads: wall %.2f ns, processor %.2f ns, ", objects, threads,
         (double)wall / all, (double)processor / all);
  printf("without a lookup %.2f ns, %llu\n", (double)passed / rounds, (unsigned long long)sum);
  return 0;
}
