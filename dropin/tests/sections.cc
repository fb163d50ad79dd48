// sections [MANY]: what is registered and given up, by small cases, one after another, of which
// each leaves nothing behind, and at last by 120,000 sections or so many. Where libgcc 12 loses
// frames by its form, or ends the program, a case is asked of the drop-in alone, which is said.
#include "generated.h"
#include <malloc.h>
#include <vector>

static bool drop_in;
static uint8_t *const memory = map(1 << 20);    // for sections
static uint8_t *const code = map(1 << 20);      // for addresses

struct Placed {
  uint8_t *begin, *fde;
};

// A section with one FDE of so many addresses at one place, which begins at another.
static Placed section(size_t at, size_t place, size_t size = 48, Form form = {}) {
  Section writer(memory + at);
  Placed placed = {writer.cie(form), writer.fde(code + place, size)};
  writer.end();
  return placed;
}

static void is_found(const char *what, size_t place, const Placed &placed, size_t first) {
  check(finds(code + place, placed.fde, code + first), what, long(place));
}
static void is_missing(const char *what, size_t place) {
  check(finds(code + place, nullptr, nullptr), what, long(place));
}

static void one_section() {
  Placed one = section(0, 64);
  __register_frame(one.begin);
  is_found("the first address", 64, one, 64);
  is_found("the last address", 64 + 47, one, 64);
  is_missing("before the first", 63);
  is_missing("after the last", 64 + 48);
  __deregister_frame(one.begin);
  is_missing("after it was given up", 64);
}

static void the_same_twice() {
  Placed one = section(0, 0);
  __register_frame(one.begin);
  __register_frame(one.begin);
  __deregister_frame(one.begin);
  is_found("it stands once more", 40, one, 0);
  __deregister_frame(one.begin);
  is_missing("given up twice", 40);
}

static void the_same_addresses() {
  Placed one = section(0, 0), two = section(256, 0);
  for (int turn = 0; turn < 2; turn++) {
    const Placed &first = turn ? two : one, &second = turn ? one : two;
    __register_frame(one.begin);
    __register_frame(two.begin);
    check(finds(code, one.fde, code) || finds(code, two.fde, code), "either of both", turn);
    __deregister_frame(first.begin);
    is_found("the other one", 0, second, 0);
    __deregister_frame(second.begin);
    is_missing("both are given up", 0);
  }
}

static void crossing() {
  Placed one = section(0, 0, 48), two = section(256, 32, 48);
  __register_frame(one.begin);
  __register_frame(two.begin);
  is_found("the first one's own part", 8, one, 0);
  is_found("the second one's own part", 72, two, 32);
  __deregister_frame(one.begin);
  is_missing("the first one's own part", 8);
  is_found("of the second one what both had", 40, two, 32);
  __deregister_frame(two.begin);
  is_missing("both are given up", 40);
}

static void many_over_one_address() {
  enum { MANY = 100 };
  Placed placed[MANY];
  for (int i = 0; i < MANY; i++) __register_frame((placed[i] = section(i * 256, 0)).begin);
  for (int i = 0; i < MANY; i++) {
    check(!finds(code + 5, nullptr, nullptr), "one of those that stand", i);
    __deregister_frame(placed[i * 37 % MANY].begin);
  }
  is_missing("all are given up", 5);
}

static void between_each_other() {
  enum { MANY = 500 };
  std::vector<uint8_t *> fdes;
  uint8_t *begins[2], *at = memory;
  for (int parity = 0; parity < 2; parity++) {
    Section writer(at);
    begins[parity] = writer.cie();
    for (int i = 0; i < MANY; i++) fdes.push_back(writer.fde(code + 128 * i + 64 * parity, 48));
    at = writer.end();
    __register_frame(begins[parity]);
  }
  for (int parity = 0; parity < 2; parity++)
    for (int i = 0; i < MANY; i++) {
      size_t place = 128 * i + 64 * parity;
      check(finds(code + place + 7, fdes[parity * MANY + i], code + place), "a part", long(place));
    }
  __deregister_frame(begins[0]);
  __deregister_frame(begins[1]);
  is_missing("both are given up", 7);
}

static void one_inside_another() {
  Section writer(memory);
  uint8_t *begin = writer.cie();
  Placed outer = {begin, writer.fde(code, 4096)}, inner = {begin, writer.fde(code + 1024, 64)};
  writer.end();
  __register_frame(begin);
  is_found("before the inner one", 1000, outer, 0);
  is_found("after the inner one", 2000, outer, 0);
  check(!finds(code + 1030, nullptr, nullptr), "within both");
  __deregister_frame(begin);
  is_missing("given up", 1030);
  (void)inner;
}

static void large_over_small() {
  enum { SMALL = 5000 };
  Placed large = section(0, 0, 1 << 19);
  Section writer(memory + 4096);
  uint8_t *begin = writer.cie();
  for (int i = 0; i < SMALL; i++) writer.fde(code + 64 * i, 48);
  writer.end();
  __register_frame(large.begin);
  __register_frame(begin);
  is_found("in a hole of the small ones", 64 * 4000 + 50, large, 0);
  __deregister_frame(large.begin);
  is_missing("in a hole of the small ones", 64 * 4000 + 50);
  check(!finds(code + 64 * 4000, nullptr, nullptr), "a small one");
  __deregister_frame(begin);
  is_missing("all are given up", 64 * 4000);
}

static void thrown_away() {
  Section writer(memory);
  uint8_t *begin = writer.cie({1, "", 0});
  writer.fde(nullptr, 1 << 20);
  Placed kept = {begin, writer.fde(code, 48)};
  writer.end();
  __register_frame(begin);
  check(finds(reinterpret_cast<void *>(4096), nullptr, nullptr), "an FDE at 0");
  is_found("the one after it", 1, kept, 0);
  __deregister_frame(begin);
}

static void empty_ones() {
  uint32_t nothing[2] = {0, 0};
  __register_frame(nothing);
  __register_frame_info(nothing, nullptr);
  __deregister_frame(nothing);
  check(__deregister_frame_info(nothing) == nullptr, "an empty section has no object");
  Section writer(memory);
  uint8_t *begin = writer.cie();
  writer.end();
  __register_frame(begin);
  is_missing("a CIE alone", 0);
  __deregister_frame(begin);
}

// Forms that the proved library refuses.
static void refused_ones() {
  uint8_t *text = code + 100, *data = code - 100;
  auto of = [](uint8_t *at) { return reinterpret_cast<uint64_t>(at); };
  const Form forms[] = {{4, "zR", 0x1b}, {1, "zRB", 0x1b}, {1, "zR", 0x2b, of(text), of(data)},
                        {1, "zR", 0x3b, of(text), of(data)}};
  for (const Form &form : forms) {
    Placed one = section(0, 64, 48, form);
    alignas(16) uint8_t object[128];
    __register_frame_info_bases(one.begin, object, text, data);
    is_found("a form that is refused", 80, one, 64);
    dwarf_eh_bases bases = {};
    _Unwind_Find_FDE(code + 80, &bases);
    check(bases.tbase == text && bases.dbase == data, "the bases", &form - forms);
    check(__deregister_frame_info_bases(one.begin) == object, "its object");
    is_missing("a form that was refused", 80);
  }
}

// As in a static program: the CIE stands before what is registered.
static void a_cie_before_the_first_byte() {
  enum { MANY = 300 };
  Section writer(memory);
  writer.cie();
  uint8_t *fdes[MANY];
  for (int i = MANY; i-- > 0;) fdes[i] = writer.fde(code + 64 * i, 48);
  writer.end();
  alignas(16) uint8_t object[128];
  __register_frame_info(fdes[MANY - 1], object);
  for (int i = 0; i < MANY; i++) is_found("one of them", 64 * i + 9, {nullptr, fdes[i]}, 64 * i);
  is_missing("between them", 64 * 7 + 50);
  check(__deregister_frame_info(fdes[MANY - 1]) == object, "its object");
  is_missing("all are given up", 9);
}

static void tables() {
  Placed one = section(0, 0), two = section(256, 128);
  void *table[] = {one.begin, two.begin, nullptr};
  alignas(16) uint8_t object[128];
  for (int turn = 0; turn < 2; turn++) {
    if (turn == 0) __register_frame_table(table);
    else __register_frame_info_table(table, object);
    is_found("the first of a table", 3, one, 0);
    is_found("the second of a table", 130, two, 128);
    if (turn == 0) __deregister_frame(table);
    else check(__deregister_frame_info(table) == object, "its object");
    is_missing("a table that was given up", 3);
  }
}

static void objects() {
  alignas(16) uint8_t object[128], before[128];
  std::memset(object, 0xa5, sizeof object);
  std::memcpy(before, object, sizeof object);
  Placed one = section(0, 0);
  __register_frame_info(one.begin, object);
  is_found("it", 0, one, 0);
  if (drop_in) check(!std::memcmp(before, object, sizeof object), "an object was written");
  check(__deregister_frame_info(one.begin) == object, "its object is given back");
}

// An array whose first pointer has a low half of 0.
static void a_table_of_a_round_address() {
  // sanitizers keep one or the other for themselves
  void *at = nullptr;
  for (uint64_t round : {uint64_t(1) << 36, uint64_t(0x6f00) << 32})
    if (at == nullptr || at == MAP_FAILED)
      at = mmap(reinterpret_cast<void *>(round), 4096, PROT_READ | PROT_WRITE,
                MAP_PRIVATE | MAP_ANONYMOUS | MAP_FIXED_NOREPLACE, -1, 0);
  check(reinterpret_cast<uint64_t>(at) % (uint64_t(1) << 32) == 0, "no memory at a round address");
  Section writer(static_cast<uint8_t *>(at));
  writer.cie({1, "", 0});
  uint8_t *fde = writer.fde(code, 48);
  writer.end();
  static void *table[] = {nullptr, nullptr};
  table[0] = at;
  __register_frame_table(table);
  check(finds(code + 5, fde, code), "of a table at a round address");
  // libgcc takes the table for an empty section when it is given up
  if (drop_in) __deregister_frame(table);
  if (drop_in) is_missing("a table that was given up", 5);
  if (drop_in) munmap(at, 4096);
}

// Up to the last address of all, in a library and plainly read.
static void the_last_address() {
  uint8_t *const last = reinterpret_cast<uint8_t *>(-uint64_t(48));
  for (uint8_t version : {1, 4}) {
    Section writer(memory);
    uint8_t *begin = writer.cie({version, "", 0});
    uint8_t *fde = writer.fde(last, 48);
    writer.end();
    __register_frame(begin);
    check(finds(last, fde, last) && finds(last + 46, fde, last), "up to the last address", version);
    __deregister_frame(begin);
    check(finds(last, nullptr, nullptr), "up to the last address, given up", version);
  }
}

// What __register_frame_info was given goes by free.
static void objects_are_freed() {
  Placed one = section(0, 0);
  const size_t before = mallinfo2().uordblks;
  for (int i = 0; i < 100; i++) {
    __register_frame_info(one.begin, std::malloc(4096));
    __deregister_frame(one.begin);
  }
  check(mallinfo2().uordblks < before + 8192, "an object was kept");
}

static void aligned_addresses() {
  for (size_t skip = 0; skip < 8; skip += 4) {
    Section writer(memory + skip);
    uint8_t *begin = writer.cie({1, "zR", 0x50});
    uint8_t *fde = writer.fde(code, 48);
    writer.end();
    __register_frame(begin);
    check(finds(code + 5, fde, code), "aligned addresses", long(skip));
    __deregister_frame(begin);
    is_missing("aligned addresses, given up", 5);
  }
}

static void unknown_ones() {
  Placed one = section(0, 0);
  __deregister_frame(one.begin);
  check(__deregister_frame_info(one.begin) == nullptr, "an unknown one has no object");
  __register_frame(one.begin);
  __deregister_frame(one.begin);
  __deregister_frame(one.begin);
  is_missing("given up more than once", 0);
}

// A section with an FDE near to its code and one far from it, in either order.
static void near_and_far() {
  uint8_t *const near = code + 512, *const far = code + (uint64_t(1) << 40);
  for (uint8_t *const first : {near, far}) {
    uint8_t *const second = first == near ? far : near;
    uint8_t *const heap = static_cast<uint8_t *>(std::malloc(256));
    Section writer(heap);
    writer.cie({1, "", 0});
    uint8_t *const one = writer.fde(first, 48), *const two = writer.fde(second, 48);
    writer.end();
    __register_frame(heap);
    check(finds(first + 5, one, first) && finds(second + 5, two, second), "near and far");
    __deregister_frame(heap);
    check(finds(near + 5, nullptr, nullptr) && finds(far + 5, nullptr, nullptr), "given up");
    std::free(heap);
  }
}

// Sections that stand far from their code, each at a distance of its own.
static void far_ones() {
  enum { WINDOWS = 20, EACH = 50 };
  std::vector<uint8_t *> begins;
  std::vector<std::pair<uint8_t *, uint8_t *>> placed;
  uint8_t *heap = static_cast<uint8_t *>(std::malloc(WINDOWS * EACH * 128)), *at = heap;
  for (int window = 0; window < WINDOWS; window++)
    for (int i = 0; i < EACH; i++) {
      uint8_t *place = code + ((uint64_t(window) << 33) + 64 * i) + (uint64_t(1) << 40);
      Section writer(at);
      begins.push_back(writer.cie({1, "", 0}));
      placed.emplace_back(writer.fde(place, 48), place);
      at = writer.end() + 4;
    }
  for (auto *begin : begins) __register_frame(begin);
  for (auto &[fde, place] : placed) check(finds(place + 5, fde, place), "a far one", place - code);
  for (auto *begin : begins) __deregister_frame(begin);
  for (auto &one : placed) check(finds(one.second + 5, nullptr, nullptr), "a far one, given up");
  std::free(heap);
}

static size_t how_many = 120000;

static void many() {
  const size_t all = how_many;
  const Functions functions(all);
  auto all_are = [&](auto stands, const char *what) {
    for (size_t i = 0; i < all; i++) {
      const uint8_t *fde = functions.section(i) + 24;
      check(finds(functions.address(i) + i % 16, stands(i) ? fde : nullptr, functions.address(i)),
            what, long(i));
    }
  };
  double from = seconds();
  functions.put_all();
  double put = seconds() - from;
  all_are([](size_t) { return true; }, "all of many");
  for (size_t i = 0; i < all; i += 2) functions.take(i * 7919 % all / 2 * 2);
  all_are([](size_t i) { return i % 2 == 1; }, "each second one of many");
  for (size_t i = 0; i < all; i += 2) functions.put(i);
  all_are([](size_t) { return true; }, "all of many, once more");
  for (size_t i = all; i-- > 0;) functions.take(i);
  all_are([](size_t) { return false; }, "none of many");
  std::printf("  %zu sections: %.2f us to register one\n", all, put / double(all) * 1e6);
}

static void loaded_ones() {
  dwarf_eh_bases bases = {};
  auto *here = reinterpret_cast<uint8_t *>(loaded_ones);
  check(_Unwind_Find_FDE(here + 1, &bases) != nullptr && bases.func == here, "its own function");
  check(bases.tbase == nullptr && bases.dbase == nullptr, "bases of a loaded object");
  auto *other = reinterpret_cast<uint8_t *>(std::printf);
  check(_Unwind_Find_FDE(other + 1, &bases) != nullptr && bases.func == other, "printf");
  check(finds(&bases, nullptr, nullptr), "the stack has no FDE");
  check(finds(nullptr, nullptr, nullptr), "address 0 has no FDE");
}

int main(int count, char **words) {
  drop_in = is_drop_in();
  if (count > 1) how_many = std::strtoul(words[1], nullptr, 10);
  static const struct {
    const char *name;
    void (*run)();
    bool of_libgcc;
  } cases[] = {
      {"one section", one_section, true},
      {"the same section twice", the_same_twice, true},
      {"two with the same addresses", the_same_addresses, true},
      {"two that cross", crossing, true},
      {"many over one address", many_over_one_address, true},
      {"two between each other's parts", between_each_other, false},
      {"an FDE inside another's range", one_inside_another, false},
      {"a large one over small ones", large_over_small, false},
      {"an FDE at 0", thrown_away, true},
      {"empty ones", empty_ones, true},
      {"forms that are read plainly", refused_ones, true},
      {"a CIE before the first byte", a_cie_before_the_first_byte, true},
      {"tables of sections", tables, true},
      {"a program's own objects", objects, true},
      {"unknown ones given up", unknown_ones, false},
      {"up to the last address", the_last_address, false},
      {"objects go by free", objects_are_freed, true},
      {"aligned addresses", aligned_addresses, true},
      {"far from their code", far_ones, true},
      {"near to their code and far from it", near_and_far, true},
      {"loaded objects", loaded_ones, true},
      {"many sections", many, false},
  };
  for (auto &one : cases) {
    bool is_asked = drop_in || one.of_libgcc;
    std::printf("%s%s\n", one.name, is_asked ? "" : ": not asked of libgcc");
    std::fflush(stdout);
    if (!is_asked) continue;
    one.run();
    one.run();
  }
  a_table_of_a_round_address();
  std::printf("%zu cases are right\n", sizeof cases / sizeof *cases + 1);
}
