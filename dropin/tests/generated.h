/* What the tests share: code that is made while the program runs, its sections of .eh_frame, and
 * throws through it of which every value and destructor is counted. */
#ifndef GENERATED_H
#define GENERATED_H

#include <cstdint>
#include <cstdio>
#include <cstdlib>
#include <cstring>
#include <dlfcn.h>
#include <initializer_list>
#include <sys/mman.h>
#include <time.h>

extern "C" {
struct dwarf_eh_bases {
  void *tbase, *dbase, *func;
};
const void *_Unwind_Find_FDE(void *pc, dwarf_eh_bases *bases);
void __register_frame(void *begin);
void __register_frame_info(const void *begin, void *ob);
void __register_frame_info_bases(const void *begin, void *ob, void *text, void *data);
void __register_frame_table(void *begin);
void __register_frame_info_table(void *begin, void *ob);
void __register_frame_info_table_bases(void *begin, void *ob, void *text, void *data);
void __deregister_frame(void *begin);
void *__deregister_frame_info(const void *begin);
void *__deregister_frame_info_bases(const void *begin);
}

[[noreturn]] inline void fail(const char *what, long number = 0) {
  std::fprintf(stderr, "WRONG: %s (%ld)\n", what, number);
  std::fflush(nullptr);
  _Exit(1);
}

inline void check(bool is_right, const char *what, long number = 0) {
  if (!is_right) fail(what, number);
}

// A preloaded library that isn't there is left out with a word alone: so UNDER says what is meant
// to be tested, the drop-in or libgcc, and it is asked for.
inline bool is_drop_in() {
  const char *under = std::getenv("UNDER");
  Dl_info info = {};
  check(under != nullptr, "UNDER has to say libgcc, drop-in or linked");
  check(dladdr(reinterpret_cast<void *>(_Unwind_Find_FDE), &info) != 0, "whose lookup is it?");
  bool is = std::strstr(info.dli_fname, "libgcc_s") == nullptr;
  check(is == (std::strcmp(under, "libgcc") != 0), info.dli_fname);
  return is;
}

inline double seconds(clockid_t clock = CLOCK_MONOTONIC) {
  timespec time;
  clock_gettime(clock, &time);
  return double(time.tv_sec) + double(time.tv_nsec) * 1e-9;
}

// ---- code ----

using Callee = uint64_t(uint64_t);
using Code = uint64_t(Callee *, uint64_t);

// push rbx; mov ebx, 42; mov rax, rdi; mov rdi, rsi; call rax; pop rbx; ret
inline constexpr uint8_t code_bytes[16] = {0x53, 0xbb, 0x2a, 0x00, 0x00, 0x00, 0x48, 0x89,
                                           0xf8, 0x48, 0x89, 0xf7, 0xff, 0xd0, 0x5b, 0xc3};

inline uint8_t *map(size_t size, int protection = PROT_READ | PROT_WRITE) {
  void *at = mmap(nullptr, size, protection, MAP_PRIVATE | MAP_ANONYMOUS, -1, 0);
  check(at != MAP_FAILED, "no memory");
  return static_cast<uint8_t *>(at);
}

// ---- sections ----

// How a section's CIEs are written. Encodings: 0x1b is four signed bytes from the field on, 0x00 an
// address, 0x2b and 0x3b four signed bytes from the bases of text and data on.
struct Form {
  uint8_t version = 1;
  const char *augmentation = "zR";
  uint8_t encoding = 0x1b;
  uint64_t text = 0, data = 0;
};

// Writes records one after another.
class Section {
  uint8_t *at_, *cie_ = nullptr;
  Form form_;

  template <typename T> void put(T value) {
    std::memcpy(at_, &value, sizeof value);
    at_ += sizeof value;
  }
  uint8_t *begin_record() {
    uint8_t *record = at_;
    put<uint32_t>(0);
    return record;
  }
  void end_record(uint8_t *record) {
    while ((at_ - record) % 8) put<uint8_t>(0);
    uint32_t length = uint32_t(at_ - record - 4);
    std::memcpy(record, &length, sizeof length);
  }
  void put_address(uint64_t value) {
    if (form_.encoding == 0x50)
      while (reinterpret_cast<uint64_t>(at_) % 8) put<uint8_t>(0);
    if ((form_.encoding & 0x70) == 0x10) value -= reinterpret_cast<uint64_t>(at_);
    if ((form_.encoding & 0x70) == 0x20) value -= form_.text;
    if ((form_.encoding & 0x70) == 0x30) value -= form_.data;
    put_size(value);
  }
  void put_size(uint64_t value) {
    if ((form_.encoding & 0x0f) == 0x0b) put<int32_t>(int32_t(value));
    else put<uint64_t>(value);
  }

public:
  explicit Section(uint8_t *at) : at_(at) {}
  uint8_t *here() const { return at_; }

  // Returns where it stands.
  uint8_t *cie(Form form = {}) {
    form_ = form;
    cie_ = begin_record();
    put<uint32_t>(0);
    put<uint8_t>(form.version);
    for (const char *letter = form.augmentation;; letter++) {
      put<char>(*letter);
      if (!*letter) break;
    }
    if (form.version >= 4) put<uint16_t>(8);
    put<uint8_t>(1);                                    // the code's factor
    put<uint8_t>(0x78);                                 // the data's: -8
    put<uint8_t>(16);                                   // the return address
    if (form.augmentation[0] == 'z') {
      put<uint8_t>(1);
      put<uint8_t>(form.encoding);
    }
    for (uint8_t byte : {0x0c, 0x07, 0x08, 0x90, 0x01}) put(byte);   // CFA rsp + 8, and where it is
    end_record(cie_);
    return cie_;
  }

  // Of the generated code at an address, or of any other with so many bytes. Returns where it
  // stands.
  uint8_t *fde(const void *first, uint64_t size = sizeof code_bytes) {
    uint8_t *record = begin_record();
    put<uint32_t>(uint32_t(at_ - cie_));
    put_address(reinterpret_cast<uint64_t>(first));
    put_size(size);
    if (form_.augmentation[0] == 'z') put<uint8_t>(0);
    for (uint8_t byte : {0x41, 0x0e, 0x10, 0x83, 0x02, 0x4e, 0x0e, 0x08, 0xc3}) put(byte);
    end_record(record);
    return record;
  }

  uint8_t *end() {
    put<uint32_t>(0);
    return at_;
  }
};

// So many functions, each with a section of its own, in one block of memory.
class Functions {
  uint8_t *code_, *sections_;

public:
  static constexpr size_t DISTANCE = 64, SECTION = 80;
  const size_t count;

  explicit Functions(size_t functions, Form form = {}) : count(functions) {
    size_t code = (count * DISTANCE + 4095) / 4096 * 4096 + 4096, whole = code + count * SECTION;
    code_ = map(whole);
    sections_ = code_ + code;
    for (size_t i = 0; i < count; i++) {
      std::memcpy(address(i), code_bytes, sizeof code_bytes);
      Section section(this->section(i));
      section.cie(form);
      section.fde(address(i));
      section.end();
    }
    check(mprotect(code_, code, PROT_READ | PROT_EXEC) == 0, "mprotect");
  }
  uint8_t *address(size_t i) const { return code_ + i * DISTANCE; }
  uint8_t *section(size_t i) const { return sections_ + i * SECTION; }
  Code *code(size_t i) const { return reinterpret_cast<Code *>(address(i)); }
  void put(size_t i) const { __register_frame(section(i)); }
  void take(size_t i) const { __deregister_frame(section(i)); }
  void put_all() const {
    for (size_t i = 0; i < count; i++) put(i);
  }
  void take_all() const {
    for (size_t i = 0; i < count; i++) take(i);
  }
};

// Whether a lookup tells the FDE of an address, and its first address; or none, where it is null.
inline bool finds(const void *pc, const void *fde, const void *first) {
  dwarf_eh_bases bases = {};
  const void *found = _Unwind_Find_FDE(const_cast<void *>(pc), &bases);
  return found == fde && (fde == nullptr || bases.func == first);
}

// ---- throws ----

struct Thrown {
  uint64_t value;
};

inline thread_local uint64_t destroyed;
struct Counted {
  ~Counted() { destroyed++; }
};

enum { DEPTH = 10 };

[[gnu::noinline]] inline uint64_t throws(uint64_t value) {
  Counted counted;
  if (value != ~uint64_t(0)) throw Thrown{value};
  return 0;
}

[[gnu::noinline]] inline uint64_t go_down(int depth, Code *code, uint64_t value) {
  Counted counted;
  return depth > 0 ? go_down(depth - 1, code, value) + 1 : code(throws, value) + 1;
}

// Throws through the code and ten frames, whose destructors run. Registers that are to be kept are.
[[gnu::noinline]] inline void throw_through(Code *code, uint64_t value) {
  uint64_t a = value * 3, b = value * 5, c = value * 7, before = destroyed, got = ~value;
  asm volatile("" : "+r"(a), "+r"(b), "+r"(c));
  try {
    go_down(DEPTH - 2, code, value);
    fail("nothing was thrown");
  } catch (const Thrown &thrown) {
    got = thrown.value;
  }
  asm volatile("" : "+r"(a), "+r"(b), "+r"(c));
  check(got == value, "another value was caught", long(got));
  check(destroyed - before == DEPTH, "not every destructor ran", long(destroyed - before));
  check(a == value * 3 && b == value * 5 && c == value * 7, "a register isn't back");
}

// The next number of xorshift.
inline uint64_t next(uint64_t &state) {
  state ^= state << 13;
  state ^= state >> 7;
  return state ^= state << 17;
}

#endif
