/* Tables of call sites: each outcome once, over tables worked out by hand; and a personality
 * routine over frames_c_verdict, by which the C runtime's unwinder takes exceptions of this
 * program's own through functions with a cleanup, with handlers, and with nothing that may pass.
 * Status 0: all as worked out. */
#include "check.h"
#include "frames_c.h"
#include <stdio.h>
#include <string.h>
#include <unwind.h>

/* ---- worked out by hand ---------------------------------------------------------------------- */

/* A function from 0x8000 on, whose table stands at 0xb000, asked at 0x800f, which its only call
 * site has, where it isn't said otherwise. */
static bool tells(const char *bytes, size_t length, uint64_t look, frames_verdict wanted) {
  frames_verdict told = {99, 99, 99, 99, 99};
  uint64_t outcome =
      frames_c_verdict(0x8000, 0xb000, (const uint8_t *)bytes, length, look, 0x1234, &told);
  return outcome == wanted.outcome && memcmp(&told, &wanted, sizeof told) == 0;
}

#define TELLS(bytes, look, outcome_, ...) \
  tells(bytes, sizeof(bytes) - 1, look, (frames_verdict){.outcome = outcome_, ##__VA_ARGS__})

static int worked_out(void) {
  CHECK(TELLS("\xff\xff\x01\x04\x0a\x06\0\0", 0x800f, FRAMES_CONTINUE));
  CHECK(TELLS("\xff\xff\x01\x04\x0a\x06\x30\0", 0x800f, FRAMES_CLEANUP, .pad = 0x8030));
  CHECK(TELLS("\xff\xff\x01\x04\x0a\x06\x30\0", 0x8010, FRAMES_TERMINATE));
  CHECK(TELLS("\xff\xff\x01\x04\x0a\x06\x30\x01\0\0", 0x800f, FRAMES_CLEANUP, .pad = 0x8030));
  CHECK(TELLS("\xff\x9b\x0c\x01\x04\x0a\x06\x30\x01\x01\0\0\0\0\0", 0x800f, FRAMES_HANDLER,
              .pad = 0x8030, .filter = 1));
  CHECK(TELLS("\xff\xff\x01\x05\x0a\x06\x30\0", 0x800f, FRAMES_TABLE_SHORT, .at = 4));
  CHECK(TELLS("\xff\xff\x01\x0d\x0a\x06\x30\xff\xff\xff\xff\xff\xff\xff\xff\xff\x02", 0x800f,
              FRAMES_TABLE_TOO_WIDE, .at = 7));
  CHECK(TELLS("\xff\xff\x05", 0x800f, FRAMES_TABLE_ENCODING, .at = 2, .byte = 5));
  CHECK(TELLS("\xff\xff\x01\x04\x0a\x06\x30\x01\x7f\0", 0x800f, FRAMES_TABLE_FILTER, .at = 8));
  CHECK(TELLS("\xff\xff\x01\x04\x0a\x06\x30\x01", 0x800f, FRAMES_TABLE_CHAIN, .at = 7));
  CHECK(TELLS("\xff\xff\x01\x04\x0a\x06\x30\x01\x01\0", 0x800f, FRAMES_TABLE_TYPE, .at = 8));
  CHECK(TELLS("\xff\xff\x01\x04\x0a\x06\x30\0", 0x7fff, FRAMES_BELOW_FUNCTION));
  return 0;
}

/* ---- a personality routine ------------------------------------------------------------------- */

/* An exception of this program's language: its kind is a number. */
typedef struct {
  struct _Unwind_Exception header;
  uint64_t kind;
} exception;

extern const uint8_t tables_end[];

/* The functions below name it. Where the table has no verdict, as where nothing may pass, it is an
 * error, with which the unwinder returns to who raised. */
_Unwind_Reason_Code of_kinds(int version, _Unwind_Action phase, _Unwind_Exception_Class language,
                                struct _Unwind_Exception *header,
                                struct _Unwind_Context *context) {
  (void)version, (void)language;
  bool searches = phase & _UA_SEARCH_PHASE;
  int at_instruction = 0;
  uint64_t look = _Unwind_GetIPInfo(context, &at_instruction) - !at_instruction;
  const uint8_t *table = _Unwind_GetLanguageSpecificData(context);
  if (table == NULL) return _URC_CONTINUE_UNWIND;
  frames_verdict told;
  switch (frames_c_verdict(_Unwind_GetRegionStart(context), (uintptr_t)table, table,
                           (size_t)(tables_end - table), look, ((exception *)header)->kind,
                           &told)) {
    case FRAMES_CONTINUE:
      return _URC_CONTINUE_UNWIND;
    case FRAMES_CLEANUP:
      if (searches) return _URC_CONTINUE_UNWIND;
      break;
    case FRAMES_HANDLER:
      if (searches) return _URC_HANDLER_FOUND;
      break;
    default:
      return searches ? _URC_FATAL_PHASE1_ERROR : _URC_FATAL_PHASE2_ERROR;
  }
  _Unwind_SetGR(context, __builtin_eh_return_data_regno(0), (uintptr_t)header);
  _Unwind_SetGR(context, __builtin_eh_return_data_regno(1), told.filter);
  _Unwind_SetIP(context, told.pad);
  return _URC_INSTALL_CONTEXT;
}

static int cleanups;
void note_cleanup(void) { cleanups++; }

/* Each calls `body`. `guarded` gives the filter of the handler that caught, else 0: it has one for
 * kind 0x1111 and one for 0x2222. `cleaned` notes its cleanup, and lets the exception go on. From
 * `sealed` nothing may go on, since no call site has its call. */
int guarded(void (*body)(void));
void cleaned(void (*body)(void));
void sealed(void (*body)(void));

/* clang-format off */
#define BEGIN(name)                            \
  ".globl " name "\n.type " name ",@function\n" name ":\n.cfi_startproc\n"  \
  ".cfi_personality 0x1b, of_kinds\n.cfi_lsda 0x1b, " name "_table\n"       \
  "pushq %rbx\n.cfi_def_cfa_offset 16\n.cfi_offset 3, -16\n"                \
  name "_call:\ncall *%rdi\n" name "_called:\n"
#define RETURN "popq %rbx\n.cfi_def_cfa_offset 8\nret\n.cfi_def_cfa_offset 16\n"
#define END(name) ".cfi_endproc\n" name "_end:\n.size " name ", .-" name "\n"
__asm__(
    ".text\n"
    BEGIN("guarded")
    "xorl %eax, %eax\n" RETURN
    "guarded_pad:\nmovl %edx, %eax\n" RETURN
    END("guarded")
    BEGIN("cleaned")
    RETURN
    "cleaned_pad:\nmovq %rax, %rbx\ncall note_cleanup\nmovq %rbx, %rdi\ncall _Unwind_Resume@PLT\n"
    END("cleaned")
    BEGIN("sealed")
    RETURN
    END("sealed")
    ".section .gcc_except_table, \"a\"\n"
    /* pads count from the function; types are eight bytes; call sites are in LEB128 */
    "guarded_table:\n.byte 0xff, 0x04\n.uleb128 guarded_types_end - 1f\n1:\n"
    ".byte 0x01\n.uleb128 3f - 2f\n2:\n"
    ".uleb128 guarded_call - guarded, guarded_called - guarded_call, guarded_pad - guarded, 1\n3:\n"
    /* filter 1, and then the next record; filter 2, and no other record */
    ".byte 1, 1, 2, 0\n"
    ".quad 0x2222, 0x1111\nguarded_types_end:\n"
    "cleaned_table:\n.byte 0xff, 0xff, 0x01\n.uleb128 3f - 2f\n2:\n"
    ".uleb128 cleaned_call - cleaned, cleaned_called - cleaned_call, cleaned_pad - cleaned, 0\n"
    /* from the pad on it goes on to the caller */
    ".uleb128 cleaned_pad - cleaned, cleaned_end - cleaned_pad, 0, 0\n3:\n"
    "sealed_table:\n.byte 0xff, 0xff, 0x01, 0x00\n"
    ".globl tables_end\ntables_end:\n"
    ".text\n");
/* clang-format on */

static exception thrown;
static _Unwind_Reason_Code came_back;

/* It comes back where nothing catches it, with the reason. */
static void throw_it(void) { came_back = _Unwind_RaiseException(&thrown.header); }
static void through_cleaned(void) { cleaned(throw_it); }
static void through_sealed(void) { sealed(through_cleaned); }

/* What `guarded` gives of an exception of a kind that is thrown below. */
static int caught(uint64_t kind, void (*body)(void)) {
  memset(&thrown, 0, sizeof thrown);
  thrown.kind = kind;
  came_back = _URC_NO_REASON;
  cleanups = 0;
  return guarded(body);
}

static int raised(void) {
  CHECK(caught(0x1111, through_cleaned) == 1 && cleanups == 1 && came_back == _URC_NO_REASON);
  CHECK(caught(0x2222, through_cleaned) == 2 && cleanups == 1 && came_back == _URC_NO_REASON);
  CHECK(caught(0x3333, through_cleaned) == 0 && cleanups == 0);
  CHECK(came_back == _URC_END_OF_STACK);
  CHECK(caught(0x1111, through_sealed) == 0 && cleanups == 0);
  CHECK(came_back == _URC_FATAL_PHASE1_ERROR);
  return 0;
}

int main(void) {
  int wrong = worked_out() || raised();
  if (!wrong) printf("personality: all as worked out\n");
  return wrong;
}
