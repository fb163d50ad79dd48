/* A program with two threads that wait inside of generated code, which gdb was told of (its manual,
   'JIT Interface'): a function with a frame pointer that calls the function it is given. The ELF
   image for gdb stands in memory, and its sections have the addresses at which they lie. */
#define _GNU_SOURCE
#include <elf.h>
#include <pthread.h>
#include <stddef.h>
#include <stdint.h>
#include <string.h>
#include <sys/mman.h>
#include <unistd.h>

enum { NO_ACTION, REGISTER_ACTION };

struct jit_code_entry {
    struct jit_code_entry *next_entry, *prev_entry;
    const char *symfile_addr;
    uint64_t symfile_size;
};

struct jit_descriptor {
    uint32_t version, action_flag;
    struct jit_code_entry *relevant_entry, *first_entry;
};

struct jit_descriptor __jit_debug_descriptor = { 1, NO_ACTION, NULL, NULL };

__attribute__((noinline)) void __jit_debug_register_code(void)
{
    __asm__ volatile("" ::: "memory");
}

/* push rbp; mov rbp, rsp; call rdi; pop rbp; ret */
static const unsigned char call_code[] = { 0x55, 0x48, 0x89, 0xe5, 0xff, 0xd7, 0x5d, 0xc3 };

/* a CIE and an FDE as GCC writes them for this code, but that pointers are absolute; the FDE's
   first address stands at 36 and its length at 44 */
static const unsigned char frames[] = {
    0x18, 0, 0, 0, 0, 0, 0, 0, 1, 'z', 'R', 0, 1, 0x78, 0x10, 1, 0, 0x0c, 7, 8, 0x90, 1,
    0, 0, 0, 0, 0, 0,
    0x24, 0, 0, 0, 0x20, 0, 0, 0, 0, 0, 0, 0, 0, 0, 0, 0, 0, 0, 0, 0, 0, 0, 0, 0,
    0, 0x41, 0x0e, 0x10, 0x86, 2, 0x43, 0x0d, 6, 0x43, 0x0c, 7, 8, 0, 0, 0,
    0, 0, 0, 0
};
enum { FIRST_ADDRESS = 36, LENGTH = 44 };

static const char names[] = "\0.text\0.eh_frame\0.strtab\0.symtab\0call_it";
enum { TEXT = 1, EH_FRAME = 7, STRTAB = 17, SYMTAB = 25, CALL_IT = 33 };

struct image {
    Elf64_Ehdr header;
    Elf64_Shdr sections[5];
    Elf64_Sym symbols[2];
    unsigned char frames[sizeof frames];
    char names[sizeof names];
};

static struct image image;
static struct jit_code_entry entry;

static Elf64_Shdr section(uint32_t name, uint32_t type, uint64_t flags, const void *at, uint64_t size)
{
    Elf64_Shdr found = { .sh_name = name, .sh_type = type, .sh_flags = flags, .sh_size = size };
    found.sh_addr = flags & SHF_ALLOC ? (uint64_t)at : 0;
    found.sh_offset = type == SHT_NOBITS ? 0 : (uint64_t)((const char *)at - (const char *)&image);
    found.sh_addralign = 1;
    return found;
}

static void tell_gdb(const unsigned char *code)
{
    uint64_t first = (uint64_t)code, length = sizeof call_code;
    memcpy(image.frames, frames, sizeof frames);
    memcpy(image.frames + FIRST_ADDRESS, &first, 8);
    memcpy(image.frames + LENGTH, &length, 8);
    memcpy(image.names, names, sizeof names);
    memcpy(image.header.e_ident, ELFMAG, SELFMAG);
    image.header.e_ident[EI_CLASS] = ELFCLASS64;
    image.header.e_ident[EI_DATA] = ELFDATA2LSB;
    image.header.e_ident[EI_VERSION] = EV_CURRENT;
    image.header.e_type = ET_REL;
    image.header.e_machine = EM_X86_64;
    image.header.e_version = EV_CURRENT;
    image.header.e_shoff = offsetof(struct image, sections);
    image.header.e_ehsize = sizeof(Elf64_Ehdr);
    image.header.e_shentsize = sizeof(Elf64_Shdr);
    image.header.e_shnum = 5;
    image.header.e_shstrndx = 3;
    image.sections[1] = section(TEXT, SHT_NOBITS, SHF_ALLOC | SHF_EXECINSTR, code, length);
    image.sections[2] = section(EH_FRAME, SHT_PROGBITS, SHF_ALLOC, image.frames, sizeof frames);
    image.sections[3] = section(STRTAB, SHT_STRTAB, 0, image.names, sizeof names);
    image.sections[4] = section(SYMTAB, SHT_SYMTAB, 0, image.symbols, sizeof image.symbols);
    image.sections[4].sh_entsize = sizeof(Elf64_Sym);
    image.sections[4].sh_link = 3;
    image.sections[4].sh_info = 1;
    image.symbols[1].st_name = CALL_IT;
    image.symbols[1].st_info = ELF64_ST_INFO(STB_GLOBAL, STT_FUNC);
    image.symbols[1].st_shndx = 1;
    image.symbols[1].st_size = length;
    entry.symfile_addr = (const char *)&image;
    entry.symfile_size = sizeof image;
    __jit_debug_descriptor.first_entry = __jit_debug_descriptor.relevant_entry = &entry;
    __jit_debug_descriptor.action_flag = REGISTER_ACTION;
    __jit_debug_register_code();
}

static void wait_here(void)
{
    for (;;)
        pause();
}

typedef void calling(void (*)(void));

static void *other_thread(void *code)
{
    ((calling *)code)(wait_here);
    return NULL;
}

int main(void)
{
    unsigned char *code = mmap(NULL, 4096, PROT_READ | PROT_WRITE | PROT_EXEC,
                               MAP_PRIVATE | MAP_ANONYMOUS, -1, 0);
    pthread_t thread;
    if (code == MAP_FAILED)
        return 1;
    memcpy(code, call_code, sizeof call_code);
    tell_gdb(code);
    if (pthread_create(&thread, NULL, other_thread, code) != 0)
        return 1;
    ((calling *)code)(wait_here);
}
