/* Refuses each allocation of a test program in turn, in one run of it. `rt try --test --fail-alloc N` builds a program that
   counts its allocations and refuses the one whose number is N. Into such a program for the number MARK this is loaded
   first: at each comparison with MARK it forks, and the child goes on as the program for that allocation's number would.
   What the child prints goes to the file NUMBER.out in the folder that FOLDER names, and how it ended to the file `ends`
   there. x86-64 and Linux alone. For tests/refuse_each.py. */
#define _GNU_SOURCE
#include <errno.h>
#include <fcntl.h>
#include <link.h>
#include <stdint.h>
#include <stdio.h>
#include <stdlib.h>
#include <string.h>
#include <sys/mman.h>
#include <sys/wait.h>
#include <unistd.h>

enum { MARK = 100000, PAGE = 4096, SECONDS = 120 };

static const char *folder;
static int ends = -1;
/* The number of the allocation that this process refuses, or 0. */
static long refused;
static long forked, patched;

static void run_child(long number)
{
    char name[4096];
    refused = number;
    snprintf(name, sizeof name, "%s/%ld.out", folder, number);
    int out = open(name, O_CREAT | O_WRONLY | O_TRUNC, 0600);
    dup2(out, 1);
    dup2(out, 2);
    close(out);
    alarm(SECONDS);
}

/* Whether the allocation of this number is refused. */
int is_refused(long number)
{
    if (refused != 0)
        return number == refused;
    int error = errno;
    pid_t child = fork();
    if (child == 0) {
        run_child(number);
        return 1;
    }
    int status = 0;
    if (child < 0 || waitpid(child, &status, 0) < 0)
        dprintf(ends, "%ld lost 0\n", number);
    else if (WIFEXITED(status))
        dprintf(ends, "%ld exit %d\n", number, WEXITSTATUS(status));
    else
        dprintf(ends, "%ld signal %d\n", number, WTERMSIG(status));
    forked++;
    errno = error;
    return 0;
}

/* Asks is_refused about the number that stands below the return address, and leaves the flags of a comparison: equal where
   it is refused. All other registers are kept. */
extern char compare[];
__asm__(
    ".text\n.globl compare\n.hidden compare\ncompare:\n"
    "push %rcx\npush %rdx\npush %rsi\npush %rdi\npush %r8\npush %r9\npush %r10\npush %r11\npush %rbx\npush %rbp\n"
    "mov 88(%rsp), %rdi\n"
    "mov %rsp, %rbp\nand $-64, %rsp\nsub $512, %rsp\nfxsave64 (%rsp)\n"
    "call is_refused@plt\n"
    "mov %eax, %ebx\nfxrstor64 (%rsp)\nmov %rbp, %rsp\n"
    "cmp $1, %ebx\n"
    "pop %rbp\npop %rbx\npop %r11\npop %r10\npop %r9\npop %r8\npop %rdi\npop %rsi\npop %rdx\npop %rcx\n"
    "ret\n");

/* A page near the code, so that a jump of 32 bits reaches it. */
static unsigned char *page_near(unsigned char *code)
{
    for (uintptr_t far = 1 << 20; far < 1ul << 30; far += 1 << 20) {
        void *wanted = (void *)(((uintptr_t)code & -PAGE) - far);
        void *page = mmap(wanted, PAGE, PROT_READ | PROT_WRITE | PROT_EXEC,
                          MAP_PRIVATE | MAP_ANONYMOUS | MAP_FIXED_NOREPLACE, -1, 0);
        if (page != MAP_FAILED)
            return page;
    }
    abort();
}

/* In place of `cmp $MARK, %rax` a jump to a piece of code that calls compare and jumps back. */
static void patch(unsigned char *code)
{
    static const unsigned char before[] = {
        0x48, 0x8d, 0xa4, 0x24, 0x00, 0xff, 0xff, 0xff, /* lea -256(%rsp), %rsp: past the red zone */
        0x50,                                           /* push %rax */
        0x48, 0xb8,                                     /* movabs $compare, %rax */
    };
    static const unsigned char after[] = {
        0xff, 0xd0,                                     /* call *%rax */
        0x58,                                           /* pop %rax */
        0x48, 0x8d, 0xa4, 0x24, 0x00, 0x01, 0x00, 0x00, /* lea 256(%rsp), %rsp */
        0xe9,                                           /* jmp back */
    };
    unsigned char *page = page_near(code);
    unsigned char *end = mempcpy(page, before, sizeof before);
    void *target = compare;
    end = mempcpy(end, &target, sizeof target);
    end = mempcpy(end, after, sizeof after);
    int32_t back = (int32_t)(code + 6 - (end + 4));
    memcpy(end, &back, sizeof back);

    void *begin = (void *)((uintptr_t)code & -PAGE);
    mprotect(begin, 2 * PAGE, PROT_READ | PROT_WRITE | PROT_EXEC);
    int32_t there = (int32_t)(page - (code + 5));
    code[0] = 0xe9;
    memcpy(code + 1, &there, sizeof there);
    code[5] = 0x90;
    mprotect(begin, 2 * PAGE, PROT_READ | PROT_EXEC);
    patched++;
}

static void patch_part(unsigned char *begin, size_t length)
{
    static const int32_t mark = MARK;
    for (size_t i = 0; i + 6 <= length; i++)
        if (begin[i] == 0x48 && begin[i + 1] == 0x3d && memcmp(begin + i + 2, &mark, 4) == 0)
            patch(begin + i);
}

static int patch_program(struct dl_phdr_info *info, size_t size, void *data)
{
    (void)size, (void)data;
    for (int i = 0; i < info->dlpi_phnum; i++) {
        const ElfW(Phdr) *part = &info->dlpi_phdr[i];
        if (part->p_type == PT_LOAD && part->p_flags & PF_X)
            patch_part((unsigned char *)(info->dlpi_addr + part->p_vaddr), part->p_memsz);
    }
    return 1; /* the program is the first of the list */
}

__attribute__((constructor)) static void begin_refusing(void)
{
    char name[4096];
    folder = getenv("FOLDER");
    if (folder == NULL)
        return;
    snprintf(name, sizeof name, "%s/ends", folder);
    ends = open(name, O_CREAT | O_WRONLY | O_APPEND, 0600);
    dl_iterate_phdr(patch_program, NULL);
}

__attribute__((destructor)) static void end_refusing(void)
{
    if (folder != NULL && refused == 0)
        dprintf(ends, "places %ld numbers %ld\n", patched, forked);
}
