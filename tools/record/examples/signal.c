/* A stack with a signal frame. The function `stop` is interrupted at its first byte, so that the
   address before it belongs to no function; the handler waits on a stack of its own. */
#include <signal.h>
#include <stddef.h>
#include <unistd.h>

static char other_stack[16384] __attribute__((aligned(16)));

static void wait_here(int number)
{
    (void)number;
    pause();
}

__attribute__((noinline, noreturn, aligned(16))) static void stop(void)
{
    __builtin_trap();
}

__attribute__((noinline)) static int descend(int depth)
{
    volatile int kept[4] = { depth, depth, depth, depth };
    if (depth == 0)
        stop();
    return descend(depth - 1) + kept[depth & 3];
}

int main(void)
{
    stack_t stack = { .ss_sp = other_stack, .ss_size = sizeof other_stack };
    struct sigaction action = { .sa_handler = wait_here, .sa_flags = SA_ONSTACK };
    if (sigaltstack(&stack, NULL) != 0 || sigaction(SIGILL, &action, NULL) != 0)
        return 1;
    return descend(3);
}
