/* A stack without frame pointers and without symbols: the comparison that the library's qsort
   calls ends the program, which leaves a core file. */
#include <stdlib.h>

enum { COUNT = 64 };

__attribute__((noinline)) static int compared(const void *left, const void *right)
{
    int a = *(const int *)left, b = *(const int *)right;
    if (a == COUNT / 2 || b == COUNT / 2)
        abort();
    return (a > b) - (a < b);
}

__attribute__((noinline)) static int sorted_least(int depth)
{
    int numbers[COUNT];
    for (int i = 0; i < COUNT; i++)
        numbers[i] = (i * 29 + depth) % COUNT;
    if (depth > 0)
        return sorted_least(depth - 1) + numbers[depth];
    qsort(numbers, COUNT, sizeof numbers[0], compared);
    return numbers[0];
}

int main(void)
{
    return sorted_least(3);
}
