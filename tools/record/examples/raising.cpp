// Stacks while an exception is thrown: what becomes of it is said by the word of the command line.
//   caught      through two frames with something to clean up and one that catches another type
//   terminated  through a function that lets nothing pass, below one that would catch it
//   uncaught    nobody catches it
#include <cstdio>
#include <cstring>

struct Noted {
    const char *name;
    explicit Noted(const char *given) : name(given) {}
    ~Noted() { std::puts(name); }
};

struct Missing {};
struct Broken { int code; };

__attribute__((noinline)) static int number_of(const char *word)
{
    Noted noted("number_of");
    if (std::strlen(word) > 3)
        throw Broken{7};
    return static_cast<int>(std::strlen(word));
}

__attribute__((noinline)) static int passed_on(const char *word)
{
    try {
        return 1 + number_of(word);
    } catch (const Missing &) {
        std::puts("missing");
        return 0;
    }
}

__attribute__((noinline)) static int cleaned_up(const char *word)
{
    Noted noted("cleaned_up");
    return 2 * passed_on(word);
}

__attribute__((noinline)) static int without_faults(const char *word) noexcept
{
    return 3 + cleaned_up(word);
}

__attribute__((noinline)) static int caught(const char *word, bool guarded)
{
    try {
        return guarded ? without_faults(word) : cleaned_up(word);
    } catch (const Missing &) {
        return 1;
    } catch (const Broken &fault) {
        std::puts("broken");
        return fault.code;
    }
}

int main(int count, char **words)
{
    const char *word = count > 1 ? words[1] : "";
    if (std::strcmp(word, "uncaught") == 0)
        return cleaned_up(word);
    return caught(word, std::strcmp(word, "terminated") == 0);
}
