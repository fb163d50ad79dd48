// A stack while an exception is thrown: two frames with something to clean up, a handler in main.
#include <cstdio>
#include <stdexcept>
#include <string>

struct Noted {
    const char *name;
    explicit Noted(const char *given) : name(given) {}
    ~Noted() { std::puts(name); }
};

__attribute__((noinline)) static int number_of(const std::string &text)
{
    Noted noted("number_of");
    if (text.empty())
        throw std::invalid_argument("no text");
    return static_cast<int>(text.size());
}

__attribute__((noinline)) static int twice(const std::string &text)
{
    Noted noted("twice");
    return 2 * number_of(text);
}

int main(int count, char **)
{
    try {
        return twice(std::string(static_cast<std::size_t>(count - 1), 'x'));
    } catch (const std::exception &fault) {
        std::puts(fault.what());
        return 1;
    }
}
