// What g++ needs beside a program of generate.py. In one thread a block of the TS is a compound statement; an atomic_cancel block that an
// exception leaves puts the globals back, which are all that such a block of these programs writes outside itself.
#include <cstdio>
#include <cstring>
#include <exception>
namespace std {
template <class T>
class tx_exception {
    T value;
public:
    explicit tx_exception(T v) : value(v) { }
    T get() const { return value; }
};
}
struct Saver {
    void* at;
    unsigned long size;
    char bytes[4096];
    bool before;
    Saver(void* a, unsigned long s) : at(a), size(s), before(std::uncaught_exception()) { std::memcpy(bytes, at, size); }
    ~Saver() { if (std::uncaught_exception() && !before) std::memcpy(at, bytes, size); }
    explicit operator bool() const { return true; }
};
#define synchronized
#define atomic_noexcept
#define atomic_commit
#define atomic_cancel if (Saver saver{&g, sizeof g})
#define transaction_safe
