// Writes crates/tx_ints/src/tests/compiler.rt: what g++ answers for the operators and conversions of integers.
//
//   g++ -std=c++14 -O0 -fsanitize=undefined -fsanitize-undefined-trap-on-error -o table table.cc && ./table > compiler.rt
//
// An operation that C++14 leaves undefined stops in the compiler's own checks. Which of the three traps it is follows
// from its operands: a divisor of 0, a count that is no count, and else an overflow.
#include <csetjmp>
#include <csignal>
#include <cstdio>
#include <limits>
#include <string>
#include <vector>

typedef __int128 wide;

static sigjmp_buf place;

static void stopped(int) { siglongjmp(place, 1); }

static std::string spell(wide v) {
  if (v < 0) return "-" + spell(-v);
  std::string digits;
  do digits.insert(digits.begin(), char('0' + int(v % 10))), v /= 10; while (v != 0);
  return digits;
}

template <class T> struct Name;
#define KIND(TYPE, NAME) \
  template <> struct Name<TYPE> { static const char* get() { return NAME; } };
KIND(bool, "Bool") KIND(char, "Char") KIND(signed char, "SChar") KIND(unsigned char, "UChar")
KIND(short, "Short") KIND(unsigned short, "UShort") KIND(int, "Int") KIND(unsigned int, "UInt")
KIND(long, "Long") KIND(unsigned long, "ULong") KIND(long long, "LLong") KIND(unsigned long long, "ULLong")

// the answer of an operation, or its trap
template <class F> static std::string answer(F operation, const char* trap) {
  if (sigsetjmp(place, 1) != 0) return trap;
  volatile auto value = operation();
  return spell(wide(value));
}

template <class T> static void row(T left, T right) {
  volatile T a = left, b = right;
  const char* divides = right == 0 ? "DivideByZero" : "Overflow";
  std::string answers[] = {
    answer([&] { return a + b; }, "Overflow"), answer([&] { return a - b; }, "Overflow"),
    answer([&] { return a * b; }, "Overflow"), answer([&] { return a / b; }, divides),
    answer([&] { return a % b; }, divides), answer([&] { return a & b; }, "none"),
    answer([&] { return a ^ b; }, "none"), answer([&] { return a | b; }, "none"),
    answer([&] { return a < b; }, "none"), answer([&] { return a > b; }, "none"),
    answer([&] { return a <= b; }, "none"), answer([&] { return a >= b; }, "none"),
    answer([&] { return a == b; }, "none"), answer([&] { return a != b; }, "none"),
  };
  std::printf("%s %s %s", Name<T>::get(), spell(left).c_str(), spell(right).c_str());
  for (const std::string& one : answers) std::printf(" %s", one.c_str());
  std::printf("\n");
}

template <class T, class C> static void shift(T left, C count) {
  volatile T a = left;
  volatile C b = count;
  bool counts = count >= 0 && wide(count) < std::numeric_limits<T>::digits + std::numeric_limits<T>::is_signed;
  const char* trap = counts ? "Overflow" : "ShiftRange";
  std::string up = answer([&] { return a << b; }, trap), down = answer([&] { return a >> b; }, trap);
  std::printf("%s %s %s %s %s\n", Name<T>::get(), spell(left).c_str(), spell(count).c_str(), up.c_str(), down.c_str());
}

template <class T> static std::vector<T> edges() {
  T least = std::numeric_limits<T>::min(), greatest = std::numeric_limits<T>::max();
  if (std::numeric_limits<T>::is_signed) return {least, T(least + 1), T(-1), 0, 1, greatest};
  return {0, 1, T(greatest / 2 + 1), T(greatest - 1), greatest};
}

template <class T> static void rows() {
  for (T a : edges<T>()) for (T b : edges<T>()) row<T>(a, b);
  row<T>(T(-7), T(2));
  row<T>(T(7), T(-2));
  row<T>(T(-7), T(-2));
  row<T>(T(46341), T(46341));
  row<T>(T(3037000500LL), T(3037000500LL));
  row<T>(T(1311768467463790320LL), T(-81985529216486896LL));
}

template <class T> static void shifts() {
  int width = std::numeric_limits<T>::digits + std::numeric_limits<T>::is_signed;
  for (T a : edges<T>()) {
    for (int count : {-1, 0, 1, width - 2, width - 1, width}) shift<T, int>(a, count);
    shift<T, unsigned long>(a, std::numeric_limits<unsigned long>::max());
  }
  shift<T, long>(T(-5), 1);
  shift<T, long>(T(3), width - 1);
  shift<T, long>(T(3), width - 2);
}

template <class T> static void negations() {
  for (T a : edges<T>()) {
    volatile T b = a;
    std::printf("%s %s %s\n", Name<T>::get(), spell(a).c_str(), answer([&] { return -b; }, "Overflow").c_str());
  }
}

static void conversion(wide v) {
  std::printf("%s", spell(v).c_str());
  for (wide answer : {wide(bool(v)), wide(char(v)), wide((signed char)v), wide((unsigned char)v), wide(short(v)),
                      wide((unsigned short)v), wide(int(v)), wide((unsigned int)v), wide(long(v)), wide((unsigned long)v),
                      wide((long long)v), wide((unsigned long long)v)})
    std::printf(" %s", spell(answer).c_str());
  std::printf("\n");
}

template <class A, class B> static void common() { std::printf(" %s", Name<decltype(A() + B())>::get()); }

// a kind, what it is promoted to, and its common kind with each kind
template <class A> static void kinds() {
  std::printf("%s %s", Name<A>::get(), Name<decltype(+A())>::get());
  common<A, bool>(), common<A, char>(), common<A, signed char>(), common<A, unsigned char>();
  common<A, short>(), common<A, unsigned short>(), common<A, int>(), common<A, unsigned int>();
  common<A, long>(), common<A, unsigned long>(), common<A, long long>(), common<A, unsigned long long>();
  std::printf("\n");
}

static void table(const char* doc, const char* name) { std::printf("\n/// %s\npub const %s: &str = \"\\\n", doc, name); }

static void end() { std::printf("\";\n"); }

int main() {
  std::signal(SIGILL, stopped);
  std::signal(SIGTRAP, stopped);
  std::signal(SIGFPE, stopped);
  std::printf("//! What g++ %s for x86-64 answers with `-std=c++14`, as bench/tx_ints/table.cc asks it.\n", __VERSION__);
  table("A kind, what it is promoted to, and its common kind with each of the kinds.", "KINDS");
  kinds<bool>(), kinds<char>(), kinds<signed char>(), kinds<unsigned char>(), kinds<short>(), kinds<unsigned short>();
  kinds<int>(), kinds<unsigned int>(), kinds<long>(), kinds<unsigned long>(), kinds<long long>(), kinds<unsigned long long>();
  end();
  table("A number, and what it converts to in each of the kinds.", "CONVERSIONS");
  wide one = 1;
  for (wide v : {-(one << 64), -(one << 64) + 1, -(one << 63) - 1, -(one << 63), -(one << 32), -(one << 31) - 1, -(one << 31),
                 wide(-40000), wide(-32769), wide(-32768), wide(-200), wide(-129), wide(-128), wide(-1), wide(0), wide(1), wide(2),
                 wide(127), wide(128), wide(200), wide(255), wide(256), wide(32767), wide(32768), wide(65535), wide(65536),
                 (one << 31) - 1, one << 31, (one << 32) - 1, one << 32, (one << 63) - 1, one << 63, (one << 64) - 1, one << 64,
                 (one << 65) - 1, one << 65})
    conversion(v);
  end();
  table("A kind, a number of it, and the answer of the unary `-`.", "NEGATIONS");
  negations<int>(), negations<unsigned int>(), negations<long>(), negations<unsigned long>();
  negations<long long>(), negations<unsigned long long>();
  end();
  table("A kind, a number of it, a count, and the answers of `<<` and `>>`.", "SHIFTS");
  shifts<int>(), shifts<unsigned int>(), shifts<long>(), shifts<unsigned long>();
  shifts<long long>(), shifts<unsigned long long>();
  end();
  table("A kind, two numbers of it, and the answers of `+ - * / % & ^ | < > <= >= == !=`.", "OPERATORS");
  rows<int>(), rows<unsigned int>(), rows<long>(), rows<unsigned long>(), rows<long long>(), rows<unsigned long long>();
  end();
}
