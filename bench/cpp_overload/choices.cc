// The calls of the tests of cpp_overload, asked of a C++ compiler: g++ -std=c++14 -fsyntax-only choices.cc
template <int N> struct Is { char c[N]; };
struct No {};
template <class A, class B> struct Same { static constexpr bool value = false; };
template <class A> struct Same<A, A> { static constexpr bool value = true; };
// The circle is asked by pairs: all three at once, g++ 12 takes the call, though none is best.
int i;
Is<1> f(int&, int, const int&); Is<2> f(const int&, int&, int); static_assert(sizeof(f(i, i, i)) == 1, "0 before 1");
Is<1> g(const int&, int&, int); Is<2> g(int, const int&, int&); static_assert(sizeof(g(i, i, i)) == 1, "1 before 2");
Is<1> h(int, const int&, int&); Is<2> h(int&, int, const int&); static_assert(sizeof(h(i, i, i)) == 1, "2 before 0");
Is<1> p(long); Is<2> p(int);
static_assert(sizeof(p('a')) == 2, "a char is promoted");
template <class T> auto call(T t, int) -> decltype(p(t)); template <class T> No call(T, ...);
static_assert(Same<decltype(call(1u, 0)), No>::value, "ambiguous");
static_assert(Same<decltype(call(nullptr, 0)), No>::value, "not viable");
struct S { Is<1> g(int) const; Is<2> g(int); };
static_assert(sizeof(S().g(1)) == 2, "a prvalue may be the object");
