// The rows of the tests of cpp_types, asked of a C++ compiler: g++ -std=c++14 -fsyntax-only ranks.cc
template <class T> struct Id { using type = T; };
template <class T> T&& make();
struct Yes {}; struct No {};
template <class To> Yes take(typename Id<To>::type);
template <class From, class To> auto test(int) -> decltype(take<To>(make<From>()));
template <class From, class To> No test(...);
template <class A, class B> struct Same { static constexpr bool value = false; };
template <class A> struct Same<A, A> { static constexpr bool value = true; };
#define CONVERTS(FROM, TO) static_assert(Same<decltype(test<FROM, TO>(0)), Yes>::value, #FROM " to " #TO)
#define REFUSES(FROM, TO) static_assert(Same<decltype(test<FROM, TO>(0)), No>::value, #FROM " not to " #TO)
struct A {}; struct B : A {}; struct C : B {};
enum E { e }; enum class S { s };
using F = void(int, char*);
CONVERTS(const int&, int); CONVERTS(int (&)[3], int*); CONVERTS(F&, F*);
CONVERTS(int*, const int*); REFUSES(const int*, int*); REFUSES(int**, const int**); CONVERTS(int**, const int* const*);
CONVERTS(bool, int); CONVERTS(unsigned short, int); CONVERTS(unsigned, int); CONVERTS(short, long);
CONVERTS(E, int); CONVERTS(E, long); REFUSES(S, int); REFUSES(int, E);
CONVERTS(decltype(nullptr), int*); REFUSES(int, int*); CONVERTS(int*, bool); REFUSES(int*, int);
CONVERTS(C*, const A*); REFUSES(A*, C*); CONVERTS(const C&, C); CONVERTS(C&, B); REFUSES(B&, C);
CONVERTS(int&, int&); CONVERTS(int&, const volatile int&); REFUSES(const int&, int&); REFUSES(volatile int&, const int&);
REFUSES(int, int&); CONVERTS(int, const int&); REFUSES(int, const volatile int&); CONVERTS(int&, const long&); REFUSES(int&, long&);
CONVERTS(int (&)[3], const int (&)[3]); REFUSES(int (&)[3], int (&)[4]); CONVERTS(C&, A&); CONVERTS(C, const A&); REFUSES(C, A&);
// each rank once more with an example and a counterexample
CONVERTS(char, int); CONVERTS(signed char, int); CONVERTS(unsigned char, int); CONVERTS(short, int);
CONVERTS(char, unsigned); CONVERTS(long, int); CONVERTS(int, bool); CONVERTS(E, bool); REFUSES(S, bool);
CONVERTS(int, int); CONVERTS(decltype(nullptr), decltype(nullptr)); CONVERTS(E, E);
CONVERTS(int*, volatile int*); REFUSES(volatile int*, const int*); REFUSES(int*, long*);
CONVERTS(F*, F*); CONVERTS(decltype(nullptr), F*); REFUSES(bool, int*);
CONVERTS(B*, A*); REFUSES(const B*, A*); REFUSES(A&, C&);
CONVERTS(F&, F&); CONVERTS(int (&)[3], const int*); CONVERTS(int (&)[4][3], int (*)[3]); REFUSES(int (&)[4][3], int**); CONVERTS(int (&)[3], bool);
CONVERTS(int*&, const int* const&); REFUSES(int*&, const int*&);
void zero(F*); void check() { zero(0); }
// classes of lambdas that capture, so that none becomes a pointer to a function
int one, two; auto of(int n) { return [n] { return n; }; } auto with(int n) { return [n] { return n + 1; }; }
using L = decltype(of(1)); using M = decltype(with(1));
CONVERTS(L&, L); CONVERTS(L&, const L&); CONVERTS(L, const L&); REFUSES(L, L&); REFUSES(L, M); REFUSES(L, int); REFUSES(L, A); CONVERTS(L*, const L*); REFUSES(L*, M*);
// an exception as a class of its own for each type
template <class T> struct X { T value; };
CONVERTS(X<int>&, X<int>); CONVERTS(X<int>, const X<int>&); CONVERTS(X<int>&, X<int>&); REFUSES(const X<int>&, X<int>&); REFUSES(X<int>, X<long>); REFUSES(X<int>, int); REFUSES(X<C>&, const X<A>&);
// which overload is chosen: 1 for the first, 2 for the second, 0 for neither
template <int N> struct Is { char c[N]; };
#define CHOICE(NAME, P, Q) Is<1> NAME(P); Is<2> NAME(Q)
CHOICE(f1, int, long); static_assert(sizeof(f1('a')) == 1, "");
CHOICE(f3, int&, const int&); int i; static_assert(sizeof(f3(i)) == 1, "");
CHOICE(f5, B*, A*); C* c; static_assert(sizeof(f5(c)) == 1, "");
CHOICE(f6, A*, bool); static_assert(sizeof(f6(c)) == 1, "");
CHOICE(f7, B*, const B*); static_assert(sizeof(f7(c)) == 1, "");
CHOICE(f9, const B&, A&); C cc; static_assert(sizeof(f9(cc)) == 1, "");
CHOICE(f2, unsigned, long); CHOICE(f4, int, int&); CHOICE(f8, int*, const int*);
template <class T> auto calls2(T t, int) -> decltype(f2(t), Yes()); template <class T> No calls2(T, ...);
static_assert(Same<decltype(calls2(1, 0)), No>::value, "");
template <class T> auto calls4(T& t, int) -> decltype(f4(t), Yes()); template <class T> No calls4(T&, ...);
static_assert(Same<decltype(calls4(i, 0)), No>::value, "");
template <class T> auto calls8(T t, int) -> decltype(f8(t), Yes()); template <class T> No calls8(T, ...);
static_assert(Same<decltype(calls8(nullptr, 0)), No>::value, "");
