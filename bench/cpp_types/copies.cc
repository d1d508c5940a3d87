// The rows of the tests of cpp_types on copies byte by byte, asked of a C++ compiler: g++ -std=c++14 -fsyntax-only copies.cc
// Not asked: volatile types and classes with a volatile member. By C++14 (3.9, 12.8) they are not copied byte by byte; g++ follows a
// later standard.
#define YES(...) static_assert(__is_trivially_copyable(__VA_ARGS__), "yes")
#define NO(...) static_assert(!__is_trivially_copyable(__VA_ARGS__), "no")
struct A { int m; }; struct AV { int m; virtual void f(); }; struct AD { int m; ~AD(); };
struct Plain { int m; }; struct Based : A { int m; }; struct Virtual { int m; virtual void f(); }; struct OnVirtual : AV { int m; };
struct Copied { int m; Copied(const Copied&); }; struct Moved { int m; Moved(Moved&); }; struct Made { int m; Made(int); }; struct MadeOf { int m; MadeOf(const A&); };
struct Destroyed { int m; ~Destroyed(); }; struct OnDestroyed : AD { int m; };
struct Holds { A m; }; struct HoldsDestroyed { AD m; }; struct HoldsThree { AD m[3]; }; struct Points { AD* m; }; struct PointsVolatile { volatile int* m; };
YES(Plain); YES(Based); NO(Virtual); NO(OnVirtual); NO(Copied); NO(Moved); YES(Made); YES(MadeOf); NO(Destroyed); NO(OnDestroyed);
YES(Holds); NO(HoldsDestroyed); NO(HoldsThree); YES(Points); YES(PointsVolatile);
enum E { e }; enum class S { s };
YES(Plain[4]); NO(Destroyed[4]); YES(Virtual*); YES(const Plain); YES(int); YES(const int); YES(E); YES(S); YES(decltype(nullptr)); YES(int[4][3]);
NO(void); NO(void(int)); YES(void (*)(int)); NO(Plain&);
