// The sizes, alignments and offsets that g++ gives to the classes of the tests of cpp_layout, in the order of their rows.
// Rows marked "differs" are printed, too: there the profile has other numbers, which stand beside the row.
//   1. An empty base takes its byte, and behind it come the members. (g++ gives it no bytes of its own.)
//   2. A member never stands in the padding of its base. (g++ puts it there, where the base is no plain C struct.)
//   3. A base stands at 0, and the class pointer behind it, where the base has none. (g++ puts the pointer first.)
//
//     g++ -std=c++14 -Wno-invalid-offsetof layouts.cc && ./a.out
#include <cstddef>
#include <cstdio>

template <class T> struct Exception { T value; };   // std::tx_exception<T> has the layout of T
enum Enum { enumerator };

struct A { char a; long b; char c; };
struct B { virtual void f(); char a; };
struct C {};
struct D { C a[3]; short b; };
struct E { long a; };
struct F : E { int a; };
struct G { A a[2]; char b; };
struct H : B { void f(); int a; };                  // differs (2): size 24, a at 16
struct I : C { char a; };                           // differs (1): size 2, a at 1
struct J : E { virtual void f(); char a; };         // the same numbers, but (3): its base at 0
struct K { char a; A& b; A* c; };
struct L { Exception<A> a; char b; };
struct M { bool a; Enum b; decltype(nullptr) c; };
struct N { C a; F b; short c; };
struct O : F { char a; };                           // differs (2): size 24, a at 16
struct P : H { long a; };                           // differs (2): size 32, a at 24
struct Q { char a[1048576]; };
struct R { long a; char b[1048568]; };
struct S : D { virtual void f(); char a; };         // differs (3): size 24, a at 16
struct T { short a[5]; Exception<C> b; unsigned char c[2][3]; };

void B::f() {}
void H::f() {}
void J::f() {}
void S::f() {}

#define ROW(T) std::printf(#T " size %zu align %zu", sizeof(T), alignof(T))
#define AT(T, M) std::printf(" " #M " %zu", offsetof(T, M))
#define END() std::printf("\n")

int main() {
    ROW(A); AT(A, a); AT(A, b); AT(A, c); END();
    ROW(B); AT(B, a); END();
    ROW(C); END();
    ROW(D); AT(D, a); AT(D, b); END();
    ROW(E); AT(E, a); END();
    ROW(F); AT(F, F::a); END();
    ROW(G); AT(G, a); AT(G, b); END();
    ROW(H); AT(H, H::a); END();
    ROW(I); AT(I, a); END();
    ROW(J); AT(J, J::a); END();
    ROW(K); AT(K, a); AT(K, c); END();              // offsetof takes no reference: c tells where b ends
    ROW(L); AT(L, a); AT(L, b); END();
    ROW(M); AT(M, a); AT(M, b); AT(M, c); END();
    ROW(N); AT(N, a); AT(N, b); AT(N, c); END();
    ROW(O); AT(O, O::a); END();
    ROW(P); AT(P, P::a); END();
    ROW(Q); AT(Q, a); END();
    ROW(R); AT(R, a); AT(R, b); END();
    ROW(S); AT(S, S::a); END();
    ROW(T); AT(T, a); AT(T, b); AT(T, c); END();
    // arrays of classes, and one byte more than the greatest object
    std::printf("A[3] size %zu, F[2] size %zu, C[7] size %zu, Q plus a char %zu\n", sizeof(A[3]), sizeof(F[2]), sizeof(C[7]), sizeof(Q) + 1);
}
