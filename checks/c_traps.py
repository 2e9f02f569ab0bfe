"""Pairs of changes that a careless bridge between C and hpr would merge, or couldn't: rows for checks/c_merges.

Each is a name, what is to come of it, a base, and what ours and theirs put in place of what. `kept` is a merge of which nothing is said. `not kept` is
a conflict, or a merge of lines that is told as unverified. Any other word stands in the reason for which a function is unchecked.
"""

TRAPS = [
    ("an array grows, the other fills more", "not kept", """
long f(const int *a, int n)
{
    int b[8];
    long s = 0;
    for (int i = 0; i < n; i++)
        b[i % 8] = a[i];
    for (int i = 0; i < n; i++)
        s += b[i % 8];
    return s;
}
""", [("int b[8]", "int b[9]")], [("b[i % 8] = a[i]", "b[i % 9] = a[i]")]),
    ("another type of a variable", "not kept", """
long f(int n)
{
    int s = n;
    int t = 3;
    t = t * n;
    s = s + 1;
    return s;
}
""", [("int s = n", "unsigned char s = n")], [("s = s + 1", "s = s + t")]),
    ("a helper changes, the other calls it more", "not kept", """
static long half(long x)
{
    return x / 2;
}
long g;
long f(long n)
{
    long a = half(n);
    long b = n;
    g = b;
    return a;
}
""", [("x / 2", "x / 3")], [("return a", "return a + half(b)")]),
    ("a helper's parameters change places", "not kept", """
static long over(long x, long y)
{
    return x - y;
}
long g;
long f(long n)
{
    long a = 7;
    g = over(n, a);
    return a;
}
""", [("long x, long y", "long y, long x")], [("g = over(n, a);", "g = over(n, a);\n    a = over(a, 2);")]),
    ("a macro changes, the other uses it", "not kept", """
#define RATE 19
long g;
long f(long n)
{
    long a = n * RATE;
    long b = n;
    g = b;
    return a;
}
""", [("RATE 19", "RATE 20")], [("long b = n", "long b = n * RATE")]),
    ("a macro with an argument changes, the other uses it", "not kept", """
#define TIMES(x) ((x) * 2)
long g;
long f(long n)
{
    long a = TIMES(n);
    long b = n;
    g = b;
    return a;
}
""", [("* 2", "* 3")], [("g = b", "g = TIMES(b)")]),
    ("pointers that may be equal", "not kept", """
void f(int *p, int *q, int *r, int n)
{
    p[0] = n;
    r[1] = 4;
    r[0] = n;
}
""", [("p[0] = n", "p[0] = n + 1")], [("r[0] = n", "r[0] = q[0]")]),
    ("restricted pointers aren't equal", "kept", """
void f(int *restrict p, int *restrict q, int *restrict r, int n)
{
    p[0] = n;
    r[1] = 4;
    r[0] = n;
}
""", [("p[0] = n", "p[0] = n + 1")], [("r[0] = n", "r[0] = q[0]")]),
    ("a restriction goes", "not kept", """
int f(int *restrict p, int *restrict q, int n)
{
    int t = 0;
    p[0] = n;
    t = n;
    return t;
}
""", [("int *restrict p, int *restrict q", "int *p, int *q"), ("p[0] = n", "p[0] = n + 1")], [("t = n", "t = q[0]")]),
    ("a pointer to a global", "not kept", """
int g;
int f(int *p, int n)
{
    int t = 1;
    p[0] = n;
    t = t + n;
    return t;
}
""", [("p[0] = n", "p[0] = n + 1")], [("return t", "return t + g")]),
    ("a pointer to characters reaches a global", "not kept", """
int g;
int f(unsigned char *p, int n)
{
    int t = 1;
    p[0] = n;
    t = t + n;
    return t;
}
""", [("p[0] = n", "p[0] = n + 1")], [("return t", "return t + g")]),
    ("a member by an arrow and by an index", "not kept", """
struct s { int x; int y; };
int f(struct s *p, int n)
{
    int t = 1;
    p->x = n;
    t = t + n;
    t = t * 2;
    return t + p[n].y;
}
""", [("p->x = n", "p->x = n + 1")], [("t = t * 2", "t = t * p[n - n].x")]),
    ("a member by an arrow and by an index of a restricted pointer", "not kept", """
struct s { int x; int y; };
int f(struct s *restrict p, int n)
{
    int t = 1;
    p->x = n;
    t = t + n;
    t = t * 2;
    return t + p[n].y;
}
""", [("p->x = n", "p->x = n + 1")], [("t = t * 2", "t = t * p[n - n].x")]),
    ("two names of one variable", "access to h", """
long g;
extern long h __attribute__((alias("g")));
long f(long n)
{
    long t = 1;
    g = n;
    t = t + n;
    t = t + 1;
    return t + h;
}
""", [("g = n", "g = n + 1")], [("t = t + 1", "t = t + 2 * h")]),
    ("a pointer to arrays whose size is a value", "type int", """
int f(int n, int m[][n])
{
    int t = 1;
    m[1][0] = n;
    t = t + n;
    n = n + 1;
    return t + m[0][0];
}
""", [("m[1][0] = n", "m[1][0] = n + 1")], [("n = n + 1", "n = n + 2")]),
    ("a size in the parameters that changes one", "parameters", """
int f(int n, int m[n++])
{
    int t = 1;
    m[1] = n;
    t = t + n;
    n = n + 1;
    return t + m[0];
}
""", [("m[1] = n", "m[1] = n + 1")], [("n = n + 1", "n = n + 2")]),
    ("a variable in a register by its name", "variable of type", """
int f(int n)
{
    register int t asm("eax");
    t = n;
    n = t + n;
    n = n + 1;
    return t + n;
}
""", [("t = n", "t = n + 1")], [("n = n + 1", "n = n + 2")]),
    ("a constant of floating point in its last digit", "not kept", """
double g;
double f(double n)
{
    double t = n * 1.0;
    double u = n;
    g = u;
    return t;
}
""", [("1.0", "1.0000000000000002")], [("u = n", "u = n * 1.0"), ("return t", "return t + u")]),
    ("two members of one structure", "kept", """
struct acc { long sum; int n; };
void f(struct acc *p, int v)
{
    p->sum += v;
    p->n++;
    if (v > 9)
        p->n += 2;
}
""", [("p->sum += v", "p->sum += 2 * v")], [("p->n += 2", "p->n += 3")]),
    ("one member by two pointers", "not kept", """
struct acc { long sum; int n; };
long f(struct acc *p, struct acc *q, int v)
{
    long t = 0;
    p->sum += v;
    q->n = v;
    t = q->n;
    return t;
}
""", [("p->sum += v", "p->sum += 2 * v")], [("t = q->n", "t = q->sum")]),
    ("an array in a structure grows", "not kept", """
struct s { int a[4]; int n; };
int f(struct s *p, int n)
{
    int t = n;
    p->a[n % 4] = n;
    t = t + 1;
    return t + p->a[0];
}
""", [("int a[4]", "int a[2]"), ("n % 4", "n % 2")], [("t = t + 1", "t = t + p->a[3]")]),
    ("bits of a structure", "member", """
struct s { unsigned a : 3; unsigned b : 5; };
unsigned f(struct s *p, int n)
{
    p->a = n;
    n = n + 1;
    p->b = n;
    return p->b;
}
""", [("p->a = n", "p->a = n + 1")], [("p->b = n", "p->b = n + 2")]),
    ("a union", "member", """
union u { int i; float f; };
float f(union u *p, int n)
{
    p->i = n;
    n = n + 1;
    p->f = n;
    return p->f;
}
""", [("p->i = n", "p->i = n + 1")], [("p->f = n", "p->f = n + 2")]),
    ("a name that hides another", "hides a variable", """
int f(int n)
{
    int t = 1;
    int u = n;
    u = u * 2;
    {
        t = t + 2;
    }
    return t + u;
}
""", [("{\n        t = t", "{\n        int t = 7;\n        t = t")], [("int u = n", "int u = n + t")]),
    ("a table changes, the other reads it", "not kept", """
static const int table[3] = {1, 2, 3};
long g;
long f(int n)
{
    long a = table[n % 3];
    long b = n;
    g = b;
    return a;
}
""", [("{1, 2, 3}", "{1, 2, 4}")], [("long b = n", "long b = table[0]")]),
    ("a table that is declared first, and that has a macro in it", "not kept", """
#define LAST 3
extern const int table[3];
const int table[3] = {1, 2, LAST};
long g;
long f(int n)
{
    long a = table[n % 3];
    long b = n;
    g = b;
    return a;
}
""", [("LAST 3", "LAST 4")], [("long b = n", "long b = table[0]")]),
    ("an enumerator comes in", "not kept", """
enum color { RED, GREEN, BLUE };
long g;
long f(int n)
{
    long a = n + BLUE;
    long b = n;
    g = b;
    return a;
}
""", [("RED, GREEN", "RED, YELLOW, GREEN")], [("long b = n", "long b = BLUE")]),
    ("a defined type becomes another", "not kept", """
typedef long count;
long g;
long f(int n)
{
    count a = n;
    int b = n;
    g = b;
    return a * a;
}
""", [("typedef long", "typedef short")], [("g = b", "g = b + a")]),
    ("the size of an array that grows", "not kept", """
long g;
long f(int n)
{
    int b[8];
    b[n % 8] = n;
    g = n;
    return b[0];
}
""", [("int b[8]", "int b[9]")], [("g = n", "g = n + sizeof b")]),
    ("the size of a structure", "sizeof", """
struct s { int a; };
long g;
long f(int n)
{
    long b = sizeof(struct s);
    g = n;
    return b;
}
""", [("long b = sizeof", "long b = 1 + sizeof")], [("g = n", "g = n + 1")]),
    ("parameters change places", "kept", """
int f(int a, int b)
{
    int s = 0;
    int t = 0;
    s = a + b;
    t = a;
    return s;
}
""", [("int a, int b", "int b, int a"), ("int t = 0", "int t = 2")], [("a + b", "a - b")]),
    ("parameters change places in both", "not kept", """
int f(int a, int b, int c)
{
    int s = 0;
    int t = 0;
    s = a + b;
    t = a;
    return s;
}
""", [("int a, int b, int c", "int b, int a, int c"), ("int t = 0", "int t = 2")],
     [("int a, int b, int c", "int a, int c, int b"), ("a + b", "a - b")]),
    ("the result gets another type", "not kept", """
long f(int n)
{
    long s = n;
    s = s * 1000;
    s = s + 1;
    return s;
}
""", [("long f(", "short f(")], [("s = s * 1000", "s = s * 100000")]),
    ("a parameter loses its sign", "not kept", """
long g;
int f(int n)
{
    int s = 0;
    if (n > -1)
        s = 1;
    g = s;
    return s;
}
""", [("int f(int n)", "int f(unsigned n)")], [("g = s", "g = n < -1")]),
    ("a break comes in, the other counts behind it", "not kept", """
long g;
long f(const int *a, int n)
{
    long s = 0;
    for (int i = 0; i < n; i++) {
        s += a[i];
        g = i;
    }
    return s;
}
""", [("s += a[i];", "if (a[i] < 0)\n            break;\n        s += a[i];")], [("g = i", "g = 2 * i")]),
    ("a continue comes in, the other counts behind it", "not kept", """
long g;
long f(const int *a, int n)
{
    long s = 0;
    for (int i = 0; i < n; i++) {
        s += a[i];
        g = i;
    }
    return s;
}
""", [("s += a[i];", "if (a[i] < 0)\n            continue;\n        s += a[i];")], [("g = i", "g = 2 * i")]),
    ("a return comes in, the other stores behind it", "not kept", """
long g;
long f(int n)
{
    long s = n;
    s = s * 2;
    g = s;
    return s;
}
""", [("s = s * 2;", "s = s * 2;\n    if (n < 0)\n        return 0;")], [("g = s", "g = s + 1")]),
    ("another condition at a loop's end, the other adds up in it", "not kept", """
long f(int n)
{
    long s = 0;
    long t = 1;
    do {
        s += n;
        n--;
        t = 2;
    } while (n > 0);
    return s;
}
""", [("n > 0", "n > 3")], [("s += n", "s += 2 * n")]),
    ("both write", "not kept", """
int printf(const char *, ...);
int f(int n)
{
    int a = n;
    int b = 2;
    a = a * 3;
    b = b + 1;
    return a;
}
""", [("int b = 2;", "int b = 2;\n    printf(\"%d\\n\", n);")], [("return a", "printf(\"%d\\n\", a);\n    return a")]),
    ("a volatile object", "volatile", """
volatile int v;
long g;
int f(int n)
{
    int a = v;
    int b = v;
    g = b;
    return a;
}
""", [("int a = v", "int a = v + 1")], [("g = b", "g = b + 1")]),
    ("a type that hides volatile", "volatile", """
typedef volatile int device;
device v;
long g;
int f(int n)
{
    int a = v;
    int b = v;
    g = b;
    return a;
}
""", [("int a = v", "int a = v + 1")], [("g = b", "g = b + 1")]),
    ("lines of the preprocessor", "preprocessor", """
long g;
int f(int n)
{
    int a = n;
    int b = 2;
#ifdef DEEP
    a = 7;
#endif
    g = b;
    return a;
}
""", [("a = 7", "a = 8")], [("g = b", "g = b + 1")]),
    ("a line of the preprocessor behind a comment", "preprocessor", """
long g;
int f(int n)
{
    int a = n; /* "#" */
    int b = 2;
/* only */ #ifdef DEEP
    a = 7;
/* if deep */ #endif
    g = b;
    return a;
}
""", [("a = 7", "a = 8")], [("g = b", "g = b + 1")]),
    ("a static variable", "declaration of s", """
int f(int n)
{
    static int s;
    int t = n;
    s = s + 1;
    t = t + 2;
    return s + t;
}
""", [("s = s + 1", "s = s + 2")], [("t = t + 2", "t = t + 3")]),
    ("a variable array", "type int[n]", """
int f(int n)
{
    int a[n];
    int t = n;
    a[0] = t;
    t = t + 2;
    return a[0] + t;
}
""", [("a[0] = t", "a[0] = t + 1")], [("t = t + 2", "t = t + 3")]),
    ("a goto", "GotoStmt", """
int f(int n)
{
    int t = n;
    if (n > 3)
        goto end;
    t = t + 2;
end:
    return t;
}
""", [("int t = n", "int t = n + 1")], [("t = t + 2", "t = t + 3")]),
    ("a switch", "SwitchStmt", """
int f(int n)
{
    int t = n;
    switch (n) {
    case 1:
        t = 5;
    }
    t = t + 2;
    return t;
}
""", [("int t = n", "int t = n + 1")], [("t = t + 2", "t = t + 3")]),
    ("recursion", "recursion", """
int f(int n)
{
    int t = n;
    if (n > 0)
        t = f(n - 1);
    t = t + 2;
    return t;
}
""", [("int t = n", "int t = n + 1")], [("t = t + 2", "t = t + 3")]),
    ("a pointer that moves", "a value of type", """
int f(const int *p, int n)
{
    int t = n;
    p = p + 1;
    t = t + 2;
    return t + *p;
}
""", [("int t = n", "int t = n + 1")], [("t = t + 2", "t = t + 3")]),
    ("an address", "variable of type", """
int f(int n)
{
    int t = n;
    int *p = &t;
    t = t + 2;
    return t + *p;
}
""", [("int t = n", "int t = n + 1")], [("t = t + 2", "t = t + 3")]),
    ("a call of what isn't known", "call of strange", """
int strange(int);
int f(int n)
{
    int t = n;
    int u = strange(n);
    t = t + 2;
    return t + u;
}
""", [("int t = n", "int t = n + 1")], [("t = t + 2", "t = t + 3")]),
    ("a call of what stores", "call of note", """
int g;
static int note(int n)
{
    g = n;
    return n;
}
int f(int n)
{
    int t = n;
    int u = note(n);
    t = t + 2;
    return t + u;
}
""", [("int t = n", "int t = n + 1")], [("t = t + 2", "t = t + 3")]),
    ("an assignment in a condition", "= in an expression", """
int f(int n)
{
    int t = n, u = 0;
    if ((u = n))
        t = t + u;
    t = t + 2;
    return t;
}
""", [("t = t + u", "t = t + 2 * u")], [("t = t + 2", "t = t + 3")]),
    ("a format that stores", "%n", """
int printf(const char *, ...);
int f(int n)
{
    int t = n;
    printf("%d%n\\n", n, 0);
    t = t + 2;
    return t;
}
""", [("int t = n", "int t = n + 1")], [("t = t + 2", "t = t + 3")]),
    ("an attribute", "Attr", """
__attribute__((constructor)) int f(int n)
{
    int t = n;
    int u = 1;
    t = t + 2;
    return t;
}
""", [("int t = n", "int t = n + 1")], [("t = t + 2", "t = t + 3")]),
    ("a new function, and what it rests on changes", "not kept", """
#define RATE 19
long g;

long f(long n)
{
    long b = n;
    g = b;
    return b;
}
""", [("return b;\n}\n", "return b;\n}\n\nlong tax(long n)\n{\n    return n * RATE;\n}\n")], [("RATE 19", "RATE 20")]),
    ("what a function rests on changes, and nobody touches it", "kept", """
#define RATE 19
long g;

long f(long n)
{
    long b = n;
    g = b;
    return b;
}

long tax(long n)
{
    return n * RATE;
}
""", [("g = b", "g = b + 1")], [("RATE 19", "RATE 20")]),
    ("a variable that has no value yet, in a loop", "not kept", """
long f(const int *a, int n)
{
    long s = 0;
    for (int i = 0; i < n; i++) {
        int t;
        t = a[i];
        s += t;
    }
    return s;
}
""", [("t = a[i]", "t = a[i] + 1")], [("s += t", "s += 2 * t")]),
    ("independent results", "kept", """
long g;
int f(int n)
{
    int a = n;
    int b = 2;
    a = a * 3;
    g = b;
    return a;
}
""", [("int b = 2", "int b = 3")], [("a * 3", "a * 4")]),
    ("the same insertion in both", "kept", """
long g;
int f(int n)
{
    int a = n;
    int b = 2;
    g = b;
    return a;
}
""", [("int b = 2;", "int b = 2;\n    if (b > n)\n        b = n;"), ("return a", "return a + 1")],
     [("int b = 2;", "int b = 2;\n    if (b > n)\n        b = n;"), ("int f", "/* both */\nint f")]),
    ("lines that conflict, and changes that don't", "kept", """
long sum_seen, top_seen;
void f(const int *a, int n)
{
    long s = 0;

    for (int i = 0; i < n; i++)
        s += a[i];
    sum_seen = s;
}
""", [("long s = 0;", "long s = 0;\n    int top = 0; // the greatest"), ("sum_seen = s", "top_seen = top;\n    sum_seen = s"),
      ("i++)\n        s += a[i];", "i++) {\n        s += a[i];\n        if (a[i] > top)\n            top = a[i];\n    }")],
     [("i++)\n        s += a[i];", "i++) {\n        s += a[i]; // all of them\n    }"), ("long s = 0;", "long s = 0; /* none yet */")]),
    ("an old and a new content of one statement", "not kept", """
int g, h;
void f(int n)
{
    int t = n;
    g = t;
    h = 0;
}
""", [("int t = n", "int t = n + 1")], [("h = 0", "h = t")]),
]
