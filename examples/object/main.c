/* Calls functions that the program made. */
typedef unsigned long u64;
typedef long s64;

s64 sum_up(const s64 *numbers, u64 count);          /* a loop */
s64 apply_twice(s64 x);                             /* calls u1, and reads u2 */
s64 factorial(s64 n) __asm__("u3");                 /* calls itself by its name */
u64 spin_add(unsigned *word, unsigned by);          /* tries until nobody else wrote */
s64 checked_load(const char *heap, u64 offset);     /* traps from 65536 on */
s64 chosen(u64 which);                              /* a table of jumps, a constant, and an address in the code */

/* What they call and read. */
s64 u1(s64 x) {
    volatile s64 others[20];
    for (int i = 0; i < 20; i++)
        others[i] = x;
    return 3 * x + others[7] - x;
}
s64 u2[2] = {11, 5000};
s64 u4[2] = {7, 300};

static s64 system_call(s64 number, s64 a, s64 b, s64 c) {
    register s64 r1 __asm__("r1") = number, r2 __asm__("r2") = a, r3 __asm__("r3") = b, r4 __asm__("r4") = c;
    __asm__ volatile("svc 0" : "+d"(r2) : "d"(r1), "d"(r3), "d"(r4) : "memory");
    return r2;
}

static void say(const char *text) {
    int size = 0;
    while (text[size])
        size++;
    system_call(4, 1, (s64)text, size);
}

static int wrong;

static void check(const char *what, s64 got, s64 want) {
    say(what);
    say(got == want ? " ok\n" : " WRONG\n");
    wrong += got != want;
}

/* The functions' parts of the table of traps: how far the function is off, how many rows there are, and the rows: an offset and a code. */
extern const s64 __start_s390x_traps[], __stop_s390x_traps[];

/* How many traps with this code a function has; -1 where it has no part in the table, or a trap isn't within so many bytes. */
static s64 traps_of(const void *function, s64 size, s64 code) {
    for (const s64 *part = __start_s390x_traps; part < __stop_s390x_traps; part += 2 + 2 * part[1]) {
        if ((const char *)part + part[0] != function)
            continue;
        s64 found = 0;
        for (s64 i = 0; i < part[1]; i++) {
            if (part[2 + 2 * i] >= size)
                return -1;
            found += part[3 + 2 * i] == code;
        }
        return found;
    }
    return -1;
}

static s64 numbers[1000];
static char heap[65536] __attribute__((aligned(8)));

int c_main(void) {
    s64 sum = 0;
    for (int i = 0; i < 1000; i++) {
        numbers[i] = (s64)i * 7919 - 12345;
        sum += numbers[i];
    }
    check("sum_up 1000", sum_up(numbers, 1000), sum);
    check("sum_up 0", sum_up(numbers, 0), 0);
    check("apply_twice", apply_twice(7), 9 * 7 + 5000);
    check("factorial", factorial(10), 3628800);
    unsigned word = 40;
    check("spin_add", spin_add(&word, 2), 42);
    check("its word", word, 42);
    *(int *)(heap + 65528) = -4242;
    check("checked_load", checked_load(heap, 65528), -4242);
    check("its traps", traps_of(checked_load, 20, 253), 2);
    check("no traps", traps_of(apply_twice, 4096, 253), 0);
    check("chosen 0", chosen(0), 11);
    check("chosen 1", chosen(1), 300);
    check("chosen 2", chosen(2), -1);
    return wrong;
}
