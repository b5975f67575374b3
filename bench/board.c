/* What a board without an operating system brings to run one of the text programs: a place for the stack, a start, and the functions that the compiled
   program calls, which are read, write, those that copy and clear memory, one that says why read or write failed, and one that is called once, at the
   start. Here read and write ask the system that an emulator of an Arm processor stands for, so that the program can be tried; a board would ask its
   serial line. Sizes have 64 bits, as in the program's code.

   Compiled with STACK, the bytes of the place. What lies below it is watched: where it was written to, the program ends with 99. At the end it
   writes to standard error how many bytes of the stack were used. */
typedef unsigned int size;
typedef long long count;

enum { EXIT = 1, READ = 3, WRITE = 4, STDERR = 2, OVERRUN = 99, WORDS = 64, WATCHED = 0x5A5A5A5A, UNUSED = 0x5A };

/* The stack grows down towards the words below it. */
static struct {
    size watched[WORDS];
    unsigned char stack[STACK];
} place __attribute__((used, aligned(8)));

static int ask(int number, int first, const void *second, size third)
{
    register int r7 __asm__("r7") = number;
    register int r0 __asm__("r0") = first;
    register const void *r1 __asm__("r1") = second;
    register size r2 __asm__("r2") = third;
    __asm__ volatile("svc 0" : "+r"(r0) : "r"(r7), "r"(r1), "r"(r2) : "memory");
    return r0;
}

count read(int from, void *bytes, count most) { return ask(READ, from, bytes, (size)most); }

count write(int to, const void *bytes, count most) { return ask(WRITE, to, bytes, (size)most); }

/* Why a call failed: an error of input or output, whatever it was. */
int rattle_errno(void) { return 5; }

/* The program asks at its start that a pipe which nobody reads any more fail a write and end nothing. A board has no pipes. */
count __sysv_signal(int signal, count handler)
{
    (void)signal;
    (void)handler;
    return 0;
}

void *memcpy(void *to, const void *from, size bytes)
{
    for (size i = 0; i < bytes; i++)
        ((char *)to)[i] = ((const char *)from)[i];
    return to;
}

void *memset(void *to, int byte, size bytes)
{
    for (size i = 0; i < bytes; i++)
        ((char *)to)[i] = (char)byte;
    return to;
}

/* The names that the Arm compiler has for the same. */
void __aeabi_memcpy(void *to, const void *from, size bytes) { memcpy(to, from, bytes); }
void __aeabi_memcpy4(void *to, const void *from, size bytes) { memcpy(to, from, bytes); }
void __aeabi_memclr(void *to, size bytes) { memset(to, 0, bytes); }
void __aeabi_memclr4(void *to, size bytes) { memset(to, 0, bytes); }
void __aeabi_memclr8(void *to, size bytes) { memset(to, 0, bytes); }
void __aeabi_memset(void *to, size bytes, int byte) { memset(to, byte, bytes); }

static void write_number(size number)
{
    char digits[12];
    int at = sizeof digits;
    digits[--at] = '\n';
    do {
        digits[--at] = (char)('0' + number % 10);
        number /= 10;
    } while (number > 0);
    write(STDERR, digits + at, (int)sizeof digits - at);
}

/* Before the program and after it this runs on a stack of the emulator's own. */
__attribute__((used)) static void prepare(void) { memset(&place, UNUSED, sizeof place); }

__attribute__((used)) static void finish(int status)
{
    size unused = 0;
    for (int i = 0; i < WORDS; i++)
        if (place.watched[i] != WATCHED)
            ask(EXIT, OVERRUN, 0, 0);
    while (unused < STACK && place.stack[unused] == UNUSED)
        unused++;
    write_number(STACK - unused);
    ask(EXIT, status, 0, 0);
}

__attribute__((naked)) void _start(void)
{
    __asm__ volatile("bl prepare\n"
                     "mov r4, sp\n"
                     "ldr r0, =place\n"
                     "ldr r1, =%c0\n"
                     "add r0, r0, r1\n"
                     "mov sp, r0\n"
                     "movs r0, #0\n"
                     "movs r1, #0\n"
                     "bl main\n"
                     "mov sp, r4\n"
                     "bl finish\n"
                     ".ltorg\n"
                     :
                     : "i"(sizeof place));
}
