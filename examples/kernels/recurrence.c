/* The terms of a linear recurrence over the last two; with p and q 1, the Fibonacci numbers. */

void recurrence(unsigned long *to, unsigned long p, unsigned long q, long n)
{
    unsigned long before = 0;
    unsigned long last = 1;

    for (long i = 0; i < n; i++) {
        __asm__ volatile("# LLVM-MCA-BEGIN recurrence" ::: "memory");
        unsigned long next = p * last + q * before;
        to[i] = next;
        before = last;
        last = next;
    }
    __asm__ volatile("# LLVM-MCA-END recurrence" ::: "memory");
}
