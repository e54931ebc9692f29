/* The sums of an array's beginnings. */

void prefix(long *to, const long *from, long n)
{
    long sum = 0;

    for (long i = 0; i < n; i++) {
        __asm__ volatile("# LLVM-MCA-BEGIN prefix" ::: "memory");
        sum += from[i];
        to[i] = sum;
    }
    __asm__ volatile("# LLVM-MCA-END prefix" ::: "memory");
}
