/* The dot product of two arrays of n 64-bit integers. */

long dot(const long *a, const long *b, long n)
{
    long sum = 0;
    long i = 0;

    if (n < 1)
        return 0;
    do {
        __asm__ volatile("# LLVM-MCA-BEGIN dot" ::: "memory");
        sum += a[i] * b[i];
        i++;
    } while (i < n);
    __asm__ volatile("# LLVM-MCA-END dot" ::: "memory");
    return sum;
}
