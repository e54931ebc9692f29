/* Adds a multiple of one array to another, on 32-bit integers. */

void saxpy(long n, int a, const int *x, int *y)
{
    for (long i = 0; i < n; i++) {
        __asm__ volatile("# LLVM-MCA-BEGIN saxpy" ::: "memory");
        y[i] += a * x[i];
    }
    __asm__ volatile("# LLVM-MCA-END saxpy" ::: "memory");
}
