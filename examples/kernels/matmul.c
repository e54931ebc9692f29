/* The product of two square matrices stored row by row; the innermost loop is marked. */

void matmul(long *to, const long *a, const long *b, long n)
{
    for (long row = 0; row < n; row++) {
        for (long column = 0; column < n; column++) {
            long sum = 0;

            for (long k = 0; k < n; k++) {
                __asm__ volatile("# LLVM-MCA-BEGIN matmul" ::: "memory");
                sum += a[row * n + k] * b[k * n + column];
            }
            __asm__ volatile("# LLVM-MCA-END matmul" ::: "memory");
            to[row * n + column] = sum;
        }
    }
}
