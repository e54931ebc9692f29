/* The length of a string that ends with a zero byte. */

long length(const char *string)
{
    long n = -1;

    do {
        __asm__ volatile("# LLVM-MCA-BEGIN length" ::: "memory");
        n++;
    } while (string[n] != 0);
    __asm__ volatile("# LLVM-MCA-END length" ::: "memory");
    return n;
}
