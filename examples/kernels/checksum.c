/* The remainder of a text of n bytes, read as one long number of base 256, by a modulus that is known
   only at run time. */

unsigned long checksum(const unsigned char *text, long n, unsigned long modulus)
{
    unsigned long sum = 0;
    long i = 0;

    if (n < 1)
        return 0;
    do {
        __asm__ volatile("# LLVM-MCA-BEGIN checksum" ::: "memory");
        sum = (sum * 256 + text[i]) % modulus;
        i++;
    } while (i < n);
    __asm__ volatile("# LLVM-MCA-END checksum" ::: "memory");
    return sum;
}
