/* The 64-bit hash FNV-1a of a text of n bytes. */

unsigned long fnv1a(const unsigned char *text, long n)
{
    unsigned long hash = 0xcbf29ce484222325;
    long i = 0;

    if (n < 1)
        return hash;
    do {
        __asm__ volatile("# LLVM-MCA-BEGIN fnv1a" ::: "memory");
        hash = (hash ^ text[i]) * 0x100000001b3;
        i++;
    } while (i < n);
    __asm__ volatile("# LLVM-MCA-END fnv1a" ::: "memory");
    return hash;
}
