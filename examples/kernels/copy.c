/* Copies an array by words of 64 bits. */

void copy(unsigned long *to, const unsigned long *from, long words)
{
    for (long i = 0; i < words; i++) {
        __asm__ volatile("# LLVM-MCA-BEGIN copy" ::: "memory");
        to[i] = from[i];
    }
    __asm__ volatile("# LLVM-MCA-END copy" ::: "memory");
}
