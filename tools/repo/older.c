/* A function that glibc has from 2.33 on, for a system with an older one, by the declarations of <sys/platform/x86.h>. A
 * program of dist/ asks it, before anything else, whether the processor has the instructions of x86-64-v2. */
#include <cpuid.h>

/* what the processor has, and what of it may be used: eax, ebx, ecx and edx */
struct leaf {
    unsigned has[4], usable[4];
};

/* Gives the leaf 1 of cpuid for 0, the leaf 0x80000001 for 2, and for another number one without a bit. In the registers that
 * the programs look at, all that a processor has may be used. */
const struct leaf *__x86_get_cpuid_feature_leaf(unsigned number) {
    static struct leaf leaves[3];
    struct leaf *leaf = &leaves[number == 0 ? 0 : number == 2 ? 1 : 2];
    unsigned at;
    if (number == 0 || number == 2)
        (void)__get_cpuid(number == 0 ? 1 : 0x80000001, &leaf->has[0], &leaf->has[1], &leaf->has[2], &leaf->has[3]);
    for (at = 0; at < 4; at++)
        leaf->usable[at] = leaf->has[at];
    return leaf;
}
