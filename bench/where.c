/* Says what runs x86-64 code here, as that code sees it: the processor's own name, and the name of an emulator that stands in for one. A
 * program for x86-64 may be run by an emulator without a word of it on the command line, and the system then says x86_64 too. */
#include <cpuid.h>
#include <stdio.h>
#include <string.h>

/* The processor's name, without blanks around it. */
static const char *brand(void)
{
    static unsigned words[13];
    for (unsigned i = 0; i < 3; i++)
        __get_cpuid(0x80000002 + i, &words[4 * i], &words[4 * i + 1], &words[4 * i + 2], &words[4 * i + 3]);
    char *name = (char *)words, *end = name + strlen(name);
    while (end > name && end[-1] == ' ')
        *--end = 0;
    return name + strspn(name, " ");
}

/* Who runs the machine that the processor is of, where it is none of metal: the letters that it answers with. */
static const char *host(void)
{
    static unsigned words[4];
    unsigned a, b, c = 0, d;
    __get_cpuid(1, &a, &b, &c, &d);
    if (c >> 31 & 1)
        __cpuid(0x40000000, a, words[0], words[1], words[2]);
    return (const char *)words;
}

/* QEMU's own translator, and Rosetta; a hypervisor that lets the processor run the code itself is no emulator. */
int main(void)
{
    int emulated = !strcmp(host(), "TCGTCGTCGTCG") || strstr(brand(), "TCG") || strstr(brand(), "VirtualApple");
    printf("%s %s\n", emulated ? "emulator" : "itself", *brand() ? brand() : "without a name");
    return 0;
}
