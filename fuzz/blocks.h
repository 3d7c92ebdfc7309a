/* Coverage of the archive as it stands, without instrumentation: a breakpoint at each basic block, taken away when it is first hit. */
#ifndef BLOCKS_H
#define BLOCKS_H

/* Reads the file of blocks that fuzz/run writes (first the address of rolvenko_check, then one block a line, in hexadecimal digits, all
 * as the program's file has them) and sets the breakpoints. Each first hit counts as a feature for libFuzzer. At exit the number of
 * blocks hit is printed, and those not hit are written to FILE.unhit. */
void blocks_watch(const char *file);

#endif
