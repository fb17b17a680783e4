/* What the programs need of the machine: a core under qemu, or x86-64 Linux. */
#ifndef PORT_H
#define PORT_H

/* Writes a text to the standard output. */
void put(const char *text);

/* Ends the program with this status. */
_Noreturn void leave(int status);

/* What the start-up calls. Returns the status. */
int program(void);

#endif
