/* A program that has a main, as the example has. */
#include "port.h"

int main(void);
int program(void) { return main(); }
