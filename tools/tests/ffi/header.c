/* The header by itself, which compiles as C of each age and as C++. */
#include "deolmutt.h"

int main(void) { return DEOLMUTT_ABI == 1 ? 0 : 1; }
