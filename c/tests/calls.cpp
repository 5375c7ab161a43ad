// The handler of C++ in the place of C's.
#include "calls.c"
