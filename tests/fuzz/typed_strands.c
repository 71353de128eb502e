/* Fuzzes the typed entries over strands. */
#define FUZZED
#include "typed_strands_host.c"

#include "typed.h"
