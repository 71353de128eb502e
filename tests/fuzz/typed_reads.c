/* Fuzzes the typed entries over reads, gates, depths, metrics and single numbers. */
#define FUZZED
#include "typed_reads_host.c"

#include "typed.h"
