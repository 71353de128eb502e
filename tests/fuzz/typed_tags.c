/* Fuzzes the typed entries over evidence, annotation and tags, and gedrashiw_methylation_tags. */
#define FUZZED
#include "typed_tags_host.c"

#include "typed.h"
