/* The fuzzer's entry for a host of the typed entries (tests/c): an input's bytes decide its cases, each entry once, and what the host
 * demands is demanded. */
#ifndef TYPED_H
#define TYPED_H

int LLVMFuzzerTestOneInput(const uint8_t *data, size_t size)
{
    if (lent_blocks[0].low == NULL)
        make_lent_blocks();
    seed = 20240607;
    drawn = data;
    drawn_end = data + size;
    one_round();
    if (failures > 0) {
        fflush(stdout);
        fprintf(stderr, "demanded of the typed entries: as printed above\n");
        abort();
    }
    return 0;
}

#endif
