/* A call of each export, by the parts of a `struct asked`. Written by tools/exports/declarations.py. */

/* What a call writes: its outputs in order. */
union output {
@OUTPUTS@
};

@CALLS@

static const struct any {
    const char *name;
    uint32_t (*call)(const struct asked *, union output *);
    uint32_t results[@LONGEST@];
    size_t results_count;
} every[] = {
@ROWS@
};
