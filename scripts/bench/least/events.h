/* An accepted event in a file: this, and then its targets. Before the first one stand the edition, how many sites there are, and
   of each how many processes, and their numbers, in two bytes each. */
typedef struct {
    uint8_t kind, at, message, is_known;        /* whether a probe of edition 2 is ignored since its receiver has one of its origin */
    uint16_t count, i, j, k;
    uint64_t clock, n;
} Event;
