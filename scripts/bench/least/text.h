/* Text that a program writes, and the numbers of sites and processes. It comes after site.h. */
#include <unistd.h>

static uint16_t site_number[MOST_SITES];
static uint8_t site_at[MOST_NUMBER + 1];        /* the place of the site with a number */

static char out[1 << 16], *at_end = out;
static uint32_t digits[MOST];           /* the text of a process's number, and how long it is */
static uint8_t digits_length[MOST];

static void flush(void) {
    for (char *from = out; from < at_end;) {
        ssize_t written = write(1, from, (size_t)(at_end - from));
        if (written <= 0) stop("the text can't be written");
        from += written;
    }
    at_end = out;
}

/* Makes room for some words. */
static inline void make_room(void) {
    if (at_end > out + sizeof out - 256) flush();
}

static inline void put(const char *text) {
    size_t length = strlen(text);
    memcpy(at_end, text, length);
    at_end += length;
}

static inline void put_number(uint64_t number) {
    int length = 1;
    for (uint64_t power = 10; length < 20 && number >= power; power *= 10) length++;
    char *digit = at_end += length;
    do *--digit = (char)('0' + number % 10);
    while (number /= 10);
}

/* A space and the number of a process. */
static inline void put_process(Id id) {
    *at_end = ' ';
    memcpy(at_end + 1, &digits[id], 4);
    at_end += 1 + digits_length[id];
}

static void make_digits(void) {
    for (int id = 0; id < processes; id++) {
        char text[8] = {0};
        digits_length[id] = (uint8_t)sprintf(text, "%d", number_of[id]);
        memcpy(&digits[id], text, 4);
    }
}
