/* The bill as it grows. */
#ifndef BILL_H
#define BILL_H

#include "print.h"

struct bill {
    enum shape shape;
    struct total total;
    bool begun;     /* some entry is on it */
    bool too_large; /* the total would not fit */
    int status;
};

/* Puts an entry on the bill, with a line on standard error where it is not billed (meter.c). */
void bill_entry(struct bill *bill, const struct entry *entry);

/* Puts every clip of a named tray on it (trays.c). */
void bill_tray(struct bill *bill, const char *name);

#endif
