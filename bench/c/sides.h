/* The calls of the library, and those of tuned Rust under names of their own. */
#ifndef SIDES_H
#define SIDES_H

#include <stddef.h>
#include <stdint.h>

struct side {
    uint64_t (*open)(uint32_t last, uint8_t *table, size_t length);
    uint64_t (*take)(uint32_t due, uint32_t weight, uint8_t *table, size_t length);
    uint64_t (*take_class)(uint32_t due, uint32_t weight, uint32_t of_class, uint8_t *table, size_t length);
    uint64_t (*send)(uint8_t *table, size_t length);
    uint64_t (*seal)(uint8_t *table, size_t length);
    uint64_t (*mark)(uint32_t slot, const uint8_t *table, size_t length);
    uint64_t (*total)(const uint8_t *table, size_t length);
    uint64_t (*substitute)(uint32_t ticket, const uint8_t *table, size_t length);
};

/* Of the archive that this is linked with. */
extern const struct side linked;
/* Of tuned Rust beside it, renamed. */
extern const struct side renamed;

#endif
