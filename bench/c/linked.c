#include "lirvedd.h"
#include "sides.h"

const struct side linked = {lirvedd_open, lirvedd_take,  lirvedd_take_class, lirvedd_send,
                            lirvedd_seal, lirvedd_mark, lirvedd_total,      lirvedd_substitute};
