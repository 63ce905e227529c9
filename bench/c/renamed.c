/* The header's calls under the names that tuned Rust has when it is linked beside the library. */
#define lirvedd_open tuned_open
#define lirvedd_take tuned_take
#define lirvedd_take_class tuned_take_class
#define lirvedd_send tuned_send
#define lirvedd_seal tuned_seal
#define lirvedd_mark tuned_mark
#define lirvedd_total tuned_total
#define lirvedd_substitute tuned_substitute
#include "lirvedd.h"
#include "sides.h"

const struct side renamed = {lirvedd_open, lirvedd_take,  lirvedd_take_class, lirvedd_send,
                            lirvedd_seal, lirvedd_mark, lirvedd_total,      lirvedd_substitute};
