/* The texts of the header as functions of the library, for languages that cannot include it. */
#define HMCS_TEXT __attribute__((visibility("default")))
#include "hmcs.h"
