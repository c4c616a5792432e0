/* The shared library that desklink.py loads: the guarded calls of desklink.h as functions of their own, over libdesklink.a. */
#define DESKLINK_GUARDED
#include "desklink.h"

/* The version of the header that the library was made from. */
const char *desklink_version(void);
const char *desklink_version(void)
{
    return DESKLINK_VERSION;
}
