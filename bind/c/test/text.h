/* The two calls that are C: the version, and a sentence for each number. */
#ifndef TEXT_H
#define TEXT_H

#include "check.h"

/* Whether the header has this number. A number that is new in it has to come here, or the compiler warns; then its sentence is wanted. */
static bool in_the_header(uint32_t number)
{
    switch ((enum haythaw_number)number) {
    case HAYTHAW_DONE:
    case HAYTHAW_PLANE_SHORT:
    case HAYTHAW_RGBA_SHORT:
    case HAYTHAW_VIEW_NARROW:
    case HAYTHAW_VIEW_SHORT:
    case HAYTHAW_SPLIT_LARGE:
    case HAYTHAW_OUTPUT_SHORT:
    case HAYTHAW_LIST_UNEVEN:
    case HAYTHAW_KIND_UNKNOWN:
    case HAYTHAW_PAYLOAD_SHORT:
    case HAYTHAW_STREAM_SHORT:
    case HAYTHAW_STREAM_LONG:
    case HAYTHAW_RECT_UNSOUND:
        return true;
    }
    return false;
}

static void texts(void)
{
    const uint32_t version = (HAYTHAW_VERSION_MAJOR << 16) + (HAYTHAW_VERSION_MINOR << 8) + HAYTHAW_VERSION_PATCH;
    check(haythaw_version() == version, "version", "the header's");
    const char *unknown = haythaw_number_text(UINT32_MAX);
    check(unknown != NULL && strlen(unknown) > 0, "number_text", "of no number");
    for (uint32_t number = 0; number < 300; number++) {
        const char *text = haythaw_number_text(number);
        check(text != NULL && strlen(text) > 0, "number_text", "a sentence");
        check((strcmp(text, unknown) != 0) == in_the_header(number), "number_text", "one of its own for a number of the header, and for no other");
        for (uint32_t before = 0; in_the_header(number) && before < number; before++)
            check(strcmp(text, haythaw_number_text(before)) != 0, "number_text", "each another");
    }
    check(strcmp(haythaw_number_text(0x80000000u), unknown) == 0, "number_text", "of 2^31");
}

#endif
