/* The two calls of haythaw.h that are not proved: which version a library is, and a sentence for each number. They touch no picture,
 * view or payload, and no proved call uses them; they are an object of their own beside the proved one, in the archive and in the
 * shared library. No pointer is stored here, so nothing has to be moved or written when a program starts. */
#include "haythaw.h"

#define TEXT_OF(word) #word
#define VERSION_OF(major, minor, patch) "haythaw-version-" TEXT_OF(major) "." TEXT_OF(minor) "." TEXT_OF(patch)

/* What a build script may look for in the file. It is exported by no shared library. */
extern const char haythaw_version_mark[];
const char haythaw_version_mark[] = VERSION_OF(HAYTHAW_VERSION_MAJOR, HAYTHAW_VERSION_MINOR, HAYTHAW_VERSION_PATCH);

enum { KNOWN = HAYTHAW_RECT_UNSOUND + 1, LONGEST = 128 };

/* The last one is for a number that no call answers. */
static const char sentences[KNOWN + 1][LONGEST] = {
    "done",
    "a lent picture plane, or the map, is too short for the picture's padded size",
    "the RGBA input is shorter than width x height x 4 bytes",
    "the view's luma stride is below its width, or its chroma stride below its chroma width",
    "a plane of the view is shorter than its stride times its height",
    "the picture is too large to be split: its padded width or height is above 65,535",
    "the output buffer is shorter than what would be written",
    "the list is not four numbers for each rectangle, or its pairs are not two bytes for each",
    "the AVC444 payload is of no known kind",
    "the AVC444 payload is below 4 bytes, or its size runs past its end",
    "the count, a rectangle or a pair of a stream runs past that stream's end",
    "the first stream of the payload would be 2^30 bytes or longer, or a count would not fit in 32 bits",
    "a rectangle of the list is empty, reversed or off the picture",
    "no number of this library",
};

uint32_t haythaw_version(void)
{
    return (uint32_t)HAYTHAW_VERSION_MAJOR * 65536 + (uint32_t)HAYTHAW_VERSION_MINOR * 256 + (uint32_t)HAYTHAW_VERSION_PATCH;
}

const char *haythaw_number_text(uint32_t number)
{
    return sentences[number < KNOWN ? number : KNOWN];
}
