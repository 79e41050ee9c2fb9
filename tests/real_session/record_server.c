/* Preloaded into freerdp-shadow-cli.
 *
 *   .screen   the server's screen behind each picture that it compressed, R, G, B
 *
 * With $HAYTHAW_V1 the server sends AVC444 in place of AVC444v2. It has no option for that: once it has made up its mind, with the client's
 * capabilities at hand, its setting is put to FALSE. */
#include "record.h"
#include <freerdp/codec/color.h>
#include <freerdp/codec/h264.h>
#include <freerdp/freerdp.h>
#include <freerdp/server/rdpgfx.h>

INT32 avc444_compress(H264_CONTEXT *h264, const BYTE *from, DWORD format, UINT32 step, UINT32 width, UINT32 height, BYTE version, BYTE *op,
                      BYTE **to, UINT32 *to_count, BYTE **aux_to, UINT32 *aux_to_count)
{
    static FILE *file;
    const INT32 status = THEIRS(avc444_compress)(h264, from, format, step, width, height, version, op, to, to_count, aux_to, aux_to_count);
    if (format != PIXEL_FORMAT_BGRX32) stop("the screen's format");
    if (!file) file = made("screen");
    if (status >= 0) put_rgb(file, from, step, width, height);
    put_down(file);
    return status;
}

static psRdpgfxCapsConfirm caps_confirm;

static UINT confirmed(RdpgfxServerContext *context, const RDPGFX_CAPS_CONFIRM_PDU *caps)
{
    context->rdpcontext->settings->GfxAVC444v2 = FALSE;
    return caps_confirm(context, caps);
}

RdpgfxServerContext *rdpgfx_server_context_new(HANDLE vcm)
{
    RdpgfxServerContext *context = THEIRS(rdpgfx_server_context_new)(vcm);
    if (context && getenv("HAYTHAW_V1")) {
        caps_confirm = context->CapsConfirm;
        context->CapsConfirm = confirmed;
    }
    return context;
}
