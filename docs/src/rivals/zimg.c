/* The yardstick's conversion by zimg: R, G, B to Y, Cb, Cr of BT.709 at 4:4:4, 8 bits and full range on both sides, without dither.
 * docs/src/fast/rivals.rs calls it. A function that fails answers null or a number other than 0. */
#include <stdint.h>
#include <stdlib.h>
#include <zimg.h>

typedef struct rival {
    zimg_filter_graph *graph;
    void *scratch;
} rival;

/* One side of the conversion. A sample is a byte, or the low 8 bits of a 16-bit number. */
static zimg_image_format format(unsigned width, unsigned height, int bytes, int is_rgb)
{
    zimg_image_format side;
    zimg_image_format_default(&side, ZIMG_API_VERSION);
    side.width = width;
    side.height = height;
    side.pixel_type = bytes ? ZIMG_PIXEL_BYTE : ZIMG_PIXEL_WORD;
    side.depth = 8;
    side.pixel_range = ZIMG_RANGE_FULL;
    side.color_family = is_rgb ? ZIMG_COLOR_RGB : ZIMG_COLOR_YUV;
    side.matrix_coefficients = is_rgb ? ZIMG_MATRIX_RGB : ZIMG_MATRIX_BT709;
    side.transfer_characteristics = ZIMG_TRANSFER_BT709;
    side.color_primaries = ZIMG_PRIMARIES_BT709;
    return side;
}

static zimg_filter_graph *graph_of(unsigned width, unsigned height, int bytes, int any_processor)
{
    zimg_image_format from = format(width, height, bytes, 1);
    zimg_image_format to = format(width, height, bytes, 0);
    zimg_graph_builder_params choices;
    zimg_graph_builder_params_default(&choices, ZIMG_API_VERSION);
    choices.dither_type = ZIMG_DITHER_NONE;
    choices.cpu_type = any_processor ? ZIMG_CPU_NONE : ZIMG_CPU_AUTO_64B;
    return zimg_filter_graph_build(&from, &to, &choices);
}

void rival_zimg_version(unsigned version[3])
{
    zimg_get_version_info(&version[0], &version[1], &version[2]);
}

void rival_zimg_free(rival *self)
{
    if (self) {
        zimg_filter_graph_free(self->graph);
        free(self->scratch);
        free(self);
    }
}

rival *rival_zimg_new(unsigned width, unsigned height, int bytes, int any_processor)
{
    size_t size;
    rival *self = calloc(1, sizeof *self);
    if (self && (self->graph = graph_of(width, height, bytes, any_processor)) &&
        !zimg_filter_graph_get_tmp_size(self->graph, &size) &&
        (self->scratch = aligned_alloc(64, (size + 64) / 64 * 64)))
        return self;
    rival_zimg_free(self);
    return NULL;
}

/* Planes start at multiples of 64 bytes, and so do their rows: the stride, in bytes, is one too. */
int rival_zimg_convert(rival *self, size_t stride, const void *const source[3], void *const output[3])
{
    zimg_image_buffer_const from = {.version = ZIMG_API_VERSION};
    zimg_image_buffer to = {.version = ZIMG_API_VERSION};
    int k;
    for (k = 0; k < 3; k++) {
        from.plane[k].data = source[k];
        to.plane[k].data = output[k];
        from.plane[k].stride = to.plane[k].stride = (ptrdiff_t)stride;
        from.plane[k].mask = to.plane[k].mask = ZIMG_BUFFER_MAX;
    }
    return zimg_filter_graph_process(self->graph, &from, &to, self->scratch, NULL, NULL, NULL, NULL);
}
