/* Making the images, and bringing them back to what a trace begins with. */
#include "diff/images.h"

#include "diff/random.h"
#include "diff/trace.h"
#include "pod.h"

#include <stddef.h>
#include <stdio.h>
#include <stdlib.h>
#include <string.h>

enum { BASE_START = 80 };

struct images images;

static uint8_t *new_bytes(size_t length)
{
    uint8_t *bytes = calloc(1, length);
    if (bytes == NULL) {
        printf("diff: no memory for an image\n");
        exit(1);
    }
    return bytes;
}

static uint8_t *new_image(void)
{
    uint8_t *image = new_bytes(POD_IMAGE_BYTES + SPARE);
    memcpy(image, images.base, POD_IMAGE_BYTES + SPARE);
    return image;
}

void images_make(void)
{
    images.base = new_bytes(POD_IMAGE_BYTES + SPARE);
    rnd_start(BASE_START);
    for (uint32_t i = 0; i < POD_IMAGE_BYTES + SPARE; i++) {
        images.base[i] = one_in(8) ? 0xFF : rnd_byte();
    }
    images.model = new_image();
    images.step = new_image();
    images.clock = new_image();
    images.run = new_image();
    images.model_run = new_image();
    images.ahead = new_image();
    images.wild = new_image();
    images.wild_clock = new_image();
    images.wild_model = new_image();
    images.page = new_bytes(POD_BLOCK_BYTES + SPARE);
}

void image_restore(uint8_t *image, uint16_t blocks)
{
    for (size_t b = 0; b < POD_BLOCKS; b++) {
        if ((blocks >> b & 1) != 0) {
            memcpy(image + b * POD_BLOCK_BYTES, images.base + b * POD_BLOCK_BYTES, POD_BLOCK_BYTES);
        }
    }
}

void images_restore(void)
{
    uint8_t *const all[] = { images.model, images.step, images.clock, images.run, images.model_run };
    for (size_t i = 0; i < sizeof all / sizeof all[0]; i++) {
        memcpy(all[i], images.base, POD_IMAGE_BYTES + SPARE);
    }
}
