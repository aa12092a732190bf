/* The images that the sides work on. */
#ifndef DIFF_IMAGES_H
#define DIFF_IMAGES_H

#include <stdint.h>

/* Each has SPARE bytes behind it, which are compared as the others are. */
struct images {
    uint8_t *base;      /* what every trace begins with */
    uint8_t *model;     /* the model's, */
    uint8_t *step;      /* that of pod_step */
    uint8_t *clock;     /* and that of pod_clock go through a trace */
    uint8_t *run;       /* for run, the library's */
    uint8_t *model_run; /* and the model's */
    uint8_t *ahead;     /* for the model to look ahead on: what it holds counts nowhere */
    uint8_t *wild;      /* for unsound devices and those of wild bytes */
    uint8_t *wild_clock;
    uint8_t *wild_model;
    uint8_t *page;      /* a block of zeros */
};
extern struct images images;

/* Makes them, or ends the program where there is no memory for them. */
void images_make(void);

/* Blocks of an image as they are in the base, bit b for block b. */
void image_restore(uint8_t *image, uint16_t blocks);

/* The images of a trace and of its run as they are in the base. */
void images_restore(void);

#endif
