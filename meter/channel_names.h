/* The names of a film's channels, by what caf_read_chan says of its layout. */
#ifndef CHANNEL_NAMES_H
#define CHANNEL_NAMES_H

#include "caf_names.h"

/* The name of a channel, from 0 on: its label's in the order that the tag stands for, or as it is described. NULL where
 * the layout gives it none: a label that is none of the 47, is not known, or stands for a place in the room. */
static inline const char *channel_name_in(const uint64_t *said, const uint32_t *descriptions, uint64_t channel) {
    uint32_t label = CAF_LABEL_UNKNOWN;

    if (channel < said[CAF_SAID_ORDER_COUNT])
        label = (uint32_t)said[CAF_SAID_ORDER + channel];
    else if (said[CAF_SAID_TAG] == CAF_TAG_USE_CHANNEL_DESCRIPTIONS && channel < said[CAF_SAID_COUNT] &&
             descriptions[CAF_DESCRIPTION * channel + CAF_DESCRIPTION_KNOWN])
        label = descriptions[CAF_DESCRIPTION * channel + CAF_DESCRIPTION_LABEL];
    return label == CAF_LABEL_UNKNOWN || label == CAF_LABEL_USE_COORDINATES ? NULL : caf_label_name(label);
}

#endif
