/* The listing of a stored path profile. docs/listing.md has its form, docs/refusals.md the refusals. */
#ifndef FIT_LISTING_H
#define FIT_LISTING_H

#include <stddef.h>
#include <stdint.h>

#ifdef __cplusplus
extern "C" {
#endif

/* Where a refusal was checked. */
enum fit_site {
    FIT_GRANTED = 0,
    FIT_AT_READING = 1,
    FIT_AT_PROFILE = 2,
    FIT_AT_SUPPLIED = 3,
    FIT_AT_LETTER = 4,
    FIT_AT_STORED = 5
};

/* Granted: `written` bytes stand at the front of the output, and the other fields are 0.
   Declined: `number`, `place` and `site` tell why, `written` is 0 and the output is as it was. */
struct fit_answer {
    uint64_t written;
    uint64_t place;
    uint32_t number;
    uint32_t site;
};

/* `input` is a measure letter (A, S or L) and behind it a stored profile.
   Neither pointer may be null, also where its length is 0, and the two may not overlap. */
struct fit_answer fit_listing(const uint8_t *input, size_t input_length,
                              uint8_t *output, size_t output_length);

#ifdef __cplusplus
}
#endif

#endif
