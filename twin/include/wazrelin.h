/* The report of a plan, by the proved engine. */
#ifndef WAZRELIN_H
#define WAZRELIN_H

#include <stddef.h>
#include <stdint.h>

#ifdef __cplusplus
extern "C" {
#endif

/* Values of status. */
#define WAZRELIN_WRITTEN 0u   /* the report's length bytes are at the front of out */
#define WAZRELIN_TOO_SHORT 1u /* out is too short: length bytes are needed, none is written */
#define WAZRELIN_NO_MEMORY 2u /* memory failed, nothing is written */

typedef struct {
    size_t length;
    uint32_t status;
} wazrelin_written;

/* Writes the report of a plan; each of its lines ends with a line feed. The pointers are not null,
   also where a length is 0, and plan and out do not overlap. */
wazrelin_written wazrelin_report(const uint8_t *plan, size_t plan_length,
                                 uint8_t *out, size_t out_length);

#ifdef __cplusplus
}
#endif

#endif
