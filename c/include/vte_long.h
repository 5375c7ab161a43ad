/* SPDX-License-Identifier: Apache-2.0 OR MIT */
/* vte_long.h: a parser that keeps operating system commands of any length.
 *
 * It reports the events of vte.h in the same records, with VTE_TRUNCATED only if a command has data
 * after its 16th piece. It allocates by malloc: for the longest command that it was fed, and
 * for its own data area, which has room for that command, VTE_MIN_DATA bytes more, and five bytes
 * for each byte of the longest call. It is in the library that cargo builds.
 *
 *     vte_long_parser *parser = vte_long_parser_new();
 *     vte_event events[256];
 *     const uint8_t *data;
 *     vte_counts counts;
 *     while (length > 0) {
 *         size_t read = vte_long_feed(parser, bytes, length, VTE_KIND(VTE_OSC), 0, events, 256,
 *                                     &data, &counts);
 *         if (read == VTE_REFUSED) break;
 *         for (size_t i = 0; i < counts.events; i++) {
 *             vte_items pieces = vte_items_of(&events[i], data);
 *             while (vte_next_piece(&pieces)) use(pieces.at, pieces.length);
 *         }
 *         bytes += read;
 *         length -= read;
 *     }
 *     vte_long_parser_free(parser);
 *
 * The rules are those of vte.h.
 */
#ifndef VTE_LONG_H
#define VTE_LONG_H

#include "vte.h"

#ifdef __cplusplus
extern "C" {
#endif

typedef struct vte_long_parser vte_long_parser;

/* What a call returns if memory was refused: it read nothing. Call it again once there is some. */
#define VTE_REFUSED ((size_t)-2)

/* Returns a new parser, or NULL if memory is refused. */
vte_long_parser *vte_long_parser_new(void);

/* Frees a parser, once, and not during a call. NULL is no parser. */
void vte_long_parser_free(vte_long_parser *parser);

/* Reads bytes as vte_feed does, but 64 KiB at most. Returns how many were read, VTE_NO_ROOM if
 * there is room for fewer than VTE_MIN_EVENTS events, or VTE_REFUSED, also for a command of 4
 * GiB.
 *
 * Sets `*data_area` to the data area, which is valid until the next call with the parser. If only
 * VTE_OSC is wanted, what can't be a part of one is skipped at the speed of memchr. */
size_t vte_long_feed(vte_long_parser *parser, const uint8_t *bytes, size_t length, uint32_t kinds,
                     uint32_t stop_kinds, vte_event *events, size_t event_room,
                     const uint8_t **data_area, vte_counts *counts);

/* Returns what is unfinished, as vte_is_open does. */
uint8_t vte_long_is_open(const vte_long_parser *parser);

#ifdef __cplusplus
}
#endif

#endif
