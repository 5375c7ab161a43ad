/* SPDX-License-Identifier: Apache-2.0 OR MIT */
/* vte.h: a parser of the bytes that programs send to a terminal.
 *
 * Link with libvte_c.a or libvte_c.so. These functions allocate no memory, keep no pointer and have
 * no state of their own: a parser is plain data that you own, and so are the buffers for what it
 * reports.
 *
 *     vte_parser parser = {{0}};
 *     vte_event events[256];
 *     uint8_t data[8192];
 *     vte_counts counts;
 *     while (length > 0) {
 *         size_t read = vte_feed(&parser, bytes, length, VTE_ALL_KINDS, 0, events, 256, data,
 *                                sizeof data, &counts);
 *         for (size_t i = 0; i < counts.events; i++)
 *             if (events[i].kind == VTE_TEXT)
 *                 draw(vte_text_of(&events[i], bytes, data), events[i].code);
 *         bytes += read;
 *         length -= read;
 *     }
 *
 * The events are those of the whole stream, in order, however you split the input, and however
 * large the buffers are. There is nothing to call at the end of the stream. A VTE_TEXT stands for
 * the characters of a text, one after another, and a VTE_DATA for bytes of data. How these are
 * split into events depends on the input and the buffers.
 *
 * A pointer to bytes, events or text may be NULL if its length is 0; no other may. What a call
 * writes may not overlap anything else that is passed. Threads may use different parsers at once.
 * Nothing protects one parser: give it to one call at a time.
 */
#ifndef VTE_H
#define VTE_H

#include <stddef.h>
#include <stdint.h>

#ifdef __cplusplus
extern "C" {
#endif

/* The version of this interface; vte_version() returns that of the library. */
#define VTE_VERSION 6

/* A parser. All zeros is a new parser. It can be copied, stored and compared as bytes. With any
 * other bytes, calls still keep to your buffers, but what they report means nothing. */
typedef struct {
    uint64_t words[164];
} vte_parser;

/* The kinds of events. */
enum {
    VTE_TEXT = 0,    /* characters to show, one or more: vte_text_of says where their UTF-8 is */
    VTE_EXECUTE = 1, /* a control function of one byte, 00..1F or 80..9F */
    VTE_HOOK = 2,    /* a device control string begins: groups and intermediates, as VTE_CSI */
    VTE_DATA = 3,    /* bytes of its data, one or more: vte_text_of says where */
    VTE_UNHOOK = 4,  /* its end */
    VTE_OSC = 5,     /* an operating system command: pieces, at most 16, with 1,024 data bytes */
    VTE_CSI = 6,     /* a control sequence: groups of numbers, and intermediates */
    VTE_ESC = 7      /* an escape sequence: intermediates */
};

/* Sets of kinds: VTE_KIND(VTE_OSC) | VTE_KIND(VTE_CSI). */
#define VTE_KIND(kind) (1u << (kind))
#define VTE_ALL_KINDS 0xffu

/* The flags of a VTE_OSC. */
enum {
    VTE_BELL = 1,     /* BEL ended it */
    VTE_TRUNCATED = 2 /* data bytes were dropped: those after the first 1,024, and those after the
                         16th piece */
};

/* An event.
 *
 *     kind                         flag                                    code
 *     VTE_TEXT, VTE_DATA           1 if its bytes are in the data area,    how many these are
 *                                  0 if in those of the call
 *     VTE_EXECUTE                  0                                       the byte
 *     VTE_HOOK, VTE_CSI, VTE_ESC   1 if numbers or intermediates were      the final byte
 *                                  left out, as there were too many
 *     VTE_UNHOOK                   0                                       0
 *     VTE_OSC                      0, VTE_BELL, VTE_TRUNCATED or both      0
 */
typedef struct {
    uint8_t kind;               /* VTE_TEXT.. */
    uint8_t flag;               /* depends on the kind, as the table says */
    uint8_t intermediate_count; /* at most 2 */
    uint8_t count;              /* how many groups or pieces there are */
    uint8_t intermediates[2];   /* including a private marker `<`..`?` */
    uint16_t unused;
    uint32_t code;              /* depends on the kind, as the table says */
    uint32_t start;             /* where its groups or pieces start in the data area; where its text
                                   or data starts */
} vte_event;

/* How many events, and how many bytes of the data area, a call wrote. */
typedef struct {
    size_t events;
    size_t data;
} vte_counts;

/* With less room than this a call reads nothing, sets its counts to 0, and returns VTE_NO_ROOM,
 * even if there are no bytes to read. */
#define VTE_MIN_EVENTS 4
#define VTE_MIN_DATA 2112
#define VTE_MIN_TEXT 16
#define VTE_NO_ROOM ((size_t)-1)

/* Reads bytes, and writes the events of some kinds that they add to the stream. Returns how many
 * bytes were read, or VTE_NO_ROOM.
 *
 * It stops early when the buffers are nearly full, after 4 GiB, and after the first event of the
 * kinds `stop_kinds` that it writes: call it again with the rest, or with the rest and more. At
 * most one event follows that which stops, and only if the same byte gives both. If texts stop, it
 * may write one and return 0, because the first byte breaks a character.
 *
 * A sequence or a character that is unfinished at the end of the bytes continues in the next call.
 * Texts and data stay in the bytes: keep these until you have read the events. */
size_t vte_feed(vte_parser *parser, const uint8_t *bytes, size_t length, uint32_t kinds,
                uint32_t stop_kinds, vte_event *events, size_t event_room, uint8_t *data_area,
                size_t data_room, vte_counts *counts);

/* Reads bytes, and writes the text that is left without the sequences: characters in UTF-8, HT, LF
 * and CR. Returns how many bytes were read, or VTE_NO_ROOM. It stops early when the buffer is
 * nearly full, as vte_feed does.
 *
 * Use a parser either for events or for text. */
size_t vte_strip(vte_parser *parser, const uint8_t *bytes, size_t length, uint8_t *text,
                 size_t text_room, size_t *written);

/* What is unfinished. It began at the last ESC, or is at most three bytes of a character. */
enum {
    VTE_OPEN_NOTHING = 0,
    VTE_OPEN_CHARACTER = 1,
    VTE_OPEN_ESC = 2,    /* an escape sequence; or only ESC, after which any other may follow */
    VTE_OPEN_CSI = 3,    /* a control sequence */
    VTE_OPEN_DCS = 4,    /* a device control string: its head, or its data */
    VTE_OPEN_OSC = 5,    /* an operating system command */
    VTE_OPEN_IGNORED = 6 /* a string that means nothing (SOS, PM, APC), or a device control string
                            after an ill-shaped head */
};

/* Returns what is unfinished, or 0: one of VTE_OPEN_. */
uint8_t vte_is_open(const vte_parser *parser);

/* The version of the library, the sizes of vte_parser and vte_event, and the minimum room. */
uint32_t vte_version(void);
size_t vte_parser_size(void);
size_t vte_event_size(void);
size_t vte_min_events(void);
size_t vte_min_data(void);
size_t vte_min_text(void);

/* ---- texts, groups and pieces ---- */

/* Returns the text of a VTE_TEXT, which has event->code bytes: whole characters in UTF-8, and none
 * of them a control; or the data of a VTE_DATA. `bytes` are those of the call that wrote the
 * event. */
static inline const uint8_t *vte_text_of(const vte_event *event, const uint8_t *bytes,
                                         const uint8_t *data_area) {
    return (event->flag ? data_area : bytes) + event->start;
}

/* Iterates over the groups of a VTE_CSI or a VTE_HOOK, or over the pieces of a VTE_OSC:
 *
 *     vte_items items = vte_items_of(&event, data);
 *     while (vte_next_group(&items))
 *         for (size_t i = 0; i < items.length; i++) use(vte_number(&items, i));
 *
 *     vte_items items = vte_items_of(&event, data);
 *     while (vte_next_piece(&items)) use(items.at, items.length);
 *
 * The numbers of a group were joined by `:`. */
typedef struct {
    const uint8_t *at;   /* the group or the piece */
    size_t length;       /* how many numbers or bytes it has */
    const uint8_t *next; /* what follows */
    size_t left;         /* how many follow */
} vte_items;

static inline vte_items vte_items_of(const vte_event *event, const uint8_t *data_area) {
    vte_items items;
    items.at = items.next = data_area + event->start;
    items.length = 0;
    items.left = event->count;
    return items;
}

/* Moves to the next group. Returns 0 if there is none. */
static inline int vte_next_group(vte_items *items) {
    if (items->left == 0) return 0;
    items->left--;
    items->length = items->next[0];
    items->at = items->next + 1;
    items->next = items->at + 2 * items->length;
    return 1;
}

/* Moves to the next piece. Returns 0 if there is none. */
static inline int vte_next_piece(vte_items *items) {
    if (items->left == 0) return 0;
    items->left--;
    items->length = 0;
    for (int i = 3; i >= 0; i--) items->length = items->length << 8 | items->next[i];
    items->at = items->next + 4;
    items->next = items->at + items->length;
    return 1;
}

/* Returns a number of the group. */
static inline uint16_t vte_number(const vte_items *items, size_t index) {
    return (uint16_t)(items->at[2 * index] | items->at[2 * index + 1] << 8);
}

#ifdef __cplusplus
}
#endif

#endif
