/*
 * The transmit path of a Wi-Fi access point, for drivers and simulators in C and C++; and, for test benches,
 * a cell: a transmit path with the receive halves of its stations and the history of all calls.
 *
 * Every function is proved against its contract (crates/wf_c). This header says in words what the contracts
 * say. It also says which conditions a caller has to keep, which C does not check, and under "Not proved"
 * what no contract says.
 *
 * Handles. A `struct wf_path` belongs to the caller. It is empty while it is all zero. `wf_path_make` puts a
 * path into it, and `wf_path_free` takes the path out and frees it; between these two calls every other
 * function may be called on it. A second `wf_path_make` returns WF_IN_USE, and to free an empty handle does
 * nothing. Do not copy a handle, and do not use its field. In C++ `{}` initializes a
 * handle, and a handle may be moved by copying its bits if the old one is then zeroed. A `struct wf_cell` is
 * the same for a cell.
 *
 * Memory. `wf_path_make` allocates memory for the path, and `wf_path_enqueue` for one frame and its body;
 * `wf_cell_make` and `wf_cell_enqueue` do the same for a cell. `wf_path_enqueue_bare` and the enqueues of
 * `wf_path_burst` need memory for a frame only if none is left of what `wf_path_reserve` allocated before;
 * those of a cell always do. They call malloc, realloc and free of the program. These three have to belong to
 * one allocator, and have to align a block to each power of two up to 16 that divides its size.
 *
 * Threads. A handle may move from thread to thread, and threads may share one under one lock of theirs. Two
 * calls on one handle must not run at the same time, unless both are readers: a reader is a function that
 * takes a handle by a pointer to const. Two handles share no state. It is proved that a path, a cell and the
 * handle of either may be sent to another thread (Rust's `Send`). No function waits for another thread. Do
 * not call a function from a signal handler, nor in the child of a fork of a process with threads. With POSIX
 * threads:
 *
 *     pthread_mutex_lock(&lock);
 *     code = wf_path_pull(&path, WF_BE, &reply, &frames);
 *     pthread_mutex_unlock(&lock);
 *
 * `reply` and `frames` are the caller's: each thread has its own, and may read them after it has released the
 * lock.
 *
 * Buffers. A pointer must not be null, even if the length is 0. The only exception is `body` of wf_path_reap
 * and wf_cell_reap if `room` is 0. Memory that a function writes to must not overlap any other argument, nor
 * the body of a packet. `length`, `count` and `room` are at most the size of the buffer. Every struct and
 * buffer must be initialized, for example by `= {0}`, before it is passed to a function; the `body` of a
 * packet then still has to be set. The library keeps no pointer of the caller's.
 *
 * Platform. Pointers and size_t have 64 bits, and each field of a struct has its natural alignment: do not
 * pack structs.
 *
 * Units. Times are in microseconds. Station numbers are 0 to `stations` - 1, and TIDs 0 to 7. The counts of a
 * path must stay below 2^62: the clock, the exchanges, the accepted frames, each live station's airtime in
 * each class, and of each BSS the accepted group frames, 131,072 times the group frames that were sent, and
 * the sequence numbers of group frames and beacons (wf_path_now, wf_path_exchanges, wf_path_tally,
 * wf_path_share, wf_path_group_counts). wf_path_has_small_counts says whether they are. Before wf_path_burst
 * they must be below 2^61, and a burst has fewer than 2^32 calls. This does not apply to cells.
 *
 * Breaches. A handle that is never freed leaks what it holds. Every other breach is undefined behaviour:
 * - to use a handle while it is empty, except to make or free it, or to use a handle and a copy of it;
 * - to pass a handle of a cell as one of a path, by a cast, or the reverse;
 * - to use one handle in two functions at once, unless both are readers;
 * - a `length`, `count` or `room` above the size of the buffer: memory after the buffer is read or written;
 * - a struct with another layout, or another kind of platform;
 * - a null pointer, an overlap, a buffer that is not initialized, or a count that is not below its limit.
 *
 * Not proved.
 * - That memory is ever available: by its contract, each function that allocates may return WF_NO_MEMORY.
 *   It is proved that the next n calls of wf_path_enqueue_bare after wf_path_reserve of n never return it.
 * - That no other function allocates, nor wf_path_enqueue_bare while memory is in reserve. By the code none
 *   does.
 * - That a reader writes neither to the handle nor to what it holds: its contract says only that the value of
 *   what it holds is unchanged. By the code no reader writes. checks/c-library calls each of them on a handle
 *   in read-only memory.
 * - That a null `body` with `room` 0 is as good as any other pointer: no contract mentions null. By the code
 *   it is never dereferenced.
 * - That memory is freed: that of a frame when it is reaped or refused, and all of a path or a cell by its
 *   `free`. It is proved that nothing is freed twice. checks/c-library runs programs under sanitizers that
 *   report leaks.
 * - That the counts of a path stay below 2^62. By the code, wf_path_advance sets the clock to a time below
 *   2^61, and no other call raises a count by more than 10,000,000. So the counts stay below 2^62 for the
 *   first 2^37 calls. After more calls, wf_path_has_small_counts says whether the path may still be used.
 */
#ifndef WF_H
#define WF_H

#include <stddef.h>
#include <stdint.h>

/* The version of this header and of its library, and what may change with each part of the number.
 * - Another patch number: nothing that this header says.
 * - Another minor number: there may be more functions, codes, kinds and settings; settings use the reserved
 *   numbers of wf_settings. No other struct gets a field, not even in its padding: more data of a packet, or
 *   of a reaped frame, would get new functions. No number changes its meaning, and no function gets a
 *   stricter condition. So a program that was built with an older header runs over a newer library unchanged,
 *   and the same calls get the same answers.
 * - Another major number: anything. The soname contains the major number (libwf.so.1). */
#define WF_VERSION_MAJOR 1
#define WF_VERSION_MINOR 0
#define WF_VERSION_PATCH 0
#define WF_VERSION "1.0.0"

#ifdef __cplusplus
extern "C" {
#endif

/* The values that functions of type int32_t return, except wf_path_live, wf_path_in_service, wf_path_can_pull,
 * wf_path_listed and wf_path_has_small_counts. 0 means success. Any other code says why nothing has changed:
 * neither what the handle holds, nor the caller's structs and buffers. There are these exceptions:
 * - `reply` shows the refusal, if the code is 1 to 43, unless the comment of the function says that it is
 *   unchanged;
 * - after a code of wf_path_burst or wf_cell_burst the first `made` calls are made;
 * - WF_FULL, WF_AHEAD and WF_IDLE set the count of `frames` of wf_path_pull and wf_path_pull_limited to 0;
 * - WF_IDLE may have changed something of the path or the cell, unless the setting `pending` is 1;
 * - a refused call of a cell is an entry of its history, except after WF_HISTORY_FULL;
 * - after each refusal of a cell, also WF_HISTORY_FULL, wf_cell_frames and wf_cell_released write the count 0,
 *   and wf_cell_block writes zeros;
 * - the comments of the functions name the others. */
enum wf_code {
  /* success */
  WF_OK = 0,
  /* begin refusals: tools/tables writes these lines */
  /* refusals; `reply` then has kind WF_KIND_REFUSED */
  WF_BAD_STATION = 1,   /* the station number is not below `stations` */
  WF_BAD_WINDOW = 2,    /* the window is not 1 to 256 */
  WF_BAD_START = 3,     /* the first sequence number is above 4095 */
  WF_BAD_EXPONENT = 4,  /* the A-MPDU length exponent is above 3 */
  WF_BAD_RATE = 5,      /* the rate does not exist: its format does not have this MCS, width,
                         * guard interval, number of streams or speed, or it is one of the ten
                         * combinations that VHT leaves out; or the setting `legacy` does not
                         * allow it (wf_path_rate_vht, wf_path_rate_ofdm) */
  WF_BAD_TICK = 6,      /* the clock would move by more than 10,000,000 microseconds;
                         * wf_path_advance: back, or to 2^61 or more */
  WF_BAD_TID = 7,       /* the TID is above 7 */
  WF_BAD_AIR = 8,       /* `rx`: the airtime is 0 or above 65,535 microseconds; `done`: the
                         * airtime that is given is 0 or above `charge` */
  WF_BAD_INDEX = 9,     /* the exchange has no transmission of that index */
  WF_LIVE = 10,         /* the station is live already */
  WF_NO_STATION = 11,   /* the station is not live */
  WF_NO_EXCHANGE = 12,  /* no open exchange has that number */
  WF_NO_ANSWER = 13,    /* the call says that the BlockAck was heard, but the station has not
                         * answered the exchange */
  WF_OPEN = 14,         /* the station has `count` open exchanges */
  WF_ROOM = 15,         /* `count` frames are accepted and not yet reaped: as many as `room` */
  WF_SLEEPING = 16,     /* the station sleeps, and `count` frames of the class are queued for it:
                         * `sleeping` or more */
  WF_FULL = 17,         /* `count` exchanges of the class are open: as many as `inflight` */
  WF_IDLE = 18,         /* `pull`: no station of the class is ready; after this refusal alone
                         * something may have changed. `gpull`: no group frame may go now */
  WF_ANSWERED = 19,     /* the exchange was answered already */
  WF_ARRIVED = 20,      /* that transmission arrived already */
  WF_NOTHING = 21,      /* there is nothing to answer, to send, to reap or to end */
  WF_ASLEEP = 22,       /* `sleep`: the station is asleep already; `apsd` and `bss`: the station
                         * is asleep */
  WF_AWAKE = 23,        /* the station is awake */
  WF_POLLED = 24,       /* `poll`: the station has a credit that is not spent yet; `trigger`: its
                         * service period is open already */
  WF_DEBT = 25,         /* the deficit, which stays at `deficit`, would fall below -`debt`
                         * microseconds */
  WF_HISTORY_FULL = 26, /* the history has `calls` entries; this call is not added to it */
  WF_BAD_WEIGHT = 27,   /* the weight is not 1 to 16 */
  WF_AHEAD = 28,        /* `air` microseconds of computed airtime are in flight in all classes:
                         * `aql_total` or more */
  WF_BAD_AMPDU = 29,    /* the greatest aggregate is not 4,096 to 6,500,631 octets */
  WF_STOPPED = 30,      /* the station is stopped already */
  WF_STARTED = 31,      /* the station is not stopped */
  WF_MARKED = 32,       /* that transmission has a mark: it never went on the air, or the device
                         * will not try it again */
  WF_OFFLOADED = 33,    /* the device of the station makes its agreements */
  WF_AGREED = 34,       /* `hold`: the TID has an agreement; `rate` to OFDM or DSSS: a TID of the
                         * station has one or is held */
  WF_TID_HELD = 35,     /* the TID is held already */
  WF_NOT_HELD = 36,     /* the TID is not held */
  WF_NOT_AGREED = 37,   /* the TID has no agreement */
  WF_WAITS = 38,        /* `count` sequence numbers of the TID wait to be sent */
  WF_LEGACY = 39,       /* the rate of the station is one of OFDM or DSSS, at which it has no
                         * agreement */
  WF_BUFFERED = 40,     /* `count` group frames are queued: as many as `buffered` */
  WF_FLYING = 41,       /* a group frame is on the air */
  WF_BAD_CLASSES = 42,  /* the delivery-enabled classes are not 0 to 15 */
  WF_BAD_BSS = 43,      /* the BSS number is not below `bsses`, or not 0 if `bsses` is 0 */
  /* end refusals */
  /* other codes */
  WF_NO_MEMORY = 60,    /* out of memory */
  WF_BAD_LENGTH = 61,   /* the body is empty, or longer than WF_GREATEST_BODY */
  WF_SMALL_BUFFER = 62, /* the buffer is too small */
  WF_BAD_CALL = 63,     /* no call, a rate of no format, a class above 3, a group frame without octets
                         * or longer than WF_GREATEST_BODY, or a call that the function does not make */
  WF_BAD_ADDRESS = 64,  /* the address is a group address: the lowest bit of its first octet is set;
                         * wf_path_group: it is none */
  WF_NO_BODY = 65,      /* the frame has no octets: write its header (wf_path_header), and send the
                         * body from its owner's buffer */
  WF_BAD_AID = 66,      /* the association identifier is 0 or above 2007 */
  WF_BAD_CLASS = 67,    /* the class is above 3 */
  WF_BAD_OUTCOME = 68,  /* an outcome is above 3 (enum wf_outcome) */
  WF_IN_USE = 69,       /* the handle holds something already */
  /* why octets are not a BlockAck to the exchange */
  WF_BLOCK_LENGTH = 71, /* not 28 octets, nor, if the window is above 64, 52 */
  WF_BLOCK_KIND = 72,   /* not a BlockAck */
  WF_BLOCK_BASIC = 73,  /* not compressed */
  WF_BLOCK_MULTI = 74,  /* for several TIDs */
  WF_BLOCK_FRAGMENT = 75, /* its fragment number is not 0, or, of 52 octets, not 4 */
  WF_BLOCK_NARROW = 76, /* of 52 octets, and its fragment number is 0, that of 64 bits */
  WF_NOT_MINE = 77,     /* not to the access point, or not from the exchange's station */
  WF_WRONG_TID = 78,    /* for another TID */
  /* wf_path_make, wf_cell_make: 100 plus the place, counted from 1, of the first setting that is out of its
   * range, or of the first reserved number that is not 0; their places follow those of the settings, up to
   * 32 */
  WF_BAD_SETTING = 100
};

/* The access classes: background, best effort, video and voice. For a number above 3 wf_path_can_pull and
 * wf_path_listed return 0, calls of a cell or a burst WF_BAD_CALL, and all other functions WF_BAD_CLASS. */
enum wf_class { WF_BK = 0, WF_BE = 1, WF_VI = 2, WF_VO = 3 };

/* The fates of frames. */
enum wf_fate {
  /* begin fates: tools/tables writes these lines */
  WF_HELD = 0,      /* inside: queued, waiting for a transmission or on the air; no reaped frame
                     * is held */
  WF_ACKED = 1,     /* acknowledged: a BlockAck showed that it arrived */
  WF_OVERLIMIT = 2, /* dropped when the flow queues held `limit` frames: it was the head of the
                     * longest */
  WF_CODEL = 3,     /* dropped by CoDel (RFC 8289) */
  WF_RETRIES = 4,   /* dropped after its last transmission: it was sent `attempts` times or given
                     * up, and never acknowledged */
  WF_LEFT = 5,      /* dropped when its station left */
  WF_FLUSHED = 6,   /* dropped when its TID was flushed */
  WF_ENDED = 7      /* dropped when the agreement of its TID ended */
  /* end fates */
};

/* The outcomes of a transmission, for wf_path_done_each. */
enum wf_outcome {
  WF_OUTCOME_ACKED = 0,  /* it was acknowledged */
  WF_OUTCOME_RETRY = 1,  /* it was not acknowledged, and may be tried again, unless it is of a batch */
  WF_OUTCOME_UNSENT = 2, /* it never went on the air (wf_path_unsent) */
  WF_OUTCOME_GAVE_UP = 3 /* it was not acknowledged, and the device will not try it again (wf_path_give_up) */
};

/* The kinds of answers, each with the fields of `struct wf_reply` that have a meaning; all other fields are
 * 0. An answer's name is the first word of its line in a trace (docs/TRACE.md). */
enum wf_kind {
  WF_KIND_JOINED = 0,
  WF_KIND_LEFT = 1,      /* count: the number of frames that were dropped */
  WF_KIND_SET = 2,       /* the rate, the greatest aggregate, the weight, the delivery-enabled classes or the
                          * BSS is set */
  WF_KIND_NOW = 3,       /* now */
  WF_KIND_ACCEPTED = 4,  /* id; dropped, if has_dropped is 1 */
  WF_KIND_SEND = 5,      /* exchange, station, tid, air, more, batch, plain, eosp; start, if request is 1 */
  WF_KIND_RELEASED = 6,  /* only from a cell: wf_cell_released writes the frames */
  WF_KIND_BA = 7,        /* only from a cell: wf_cell_block writes the BlockAck */
  WF_KIND_DONE = 8,      /* acked, waiting, failed */
  WF_KIND_SLEPT = 9,
  WF_KIND_WOKEN = 10,
  WF_KIND_POLLED = 11,   /* class_ */
  WF_KIND_CHARGED = 12,  /* deficit */
  WF_KIND_REAPED = 13,   /* id, fate */
  WF_KIND_REFUSED = 14,  /* refusal; count, deficit or air, if the refusal has one */
  WF_KIND_STOPPED = 15,
  WF_KIND_STARTED = 16,
  WF_KIND_MARKED = 17,   /* the transmission is marked as unsent or as given up */
  WF_KIND_FLUSHED = 18,  /* count: the number of frames that were dropped */
  WF_KIND_ACK = 19,      /* only from a cell: the station answered a plain exchange with an Ack */
  WF_KIND_HELD = 20,     /* start: the number with which an agreement may begin */
  WF_KIND_BEGUN = 21,    /* the agreement has begun */
  WF_KIND_FREED = 22,    /* the TID sends its frames one at a time */
  WF_KIND_CEASED = 23,   /* count: the number of frames that were dropped; from a cell
                          * wf_cell_released writes the frames that the station passed up */
  WF_KIND_QUEUED = 24,   /* id: the group frame that was accepted */
  WF_KIND_BEACON = 25,   /* count: the DTIM count; more: 1 if the beacon announces group frames */
  WF_KIND_GSEND = 26,    /* id, start, air, more: the group frame to send, and its sequence number */
  WF_KIND_GDONE = 27,    /* id: the group frame that was sent */
  WF_KIND_TRIGGERED = 28, /* class_: a service period is open */
  WF_KIND_ENDED = 29     /* the service period ended */
};

/* The calls of a cell, each with the fields of `struct wf_call` that have a meaning. The other fields are 0
 * in an entry that is read, and are ignored in a call that is made. A call has the number of its answer,
 * except that WF_CALL_AMPDU, WF_CALL_WEIGHT, WF_CALL_APSD and WF_CALL_BSS are answered with WF_KIND_SET,
 * WF_CALL_GIVEUP with WF_KIND_MARKED, WF_CALL_FLUSH with WF_KIND_FLUSHED, WF_CALL_OFFLOAD and WF_CALL_PLAIN with
 * WF_KIND_JOINED, WF_CALL_HOLD with WF_KIND_HELD, WF_CALL_BEGIN with WF_KIND_BEGUN, WF_CALL_FREE with
 * WF_KIND_FREED, WF_CALL_CEASE with WF_KIND_CEASED, WF_CALL_GROUP with WF_KIND_QUEUED, WF_CALL_BEACON with
 * WF_KIND_BEACON, WF_CALL_GPULL with WF_KIND_GSEND, WF_CALL_GDONE with WF_KIND_GDONE, WF_CALL_TRIGGER with
 * WF_KIND_TRIGGERED, and WF_CALL_EOSP with WF_KIND_ENDED. WF_CALL_ANSWER of a plain exchange is answered with
 * WF_KIND_ACK. */
enum wf_call_kind {
  /* begin calls: tools/tables writes these lines; the comments stay */
  WF_CALL_JOIN = 0,     /* station, window, start, exponent, weight */
  WF_CALL_LEAVE = 1,    /* station */
  WF_CALL_RATE = 2,     /* station, form; OFDM and DSSS: speed; HT: mcs, mhz and short_guard;
                         * VHT: these and streams; HE: mcs, mhz, guard and streams */
  WF_CALL_TICK = 3,     /* by */
  WF_CALL_ENQUEUE = 4,  /* station, tid, flow, length; made by wf_cell_enqueue, or in a burst */
  WF_CALL_PULL = 5,     /* class_; frames and air, each 0 if it limits nothing */
  WF_CALL_ARRIVE = 6,   /* exchange, index */
  WF_CALL_ANSWER = 7,   /* exchange */
  WF_CALL_DONE = 8,     /* exchange, heard; air, or 0 if no airtime is given */
  WF_CALL_SLEEP = 9,    /* station */
  WF_CALL_WAKE = 10,    /* station */
  WF_CALL_POLL = 11,    /* station */
  WF_CALL_RX = 12,      /* station, class_, air */
  WF_CALL_REAP = 13,    /* made by wf_cell_reap, or in a burst */
  WF_CALL_AMPDU = 14,   /* station, octets */
  WF_CALL_STOP = 15,    /* station */
  WF_CALL_START = 16,   /* station */
  WF_CALL_UNSENT = 17,  /* exchange, index */
  WF_CALL_GIVEUP = 18,  /* exchange, index */
  WF_CALL_FLUSH = 19,   /* station, tid */
  WF_CALL_OFFLOAD = 20, /* station, exponent, weight */
  WF_CALL_WEIGHT = 21,  /* station, weight */
  WF_CALL_PLAIN = 22,   /* station, start, exponent, weight */
  WF_CALL_HOLD = 23,    /* station, tid */
  WF_CALL_BEGIN = 24,   /* station, tid, window */
  WF_CALL_FREE = 25,    /* station, tid */
  WF_CALL_CEASE = 26,   /* station, tid */
  WF_CALL_GROUP = 27,   /* bss; length: 1 to WF_GREATEST_BODY */
  WF_CALL_BEACON = 28,  /* bss */
  WF_CALL_GPULL = 29,   /* bss */
  WF_CALL_GDONE = 30,   /* bss */
  WF_CALL_APSD = 31,    /* station, classes, most */
  WF_CALL_TRIGGER = 32, /* station */
  WF_CALL_EOSP = 33,    /* station */
  WF_CALL_BSS = 34      /* station, bss */
  /* end calls */
};

/* Sizes in octets: the longest body of a frame, the longest transmission, and the headers of a data frame and
 * of a group frame. */
#define WF_GREATEST_BODY 2304
#define WF_GREATEST_MPDU 2330
#define WF_HEADER 26
#define WF_GROUP_HEADER 24

/* The size of a buffer for a name, in octets. */
#define WF_NAME 16

/* The handle of a path. */
struct wf_path {
  void *at;
};

/* The settings of a path or a cell; ranges in brackets. */
struct wf_settings {
  /* begin settings: tools/tables writes these lines */
  uint32_t stations;     /* greatest number of stations, which are numbered 0 to `stations` - 1
                          * [1..256] */
  uint32_t flows;        /* shared flow queues [1..4096] */
  uint32_t limit;        /* frames in flow and overflow queues [1..65535] */
  uint32_t room;         /* frames accepted and not yet reaped [1..131072] */
  uint32_t flow_quantum; /* octets per flow visit [64..65535] */
  uint32_t quantum;      /* microseconds per station visit, for weight 1 [100..10000] */
  uint32_t inflight;     /* open exchanges per class [1..8] */
  uint32_t attempts;     /* transmissions of one frame [1..64] */
  uint32_t agg;          /* frames in one aggregate [1..256] */
  uint32_t cap;          /* data time of one aggregate, microseconds [3000..5400] */
  uint32_t sleeping;     /* frames queued per sleeping station and class [1..65535] */
  uint32_t calls;        /* limit on the calls in a history, such as that of a trace; a path has
                          * none [1..4294967295] */
  uint32_t charge;       /* greatest airtime that `done` may give, in microseconds; with 0 it may
                          * give none [0..65535] */
  uint32_t debt;         /* how far below 0 `rx` may bring a deficit, in microseconds
                          * [0..1000000] */
  uint32_t aql_total;    /* limit on the airtime in flight of all classes together, in
                          * microseconds; 0 means no limit [0..262144] */
  uint32_t keep_order;   /* whether the frames of a flow keep their order [0..1] */
  uint32_t codel_reset;  /* whether CoDel starts outside its dropping state when a queue joins a
                          * TID's list [0..1] */
  uint32_t aql;          /* limit on the airtime in flight of one station in one class, in
                          * microseconds; 0 means no limit [0..262144] */
  uint32_t pending;      /* whether the airtime in flight counts against a station when a pull
                          * picks one [0..1] */
  uint32_t overhead;     /* octets of encryption that each MPDU has in addition to its header,
                          * body and check sequence [0..32] */
  uint32_t cap_vi;       /* data time of one aggregate of `vi`, microseconds; 0 means `cap`
                          * [0..5400] */
  uint32_t cap_vo;       /* data time of one aggregate of `vo`, microseconds; 0 means `cap`
                          * [0..5400] */
  uint32_t answers;      /* whether BlockAcks and BlockAckReqs go at 6, 12 or 24 Mbit/s by the
                          * rate of the data; with 0 always at 24 [0..1] */
  uint32_t credits;      /* whether a credit blocks the next poll only while the station can send
                          * in the credit's class [0..1] */
  uint32_t legacy;       /* which rates a station may have: HT, VHT and HE; with 1 also OFDM;
                          * with 2 also OFDM and DSSS [0..2] */
  uint32_t period;       /* DTIM period: the number of beacons from one DTIM beacon to the next;
                          * 0 means 1 [0..255] */
  uint32_t buffered;     /* group frames that may be queued; with 0 none is accepted [0..65535] */
  uint32_t bsses;        /* BSSs, which are numbered 0 to `bsses` - 1; 0 means 1 [0..16] */
  uint32_t reserved[4];  /* for later settings: each has to be 0 */
  /* end settings */
};

/* The answer to a call. `kind` says which of the other fields have a meaning (enum wf_kind). */
struct wf_reply {
  uint64_t exchange;    /* the exchange to send */
  uint64_t id;          /* the frame that was accepted or reaped, or the group frame; ids count from 0 */
  uint64_t dropped;     /* the frame that was dropped because the flow queues were full */
  uint64_t now;         /* the clock */
  int64_t deficit;      /* the deficit after the charge; after WF_DEBT the one that stays */
  uint32_t air;         /* the airtime of the exchange or of the group frame; after WF_AHEAD the airtime in
                         * flight */
  uint32_t count;       /* frames that a leave, a flush or the end of an agreement dropped, the DTIM count, or
                         * the `count` of a refusal */
  uint16_t station;     /* the station to send to */
  uint16_t start;       /* the start of the BlockAckReq, the number with which an agreement may begin, or
                         * the sequence number of the group frame: 0 to 4095 */
  uint16_t acked;       /* frames of the exchange that are acknowledged */
  uint16_t waiting;     /* frames of the exchange that wait to be sent again */
  uint16_t failed;      /* frames of the exchange that are dropped */
  uint8_t kind;         /* enum wf_kind */
  uint8_t refusal;      /* enum wf_code, 0 to 43: what the function returned */
  uint8_t tid;          /* the TID to send for */
  uint8_t class_;       /* enum wf_class: the class of the credit, or the first class to pull in a service
                         * period */
  uint8_t fate;         /* enum wf_fate */
  uint8_t has_dropped;  /* 1 if `dropped` is set, else 0 */
  uint8_t request;      /* 1 if the exchange is a BlockAckReq, else 0 */
  uint8_t more;         /* 1 if the station has more to be sent, or another group frame follows (the More
                         * Data bit), or the beacon announces group frames; else 0 */
  uint8_t batch;        /* 1 if the frames are for a device that numbers them (wf_path_join_offload), else 0 */
  uint8_t plain;        /* 1 if the exchange is one frame without an agreement, which an Ack answers
                         * (wf_path_plain), else 0 */
  uint8_t eosp;         /* 1 if the exchange is the last one of a service period (wf_path_trigger), else 0; the
                         * header of its last frame has the EOSP bit, and those before it More Data */
};

/* The frames of an exchange: the first `count` ids and sequence numbers (0 to 4095). Those of a batch have no
 * sequence numbers: these are 0. The entries after them have no meaning: no contract says what a function
 * leaves there. */
struct wf_frames {
  uint64_t ids[256];
  uint16_t numbers[256];
  uint16_t count;
};

/* The station of an open exchange, and what it sends. */
struct wf_sent {
  uint16_t station;
  uint16_t count;  /* transmissions: one for each frame, or 1 for a BlockAckReq */
  uint8_t tid;
  uint8_t request; /* 1 if it sends a BlockAckReq, else 0 */
};

/* A packet for a station, to be sent as a frame. */
struct wf_packet {
  const uint8_t *body; /* its octets, which are copied */
  size_t length;       /* the number of octets: 1 to WF_GREATEST_BODY */
  uint64_t tag;        /* identifies the packet to its owner; the library does not use it */
  uint32_t flow;       /* the number of its flow */
  uint8_t source[6];   /* its source address, the third of its header; six zeros mean 02:00:00:02:00:00 */
  uint8_t tid;         /* 0 to 7 */
};

/* A packet for a station, to be sent as a frame whose octets stay with its owner. */
struct wf_bare {
  uint64_t tag;        /* identifies the packet to its owner; the library does not use it */
  uint32_t flow;       /* the number of its flow */
  uint16_t length;     /* the number of its octets: 1 to WF_GREATEST_BODY */
  uint8_t source[6];   /* its source address, the third of its header; six zeros mean 02:00:00:02:00:00 */
  uint8_t tid;         /* 0 to 7 */
};

/* A frame that was reaped. */
struct wf_taken {
  uint64_t id;
  uint64_t stamp;    /* the clock when it was accepted, in microseconds */
  uint64_t tag;      /* the tag of its packet */
  uint32_t flow;
  uint16_t station;
  uint16_t length;   /* the length of its body: 1 to WF_GREATEST_BODY octets */
  uint8_t source[6]; /* the source of its packet, or 02:00:00:02:00:00 if that was six zeros */
  uint8_t tid;
  uint8_t fate;      /* enum wf_fate, never WF_HELD */
  uint8_t attempts;  /* how often it was sent, at most the setting `attempts`; a transmission that never
                      * went on the air (wf_path_unsent) does not count */
  uint8_t bare;      /* 1 if its octets stayed with its owner (wf_path_enqueue_bare), else 0 */
};

/* A group frame: a data frame to a group address. Its octets stay with its owner. */
struct wf_group {
  uint64_t id;       /* ids of the group frames of a BSS count from 0, apart from all others */
  uint64_t tag;      /* identifies it to its owner; the library does not use it */
  uint16_t length;   /* the number of its octets: 1 to WF_GREATEST_BODY */
  uint8_t to[6];     /* the group address */
};

/* How many group frames of a BSS were accepted, and what became of them: accepted = sent + queued + flying. */
struct wf_group_counts {
  uint64_t accepted;
  uint64_t sent;
  uint64_t air;      /* the airtime of those that were sent, in microseconds */
  uint64_t numbers;  /* sequence numbers: one for each beacon, and one for each group frame that went on the air */
  uint32_t queued;   /* those that wait, at most `buffered` */
  uint32_t flying;   /* 1 if one is on the air, else 0 */
};

/* How many frames were accepted, and how many of them have each fate. The others are held. */
struct wf_tally {
  uint64_t accepted;
  uint64_t acked;
  uint64_t overlimit; /* dropped because the flow queues were full */
  uint64_t codel;     /* dropped by CoDel */
  uint64_t retries;   /* dropped after their last transmission */
  uint64_t left;      /* dropped because their station left */
  uint64_t flushed;   /* dropped by wf_path_flush */
  uint64_t ended;     /* dropped by wf_path_cease */
};

/* A station's airtime in a class since its join, in microseconds. */
struct wf_share {
  int64_t deficit;   /* the airtime that it may still use; below 0 if it used too much */
  uint64_t charged;  /* the airtime of its exchanges */
  uint64_t rx;       /* the airtime that it used to send (wf_path_rx) */
};

/* A queue: its octets, and the state of CoDel in it (RFC 8289). */
struct wf_codel {
  uint64_t octets;     /* the octets of the bodies in the queue */
  uint64_t drop_next;  /* if `dropping` is 1: the time, on the clock of the path, from which on a pull drops
                        * the next frame */
  uint32_t drop_count; /* the number of drops by which the control law computes this time: 1 when dropping
                        * begins, or more if it ended shortly before; each further drop adds 1 */
  uint32_t dropping;   /* 1 if pulls drop frames at the times of the control law, else 0 */
  uint64_t dropped;    /* the number of frames that CoDel dropped from the queue since the path was made, of
                        * all stations that used the queue; at most 4,294,967,295. Frames dropped for another
                        * cause, such as the limit, do not count */
};

/* The formats of rates. A call with any other `form` is WF_BAD_CALL. */
enum wf_form { WF_FORM_HT = 0, WF_FORM_VHT = 1, WF_FORM_HE = 2, WF_FORM_OFDM = 3, WF_FORM_DSSS = 4 };

/* The handle of a cell. */
struct wf_cell {
  void *at;
};

/* A call of a cell. `kind` says which of the other fields have a meaning (enum wf_call_kind). */
struct wf_call {
  uint64_t exchange;
  uint32_t flow;
  uint32_t by;         /* how far the clock moves, in microseconds */
  uint32_t air;        /* the airtime that a station or an exchange used, or the most that the data of a
                        * pull may take, in microseconds */
  uint32_t frames;     /* the most frames that a pull may send */
  uint32_t octets;     /* the most octets of an aggregate */
  uint16_t station;
  uint16_t window;     /* in frames */
  uint16_t start;      /* the first sequence number */
  uint16_t index;      /* of a transmission of the exchange, from 0 on */
  uint16_t length;     /* of the frame's body, in octets */
  uint16_t guard;      /* HE: the guard interval, in nanoseconds */
  uint8_t kind;        /* enum wf_call_kind */
  uint8_t tid;
  uint8_t class_;      /* enum wf_class */
  uint8_t exponent;    /* the A-MPDU length exponent */
  uint8_t weight;
  uint8_t form;        /* enum wf_form: the format of the rate */
  uint8_t mcs;
  uint8_t mhz;
  uint8_t short_guard; /* HT and VHT: other than 0 for the short guard interval; 1 in an entry that is read */
  uint8_t streams;     /* VHT and HE: the number of spatial streams */
  uint8_t heard;       /* other than 0 if the BlockAck was heard; 1 in an entry that is read */
  uint8_t speed;       /* OFDM: in Mbit/s; DSSS: in half Mbit/s */
  uint8_t classes;     /* the delivery-enabled classes: bit c is 1 if class c (enum wf_class) is one */
  uint8_t most;        /* the most frames of a service period; 0 limits nothing */
  uint8_t bss;         /* the BSS of a call about group frames, or the one that a station gets */
};

/* The frames that a station passed up: the first `count` ids, in order. The entries after them have no
 * meaning. */
struct wf_passed_up {
  uint64_t ids[256];
  uint16_t count;
};

/* A station's BlockAck. Bit n of the bitmap is for the sequence number start + n, modulo 4096. Bit 0 is the
 * least significant bit of bits[0]. */
struct wf_block {
  uint64_t bits[4];
  uint16_t start; /* 0 to 4095 */
  uint8_t wide;   /* 1 if the bitmap has 256 bits, 0 if it has 64 */
};

/* The three parts of a version. */
struct wf_version_parts {
  uint16_t major;
  uint16_t minor;
  uint16_t patch;
};

/* ---- names and version */

/* Writes the version of the library that is linked. A library for this header has the same major number, and
 * a minor number of at least WF_VERSION_MINOR. */
void wf_version(struct wf_version_parts *version);

/* Writes the word for a code, for reports and logs; the rest of `name`, at least one octet, is 0. A refusal
 * has its word in traces (docs/TRACE.md). WF_OK has "ok", and the codes from WF_NO_MEMORY to WF_WRONG_TID have
 * their names in small letters with "-", such as "no-memory". WF_BAD_SETTING + 1 to WF_BAD_SETTING + 32 have
 * "bad-setting". The word for any other number is "?", also for WF_BAD_SETTING, which no function returns. */
void wf_code_name(int32_t code, char name[WF_NAME]);

/* Writes the word for a kind of answer (enum wf_kind), the first word of its line in a trace; the rest of
 * `name`, at least one octet, is 0. The word for any other number is "?". */
void wf_kind_name(int32_t kind, char name[WF_NAME]);

/* Writes the word for a fate (enum wf_fate), as in a trace; the rest of `name`, at least one octet, is 0. The
 * word for any other number is "?". */
void wf_fate_name(int32_t fate, char name[WF_NAME]);

/* Writes the word for a setting, as in a trace, by its place in struct wf_settings, 1 to 28; the rest of
 * `name`, at least one octet, is 0. The word for any other number is "?". */
void wf_setting_name(int32_t place, char name[WF_NAME]);

/* ---- making and freeing */

/* Writes the standard settings, which a trace has unless it gives others. */
void wf_settings_standard(struct wf_settings *settings);

/* Writes the settings for devices: four exchanges of a class in flight, whose airtime counts and is
 * limited, debts that age, flows that keep their order, and `wf_path_done` with measured airtime. */
void wf_settings_device(struct wf_settings *settings);

/* Puts a path with these settings into an empty handle. The settings are copied. No station is live, no frame
 * is inside, the clock is 0, and the addresses are placeholders. Returns WF_OK; WF_IN_USE if the handle holds a
 * path already; WF_BAD_SETTING + n if the nth setting is the first that is out of its range, or the nth number
 * is the first reserved one that is not 0; or WF_NO_MEMORY. After an error the handle is as before. */
int32_t wf_path_make(struct wf_path *path, const struct wf_settings *settings);

/* Frees the path of a handle with all frames inside. The handle is then empty. If it was, nothing happens. */
void wf_path_free(struct wf_path *path);

/* ---- addresses. A path has the address of the access point in each BSS (BSSID), and one for each station
 * number, of six octets each, in the order of the air. At first they are placeholders: 02:00:00:00:00:00 for
 * the access point, and 02:00:00:01:hh:ll for a station, with the two octets of its number. A transmission goes
 * from the access point's address in the BSS of the exchange's station to the station's address, and a BlockAck
 * has to go from the second to the first; a function uses the addresses that the path has when it is called. A
 * join or a leave changes no address and no association identifier: they belong to the station number. The
 * caller has to make sure that no two live stations have the same address, that none has an address of the
 * access point, and that no two BSSs have the same one. A cell always has the placeholders. */

/* Sets the access point's address in each BSS that has none of its own (wf_path_set_bss). Returns WF_OK; or
 * WF_BAD_ADDRESS exactly if it is a group address, and then nothing has changed. */
int32_t wf_path_set_base(struct wf_path *path, const uint8_t address[6]);

/* Sets the address of a station, live or not. Returns WF_OK; WF_BAD_STATION if the station number does not
 * exist; or else WF_BAD_ADDRESS exactly if it is a group address. After an error nothing has changed. */
int32_t wf_path_set_address(struct wf_path *path, uint16_t station, const uint8_t address[6]);

/* Sets the access point's address in one BSS (BSSID), 0 to `bsses` - 1, or 0 if `bsses` is 0. Frames to and
 * from its stations, and its group frames, then have this address instead of that of wf_path_set_base, also
 * after a later call of wf_path_set_base. Returns WF_OK; WF_BAD_BSS if the BSS does not exist; or else
 * WF_BAD_ADDRESS exactly if it is a group address. After an error nothing has changed. */
int32_t wf_path_set_bss(struct wf_path *path, uint8_t bss, const uint8_t address[6]);

/* Sets the association identifier (AID; IEEE 802.11-2012, 8.4.1.8) of a station, live or not: 1 to 2007, at
 * first the station number plus 1. The TIM shows the AIDs of stations that have traffic. Give each live
 * station of a BSS its own AID: if two share one, the TIM shows it if either has traffic. Returns WF_OK;
 * WF_BAD_STATION if the station number does not exist; or else WF_BAD_AID exactly if the AID is 0 or above
 * 2007. After an error nothing has changed. */
int32_t wf_path_set_aid(struct wf_path *path, uint16_t station, uint16_t aid);

/* Writes the access point's address in each BSS that has none of its own. */
void wf_path_base(const struct wf_path *path, uint8_t out[6]);

/* Writes the address of a station, live or not. Returns WF_OK; or WF_BAD_STATION if the station number does
 * not exist, and then `out` is unchanged. */
int32_t wf_path_address(const struct wf_path *path, uint16_t station, uint8_t out[6]);

/* ---- calls of the machine. Each writes its answer to `reply` and returns its refusal, or WF_OK if it was
 * not refused. The refusals of a call are given in the order in which they are checked; the first that holds
 * is returned. */

/* Makes a station live with a block acknowledgement agreement for each TID. `window` is its window in frames
 * (1 to 256), `start` its first sequence number (0 to 4095), `exponent` its A-MPDU length exponent (0 to 3),
 * and `weight` its weight in airtime (1 to 16). The station is awake, and its rate is MCS 0 of HT at 20 MHz
 * with the long guard interval. Returns WF_OK, WF_BAD_STATION, WF_BAD_WINDOW, WF_BAD_START, WF_BAD_EXPONENT,
 * WF_BAD_WEIGHT or WF_LIVE. */
int32_t wf_path_join(struct wf_path *path, uint16_t station, uint16_t window, uint16_t start, uint8_t exponent, uint8_t weight,
                     struct wf_reply *reply);

/* Makes a station live whose device numbers, aggregates and repeats its frames: its A-MPDU length exponent (0
 * to 3) and its weight (1 to 16). Each exchange to it is a batch, never a BlockAckReq, and ends by
 * wf_path_done_each, since the device numbers its frames. A frame of it that went on the air and was not
 * acknowledged is dropped as WF_RETRIES, because the device has repeated it. The device has at most 256
 * frames of each TID. Returns WF_OK, WF_BAD_STATION, WF_BAD_EXPONENT, WF_BAD_WEIGHT or WF_LIVE. */
int32_t wf_path_join_offload(struct wf_path *path, uint16_t station, uint8_t exponent, uint8_t weight, struct wf_reply *reply);

/* Makes a station live without agreements: its first sequence number (0 to 4095), its A-MPDU length exponent (0
 * to 3) and its weight (1 to 16). All its TIDs are plain. An exchange of a plain TID sends one frame (`plain`
 * of the reply is 1), and the station answers with an Ack; wf_path_done_ack ends it. The next frame of the TID
 * is sent after this one is acknowledged or dropped. wf_path_hold and wf_path_begin begin an agreement of one
 * TID, and wf_path_cease ends it. Returns WF_OK, WF_BAD_STATION, WF_BAD_START, WF_BAD_EXPONENT, WF_BAD_WEIGHT
 * or WF_LIVE. */
int32_t wf_path_plain(struct wf_path *path, uint16_t station, uint16_t start, uint8_t exponent, uint8_t weight,
                      struct wf_reply *reply);

/* Holds a plain TID (0 to 7), so that an agreement can begin. From now on no frame of the TID gets a sequence
 * number; a frame that has one is still sent until it is acknowledged or dropped. `start` of the reply is the
 * starting sequence number of the ADDBA request (0 to 4095). Send the request when wf_path_drained writes 1: a
 * station with an agreement discards a frame with a lower number. If the station accepts, call wf_path_begin;
 * if it declines, wf_path_free_tid. If no response comes, it may have accepted: send a DELBA, and call
 * wf_path_free_tid after its Ack. Returns WF_OK; WF_BAD_STATION; WF_BAD_TID; WF_NO_STATION; WF_OFFLOADED if
 * the station joined by wf_path_join_offload; WF_AGREED if the TID has an agreement; WF_TID_HELD if it is held
 * already; or WF_LEGACY if the rate of the station is one of OFDM or DSSS, at which frames go one by one. */
int32_t wf_path_hold(struct wf_path *path, uint16_t station, uint8_t tid, struct wf_reply *reply);

/* Begins the agreement of a held TID (0 to 7), with a window of 1 to 256 frames. From now on its frames are
 * sent in aggregates. Returns WF_OK; WF_BAD_STATION; WF_BAD_TID; WF_BAD_WINDOW; WF_NO_STATION; WF_NOT_HELD;
 * WF_OPEN if `count` exchanges of the TID are open; or WF_WAITS if `count` frames with sequence numbers wait to
 * be sent. It returns neither of the last two if wf_path_drained writes 1. */
int32_t wf_path_begin(struct wf_path *path, uint16_t station, uint8_t tid, uint16_t window, struct wf_reply *reply);

/* Makes a held TID (0 to 7) plain again: its frames are sent one at a time. If the station may have an
 * agreement, it has to acknowledge a DELBA first: until then it stores a frame if an earlier one is missing.
 * Returns WF_OK, WF_BAD_STATION, WF_BAD_TID, WF_NO_STATION or WF_NOT_HELD. */
int32_t wf_path_free_tid(struct wf_path *path, uint16_t station, uint8_t tid, struct wf_reply *reply);

/* Ends the agreement of a TID (0 to 7). The TID is then held. Its frames with sequence numbers that wait to be
 * sent are dropped as WF_ENDED, and `count` of the reply is their number; queued frames stay. If an exchange
 * of the TID is open, call wf_path_stop, end the exchange, and call this function again. After it, send a
 * DELBA, and call wf_path_free_tid when it is acknowledged; for an agreement with another window, call
 * wf_path_hold before the next pull. Returns WF_OK; WF_BAD_STATION; WF_BAD_TID; WF_NO_STATION; WF_NOT_AGREED;
 * or WF_OPEN if `count` exchanges of the TID are open. */
int32_t wf_path_cease(struct wf_path *path, uint16_t station, uint8_t tid, struct wf_reply *reply);

/* Sets the weight of a live station in airtime, 1 to 16. Its deficit in a class is then at most its new
 * quantum and, with the setting `pending`, its airtime in flight. Returns WF_OK, WF_BAD_STATION,
 * WF_BAD_WEIGHT or WF_NO_STATION. */
int32_t wf_path_weight(struct wf_path *path, uint16_t station, uint8_t weight, struct wf_reply *reply);

/* Makes a station leave: it is no longer live, and its frames are dropped as WF_LEFT. `count` of the reply is
 * the number of these frames. Returns WF_OK, WF_BAD_STATION, WF_NO_STATION or WF_OPEN. */
int32_t wf_path_leave(struct wf_path *path, uint16_t station, struct wf_reply *reply);

/* Sets the rate of data to a live station, a rate of HT: MCS 0 to 15, 20 or 40 MHz, and the short guard
 * interval if `short_guard` is not 0. Returns WF_OK, WF_BAD_STATION, WF_BAD_RATE or WF_NO_STATION. */
int32_t wf_path_rate_ht(struct wf_path *path, uint16_t station, uint8_t mcs, uint8_t mhz, uint8_t short_guard,
                     struct wf_reply *reply);

/* Sets the rate of data to a live station, a rate of VHT: MCS 0 to 9, 20, 40, 80 or 160 MHz, the short guard
 * interval if `short_guard` is not 0, and 1 to 8 spatial streams. VHT has no rate for MCS 9 on 20 MHz with 1,
 * 2, 4, 5, 7 or 8 streams, MCS 6 on 80 MHz with 3 or 7, MCS 9 on 80 MHz with 6, and MCS 9 on 160 MHz with 3.
 * Returns WF_OK, WF_BAD_STATION, WF_BAD_RATE or WF_NO_STATION. */
int32_t wf_path_rate_vht(struct wf_path *path, uint16_t station, uint8_t mcs, uint8_t mhz, uint8_t short_guard, uint8_t streams,
                         struct wf_reply *reply);

/* Sets the rate of data to a live station, a rate of HE: MCS 0 to 11, 20, 40, 80 or 160 MHz, a guard interval
 * of 800, 1600 or 3200 nanoseconds, and 1 to 8 spatial streams. Returns WF_OK, WF_BAD_STATION, WF_BAD_RATE or
 * WF_NO_STATION. */
int32_t wf_path_rate_he(struct wf_path *path, uint16_t station, uint8_t mcs, uint8_t mhz, uint16_t guard, uint8_t streams,
                        struct wf_reply *reply);

/* Sets the rate of data to a live station, a rate of OFDM (IEEE 802.11-2012, clause 18): `mbps` is 6, 9, 12, 18,
 * 24, 36, 48 or 54 Mbit/s. Each exchange to the station then sends one frame, and the station answers with an
 * Ack (wf_path_done_ack); a batch has one frame too. Returns WF_OK; WF_BAD_STATION; WF_BAD_RATE, also if the
 * setting `legacy` is 0; WF_NO_STATION; or WF_AGREED if a TID of the station has an agreement or is held. */
int32_t wf_path_rate_ofdm(struct wf_path *path, uint16_t station, uint8_t mbps, struct wf_reply *reply);

/* Sets the rate of data to a live station, a rate of DSSS with its long preamble (IEEE 802.11-2012, clause 17):
 * `half_mbps` is 2, 4, 11 or 22 half Mbit/s, which are 1, 2, 5.5 and 11 Mbit/s. The rest is as for
 * wf_path_rate_ofdm, but the setting `legacy` has to be 2. */
int32_t wf_path_rate_dsss(struct wf_path *path, uint16_t station, uint8_t half_mbps, struct wf_reply *reply);

/* Moves the clock on by `by` microseconds, 0 to 10,000,000. `now` of the reply is the new clock. Returns
 * WF_OK, or WF_BAD_TICK if `by` is greater. */
int32_t wf_path_tick(struct wf_path *path, uint32_t by, struct wf_reply *reply);

/* Moves the clock on to `now`, in microseconds, in constant time. `now` of the reply is the new clock. Returns
 * WF_OK, or WF_BAD_TICK exactly if `now` is before the clock, or is 2^61 or more. The clock has to stay below
 * 2^62, so this limit leaves room for later ticks. */
int32_t wf_path_advance(struct wf_path *path, uint64_t now, struct wf_reply *reply);

/* Says that a live station goes to sleep: from then on it gets only what it asks for (wf_path_poll,
 * wf_path_trigger). Returns WF_OK, WF_BAD_STATION, WF_NO_STATION or WF_ASLEEP. */
int32_t wf_path_sleep(struct wf_path *path, uint16_t station, struct wf_reply *reply);

/* Says that a sleeping station wakes. Returns WF_OK, WF_BAD_STATION, WF_NO_STATION or WF_AWAKE. */
int32_t wf_path_wake(struct wf_path *path, uint16_t station, struct wf_reply *reply);

/* Says that a sleeping station asks for one frame (PS-Poll). It gets a credit, which permits one exchange of
 * the class `class_` of the reply. A class that is delivery-enabled gets no credit, unless all four are
 * (wf_path_apsd). Returns WF_OK, WF_BAD_STATION, WF_NO_STATION, WF_AWAKE, WF_POLLED or
 * WF_NOTHING. */
int32_t wf_path_poll(struct wf_path *path, uint16_t station, struct wf_reply *reply);

/* Sets the most octets of an aggregate (A-MPDU) of VHT or HE to a live station, 4,096 to 6,500,631 (IEEE
 * 802.11ax-2021, 26.6.1), until it leaves. Without this call, and at a rate of HT always, the station's
 * exponent bounds them (wf_path_join). Returns WF_OK, WF_BAD_STATION, WF_BAD_AMPDU or WF_NO_STATION. */
int32_t wf_path_ampdu(struct wf_path *path, uint16_t station, uint32_t octets, struct wf_reply *reply);

/* Stops a live station: no pull picks it until wf_path_start. Its frames stay queued, its open exchanges go on,
 * and it sleeps, wakes and polls as before. Returns WF_OK, WF_BAD_STATION, WF_NO_STATION or WF_STOPPED. */
int32_t wf_path_stop(struct wf_path *path, uint16_t station, struct wf_reply *reply);

/* Starts a station that is stopped: pulls may pick it again. Returns WF_OK, WF_BAD_STATION, WF_NO_STATION or
 * WF_STARTED. */
int32_t wf_path_start(struct wf_path *path, uint16_t station, struct wf_reply *reply);

/* Drops the frames of a live station's TID that are not on the air, as WF_FLUSHED: first those that have a
 * sequence number and wait to be sent, then those in flow queues. `count` of the reply is the number of these
 * frames. Open exchanges go on. Returns WF_OK, WF_BAD_STATION, WF_BAD_TID or WF_NO_STATION. */
int32_t wf_path_flush(struct wf_path *path, uint16_t station, uint8_t tid, struct wf_reply *reply);

/* Charges a live station for airtime that it used to send in a class: 1 to 65,535 microseconds. `deficit` of
 * the reply is its deficit after the charge. Returns WF_OK; WF_BAD_CLASS exactly if the class is above 3, and
 * then `reply` is unchanged; or else WF_BAD_STATION, WF_BAD_AIR, WF_NO_STATION or WF_DEBT. */
int32_t wf_path_rx(struct wf_path *path, uint16_t station, uint8_t class_, uint32_t air, struct wf_reply *reply);

/* Sets the BSS of a live station that is awake, 0 to `bsses` - 1: the frames to it have the address of this BSS
 * (wf_path_set_bss), and while it sleeps it is in the TIM of this BSS, whose group frames wait for it. A
 * station that joins is of BSS 0. A device with several BSSs has one path, because they share the air. Returns
 * WF_OK; WF_BAD_STATION; WF_BAD_BSS if the BSS does not exist; WF_NO_STATION; or WF_ASLEEP if the station
 * sleeps. */
int32_t wf_path_set_station_bss(struct wf_path *path, uint16_t station, uint8_t bss, struct wf_reply *reply);

/* Accepts a packet for a station as a frame, whose id is `id` of the reply. The body is copied. A refused
 * packet is the caller's as before, and the path keeps nothing of it. Returns WF_OK; WF_BAD_LENGTH exactly if
 * `length` is not 1 to WF_GREATEST_BODY; else WF_NO_MEMORY if there is no memory for the frame, whatever the
 * rest of the call; or else WF_BAD_STATION, WF_BAD_TID, WF_NO_STATION, WF_ROOM or WF_SLEEPING. After
 * WF_BAD_LENGTH and WF_NO_MEMORY `reply` is unchanged. */
int32_t wf_path_enqueue(struct wf_path *path, uint16_t station, const struct wf_packet *packet, struct wf_reply *reply);

/* Allocates memory until there is a reserve for `frames` frames without octets. wf_path_enqueue_bare and each
 * enqueue of wf_path_burst take the memory of one frame from it. The memory of a frame that is reaped or
 * refused goes back to the reserve while it has fewer frames than the largest reserve so far; otherwise it is
 * freed. wf_path_free frees the reserve. Returns WF_OK, and then the next `frames` calls of
 * wf_path_enqueue_bare do not return WF_NO_MEMORY; or WF_NO_MEMORY, and then the reserve is as before. */
int32_t wf_path_reserve(struct wf_path *path, uint32_t frames);

/* Accepts a packet for a station as a frame without octets, whose id is `id` of the reply. The octets stay with
 * their owner, who has to keep them until the frame is reaped: the path only counts them. The driver writes
 * the header of a transmission (wf_path_header) and sends the body from its own buffer, which it finds by
 * wf_path_frame_tag. Returns WF_OK; WF_BAD_LENGTH exactly if `length` is not 1 to WF_GREATEST_BODY; else
 * WF_NO_MEMORY if no memory is in reserve and there is none for the frame; or else WF_BAD_STATION,
 * WF_BAD_TID, WF_NO_STATION, WF_ROOM or WF_SLEEPING. After WF_BAD_LENGTH and WF_NO_MEMORY `reply` is
 * unchanged. */
int32_t wf_path_enqueue_bare(struct wf_path *path, uint16_t station, const struct wf_bare *packet, struct wf_reply *reply);

/* Opens the next exchange of a class, which the driver then sends: `exchange` of the reply is its number. If it
 * sends frames, `frames` gets them: an aggregate, a batch, or the frame of a plain exchange. If it is a
 * BlockAckReq, or after an error, their count is 0. `air` of the reply is the time of the transmissions and of
 * the BlockAck or Ack, in microseconds. Returns WF_OK; WF_BAD_CLASS exactly if the class is above 3, and then
 * `reply` and `frames` are unchanged; or else WF_FULL, WF_AHEAD or WF_IDLE. After WF_FULL, pull again when an
 * exchange of the class has ended; after WF_AHEAD, when any exchange has ended; after WF_IDLE, also after an
 * enqueue, a wake, a poll, a trigger, a start, or a wf_path_begin or wf_path_free_tid. */
int32_t wf_path_pull(struct wf_path *path, uint8_t class_, struct wf_reply *reply, struct wf_frames *frames);

/* Opens the next exchange of a class as wf_path_pull does, for a device that has little room now: an
 * aggregate has at most `most` frames (also at most `agg`), and its data take at most `air` microseconds
 * (also at most the cap of the class). 0 limits nothing. One frame, and a BlockAckReq, go whatever the limits
 * are. The limits hold for this call alone. Returns and writes what wf_path_pull does. */
int32_t wf_path_pull_limited(struct wf_path *path, uint8_t class_, uint32_t most, uint32_t air, struct wf_reply *reply,
                             struct wf_frames *frames);

/* Takes the first finished frame out of the path. `taken` gets its id, its fate and what its packet was, and
 * the front of `body` its `taken->length` octets; the rest of `body`, whose size is `room`, is unchanged. If
 * `room` is 0, the octets are freed and not copied, and `body` may be null. A frame that
 * wf_path_enqueue_bare accepted leaves `body` unchanged; `taken->length` is the length of its owner's octets.
 * Returns WF_OK; WF_SMALL_BUFFER exactly if `room` is 1 to WF_GREATEST_BODY - 1, even if there is nothing to
 * reap, and then `reply` is unchanged; or WF_NOTHING. After an error `taken` and `body` are unchanged. */
int32_t wf_path_reap(struct wf_path *path, struct wf_reply *reply, struct wf_taken *taken, uint8_t *body, size_t room);

/* Makes `count` calls in order, each as its own function does, and writes the answer of each to the entry of
 * `replies` at its place. `room` is the number of entries of `replies`. An enqueue accepts a frame without
 * octets, with the tag 0 and the placeholder source, and WF_CALL_GROUP a group frame with the tag 0 for
 * ff:ff:ff:ff:ff:ff. A pull writes no frames: wf_path_sent, wf_path_frame_id and wf_path_frame_tag read them.
 * Nor do WF_CALL_GPULL and WF_CALL_GDONE; their answers have the id. A reap frees the frame; its answer has
 * the id and the fate. A done is made as by wf_path_done_lost: `heard` has to be 0. A call that is refused
 * counts as made, and the burst goes on. `made` is the number of calls that were made; the other entries of
 * `replies` are unchanged. Returns WF_OK if all were made; WF_SMALL_BUFFER if `room` is below `count`, and
 * then none is made; or else what stops it at the first call that is not made: WF_BAD_CALL if the struct
 * shows no call (wf_cell_ask), or an arrival, an answer or a done that was heard, which a path does not take;
 * WF_BAD_LENGTH if it is an enqueue and `length` is not 1 to WF_GREATEST_BODY; or WF_NO_MEMORY if there is no
 * memory for its frame. */
int32_t wf_path_burst(struct wf_path *path, const struct wf_call *calls, size_t count, struct wf_reply *replies, size_t room,
                      size_t *made);

/* ---- group frames: data frames to a group address, such as broadcasts. Each BSS, 0 to `bsses` - 1 (0 alone if
 * `bsses` is 0), has its own beacons, queue and sequence numbers, and each function is about one BSS. While a
 * station of it sleeps, its group frames wait for a DTIM beacon that announces them (IEEE 802.11-2012,
 * 10.2.1.4); otherwise they may go at once. They are sent with OFDM at 6 Mbit/s, and no station answers them or
 * is charged for them. wf_path_tally, wf_path_reap and the setting `room` do not count them, and the library
 * stores none of their octets. A driver calls wf_path_beacon for each beacon, writes the TIM (wf_path_tim), and
 * after the beacon pulls and sends the group frames of the BSS until WF_IDLE. Each function returns WF_BAD_BSS
 * if the BSS does not exist.
 *
 * Some hardware counts beacons, and has a queue that it sends after DTIM beacons. Its driver passes the
 * hardware's count to wf_path_tim, and as `group` 1 if that queue has a frame, else 0. It leaves the setting
 * `buffered` at 0, and calls none of the following functions. */

/* Puts a group frame to the address `to` at the end of the queue of a BSS; `id` of the reply is its id.
 * `length` is the number of its octets, which stay with their owner, and `tag` identifies it to its owner.
 * Returns WF_OK; WF_BAD_LENGTH exactly if `length` is not 1 to WF_GREATEST_BODY; else WF_BAD_ADDRESS exactly if
 * `to` is no group address (the lowest bit of its first octet is 0); or else WF_BAD_BSS, or WF_BUFFERED if
 * `count` group frames of the BSS are queued, as many as the setting `buffered`, which is 0 in the standard
 * settings. After WF_BAD_LENGTH and WF_BAD_ADDRESS `reply` is unchanged. */
int32_t wf_path_group(struct wf_path *path, uint8_t bss, const uint8_t to[6], uint16_t length, uint64_t tag,
                      struct wf_reply *reply);

/* Reports that a beacon of a BSS goes out. `count` of the reply is its DTIM count, which falls by 1 at each
 * beacon, from the setting `period` less 1 to 0, and then begins again. A beacon with the count 0 is a DTIM
 * beacon. It announces the group frames that are queued now: they may go until the next beacon, also while a
 * station sleeps. `more` of the reply is 1 if it announces any, else 0. Beacons and group frames take their
 * sequence numbers from one counter. Returns WF_OK or WF_BAD_BSS. */
int32_t wf_path_beacon(struct wf_path *path, uint8_t bss, struct wf_reply *reply);

/* Takes the first group frame of a BSS out of its queue, and writes it to `frame`. The driver then sends it.
 * `start` of the reply is its sequence number (0 to 4095), `air` its airtime in microseconds, and `more` is 1
 * if a station of the BSS sleeps and another group frame may go next. Returns WF_OK; WF_BAD_BSS; WF_FLYING if a
 * group frame of the BSS is on the air; or WF_IDLE if none is queued, or if a station sleeps and the first one
 * was not announced by the latest beacon. After an error nothing has changed, nor `frame`. */
int32_t wf_path_group_pull(struct wf_path *path, uint8_t bss, struct wf_group *frame, struct wf_reply *reply);

/* Writes the header of the group frame of a BSS on the air: WF_GROUP_HEADER octets, a Data frame without QoS
 * from the access point's address in the BSS, whose source address is `source`. The driver sends the body from
 * its own buffer, which it finds by the tag. Returns WF_OK; WF_BAD_BSS; or WF_NOTHING if none of its group
 * frames is on the air. After an error `out` is unchanged. */
int32_t wf_path_group_header(const struct wf_path *path, uint8_t bss, const uint8_t source[6], uint8_t out[WF_GROUP_HEADER]);

/* Reports that the transmission of the group frame of a BSS on the air has ended, and writes this frame to
 * `frame`: it belongs to its owner again. `id` of the reply is its id. Returns WF_OK; WF_BAD_BSS; or WF_NOTHING
 * if none of its group frames is on the air. After an error `frame` is unchanged. */
int32_t wf_path_group_done(struct wf_path *path, uint8_t bss, struct wf_group *frame, struct wf_reply *reply);

/* Writes how many group frames of a BSS were accepted, sent, and are queued or on the air, and how many sequence
 * numbers they and the beacons took. Returns WF_OK; or WF_BAD_BSS, and then `counts` is unchanged. */
int32_t wf_path_group_counts(const struct wf_path *path, uint8_t bss, struct wf_group_counts *counts);

/* ---- service periods (U-APSD; IEEE 802.11-2012, 10.2.1.5). A station names its delivery-enabled classes when
 * it associates. While it sleeps, a trigger frame, a QoS Data or QoS Null frame of its own, opens a service
 * period. Until this ends, a pull of a delivery-enabled class picks the station as if it were awake. The
 * exchanges have `more` 1 while more of these classes waits, and the last one has `eosp` 1. The driver sends
 * them in the order of their pulls. wf_path_tim is about the station's other classes, or about all four if all
 * are delivery-enabled. */

/* Sets the delivery-enabled classes of a live station that is awake, and the most frames of its service
 * periods; 0 limits nothing. Bit c of `classes` is 1 if class c (enum wf_class) is one. (In a station's QoS
 * Info field bits 0 to 3 are for vo, vi, bk and be, and its Max SP Length allows 2, 4 or 6 frames, or all.) A
 * station that joins has none. Returns WF_OK; WF_BAD_STATION; WF_BAD_CLASSES if `classes` is above 15;
 * WF_NO_STATION; or WF_ASLEEP if the station sleeps. */
int32_t wf_path_apsd(struct wf_path *path, uint16_t station, uint8_t classes, uint8_t most, struct wf_reply *reply);

/* Says that a sleeping station sent a trigger frame, which opens a service period. `class_` of the reply is the
 * first class of vo, vi, be, bk that is delivery-enabled and can send: pull it first. Returns WF_OK;
 * WF_BAD_STATION; WF_NO_STATION; WF_AWAKE; WF_POLLED if a service period is open already; or WF_NOTHING if no
 * delivery-enabled class can send. After WF_NOTHING send the station a QoS Null frame with the EOSP bit. */
int32_t wf_path_trigger(struct wf_path *path, uint16_t station, struct wf_reply *reply);

/* Ends the service period of a station to which the device sent a QoS Null frame with the EOSP bit. This is
 * needed if a service period is open (wf_path_in_service), none of its exchanges is open, and pulls of the
 * delivery-enabled classes return WF_IDLE, since what was left is dropped or cannot go now. wf_path_wake and
 * wf_path_leave end a service period too. Returns WF_OK; WF_BAD_STATION; WF_NO_STATION; or WF_NOTHING if none
 * is open. */
int32_t wf_path_end_service(struct wf_path *path, uint16_t station, struct wf_reply *reply);

/* ---- an open exchange */

/* Writes the station of an open exchange, and what it sends. Returns WF_OK; or WF_NO_EXCHANGE, and then
 * `sent` is unchanged. */
int32_t wf_path_sent(const struct wf_path *path, uint64_t exchange, struct wf_sent *sent);

/* Writes the id of the frame of a transmission; `index` counts from 0. Returns WF_OK; or WF_BAD_INDEX if the
 * exchange is not open, is a BlockAckReq, or has no transmission with that index, and then `id` is
 * unchanged. */
int32_t wf_path_frame_id(const struct wf_path *path, uint64_t exchange, uint16_t index, uint64_t *id);

/* Writes the tag of the frame of a transmission, by which a driver finds its own buffer; `index` counts from
 * 0. Returns WF_OK; or WF_BAD_INDEX if the exchange is not open, is a BlockAckReq, or has no transmission
 * with that index, and then `tag` is unchanged. */
int32_t wf_path_frame_tag(const struct wf_path *path, uint64_t exchange, uint16_t index, uint64_t *tag);

/* Writes only the header of a data transmission (a QoS data frame of IEEE 802.11-2012): WF_HEADER octets. It
 * is for a driver that gathers, and sends the body from its own buffer. wf_path_mpdu writes a BlockAckReq,
 * which has no body. The header of a frame of a batch has a number of the path, which the device replaces.
 * Returns WF_OK; WF_NO_EXCHANGE; or WF_BAD_INDEX if the exchange has no data frame with that index. After an
 * error `out` is unchanged. */
int32_t wf_path_header(const struct wf_path *path, uint64_t exchange, uint16_t index, uint8_t out[WF_HEADER]);

/* Writes the octets of a transmission (a QoS data frame or a BlockAckReq of IEEE 802.11-2012), and to `size`
 * how many they are: at most WF_GREATEST_MPDU, and at most `room`, the size of `out`. The rest of `out` is
 * unchanged. Returns WF_OK, WF_NO_EXCHANGE, WF_BAD_INDEX, WF_NO_BODY exactly if the transmission has a frame
 * without octets, or else WF_SMALL_BUFFER. After an error `out` is unchanged; after WF_SMALL_BUFFER
 * `size` is the room that is needed, and after the other errors it is unchanged. */
int32_t wf_path_mpdu(const struct wf_path *path, uint64_t exchange, uint16_t index, uint8_t *out, size_t room, size_t *size);

/* Marks a transmission of an open exchange that never went on the air; `index` counts from 0. When the exchange
 * ends, the frame waits to be sent again, even if the BlockAck shows it, and this transmission does not count
 * in its attempts. Returns WF_OK; WF_NO_EXCHANGE; WF_BAD_INDEX if the exchange has no transmission with that
 * index; or WF_MARKED if the transmission has a mark already, this one or that of wf_path_give_up. */
int32_t wf_path_unsent(struct wf_path *path, uint64_t exchange, uint16_t index, struct wf_reply *reply);

/* Marks a transmission of an open exchange that the device will not try again; `index` counts from 0. When the
 * exchange ends and no BlockAck shows the frame, it is dropped as WF_RETRIES, whatever the setting `attempts`
 * is. Returns what wf_path_unsent returns. */
int32_t wf_path_give_up(struct wf_path *path, uint64_t exchange, uint16_t index, struct wf_reply *reply);

/* Ends an exchange whose BlockAck was not heard. Its frames wait to be sent again, or are dropped after their
 * last transmission; those of a batch are dropped unless they are marked by wf_path_unsent. The station is
 * charged `air`, 1 to `charge` microseconds as the device measured them, or, if `air` is 0, what wf_path_pull
 * answered. Returns WF_OK; WF_NO_EXCHANGE; or WF_BAD_AIR if `air` is above the setting `charge`, which is 0
 * in the standard settings. */
int32_t wf_path_done_lost(struct wf_path *path, uint64_t exchange, uint32_t air, struct wf_reply *reply);

/* Ends a plain exchange (wf_path_plain). If `acked` is not 0, the Ack was heard, and the frame is acknowledged.
 * Otherwise the frame waits to be sent again, with the same sequence number and the Retry bit, or is dropped
 * after its last transmission. A frame whose number is 2,048 or more above the last acknowledged number of its
 * TID is sent only once, since the station could take a repeat for a duplicate of an earlier frame. Any other
 * exchange with one transmission ends as by wf_path_done_each. The station is charged `air`, 1 to `charge`
 * microseconds as the device measured them, or, if `air` is 0, what wf_path_pull answered. Returns WF_OK;
 * WF_NO_EXCHANGE; WF_BAD_INDEX if the exchange has more than one transmission; WF_MARKED if its transmission
 * has a mark; or WF_BAD_AIR if `air` is above the setting `charge`, which is 0 in the standard settings. */
int32_t wf_path_done_ack(struct wf_path *path, uint64_t exchange, uint8_t acked, uint32_t air, struct wf_reply *reply);

/* Ends an exchange by the start (modulo 4096) and the bitmap of a BlockAck that was heard. A batch ends by
 * wf_path_done_each, since its frames have other numbers on the air. The bitmap begins with the least
 * significant bit of bits[0]; its first 64 bits count, or all 256 if the window is above 64. Frames that it
 * shows are acknowledged; the others wait to be sent again, or are dropped after their last transmission. The
 * station is charged `air`, 1 to `charge` microseconds as the device measured them, or, if `air` is 0, what
 * wf_path_pull answered. Returns WF_OK; WF_NO_EXCHANGE; WF_NO_ANSWER if nothing of the exchange went on the
 * air (wf_path_unsent); or WF_BAD_AIR if `air` is above the setting `charge`. */
int32_t wf_path_done_bits(struct wf_path *path, uint64_t exchange, uint16_t start, const uint8_t bits[32], uint32_t air,
                          struct wf_reply *reply);

/* Ends an exchange by the octets of a BlockAck that was heard, without its check sequence: 28 octets, with a
 * bitmap of 64 bits, or, if the window is above 64, also 52, with one of 256 (IEEE 802.11ax-2021, 9.3.1.8.2).
 * Frames that it shows are acknowledged; the others wait to be sent again, or are dropped after their last
 * transmission. A batch ends by wf_path_done_each. The station is charged `air`, 1 to `charge` microseconds
 * as the device measured them, or, if `air` is 0, what wf_path_pull answered. Returns WF_OK, or the first of
 * these that holds: WF_NO_EXCHANGE; WF_BLOCK_LENGTH, WF_BLOCK_KIND, WF_BLOCK_BASIC, WF_BLOCK_MULTI,
 * WF_BLOCK_NARROW, WF_BLOCK_FRAGMENT, WF_NOT_MINE or WF_WRONG_TID if the octets are not a BlockAck to this
 * exchange; WF_NO_ANSWER if nothing of the exchange went on the air (wf_path_unsent); WF_BAD_AIR if `air` is
 * above the setting `charge`. After an error the exchange is still open, and `reply` is unchanged. */
int32_t wf_path_done_octets(struct wf_path *path, uint64_t exchange, const uint8_t *octets, size_t length, uint32_t air,
                            struct wf_reply *reply);

/* Ends an exchange by what became of each of its transmissions (enum wf_outcome), in their order, for a
 * device that reports each frame. `count` is the number of outcomes: as many as the exchange has
 * transmissions (wf_path_sent). For WF_OUTCOME_UNSENT and WF_OUTCOME_GAVE_UP it sets the marks of
 * wf_path_unsent and wf_path_give_up. Then it does what wf_path_done_bits does with a BlockAck that shows
 * exactly the acknowledged frames, or, if none is acknowledged, what wf_path_done_lost does. In a batch
 * WF_OUTCOME_RETRY does what WF_OUTCOME_GAVE_UP does. A BlockAckReq has one outcome, which is
 * WF_OUTCOME_ACKED if it was answered. The station is charged `air`, 1 to `charge` microseconds as the device
 * measured them, or, if `air` is 0, what wf_path_pull answered. Returns WF_OK, or the first of these that
 * holds: WF_BAD_OUTCOME if an outcome is above 3, and then `reply` is unchanged; WF_NO_EXCHANGE; WF_BAD_INDEX
 * if the exchange has another number of transmissions; WF_MARKED if one of them has a mark already;
 * WF_BAD_AIR if `air` is above the setting `charge`. After an error the exchange is still open, and has no
 * new mark. */
int32_t wf_path_done_each(struct wf_path *path, uint64_t exchange, const uint8_t *outcomes, size_t count, uint32_t air,
                          struct wf_reply *reply);

/* Ends an exchange of which nothing went on the air, as wf_path_done_each does if each outcome is
 * WF_OUTCOME_UNSENT: its frames wait to be sent again. The station is charged 1 microsecond, or, if the setting
 * `charge` is 0, what wf_path_pull answered. Returns WF_OK; WF_NO_EXCHANGE; or WF_MARKED if one of the
 * transmissions has a mark already. */
int32_t wf_path_cancel(struct wf_path *path, uint64_t exchange, struct wf_reply *reply);

/* ---- reading a path */

/* Returns the clock, in microseconds. */
uint64_t wf_path_now(const struct wf_path *path);

/* Returns how many exchanges were opened so far. */
uint64_t wf_path_exchanges(const struct wf_path *path);

/* Returns how many exchanges are open, at most 32. */
uint32_t wf_path_open_count(const struct wf_path *path);

/* Returns 1 if a station is live, else 0. */
int32_t wf_path_live(const struct wf_path *path, uint16_t station);

/* Returns 1 if a service period of a station is open (wf_path_trigger), else 0. A station that is not live has
 * none. */
int32_t wf_path_in_service(const struct wf_path *path, uint16_t station);

/* Writes how many frames were accepted, and how many of them have each fate. */
void wf_path_tally(const struct wf_path *path, struct wf_tally *tally);

/* Writes a live station's airtime in a class, in microseconds. Returns WF_OK; WF_BAD_CLASS if the class is
 * above 3; or else WF_NO_STATION. After an error `share` is unchanged. */
int32_t wf_path_share(const struct wf_path *path, uint16_t station, uint8_t class_, struct wf_share *share);

/* Writes a live station's airtime in flight in a class, in microseconds: the computed airtime of its open
 * exchanges. The setting `aql` limits it, and with the setting `pending` it counts against the station when a
 * pull picks one. Returns WF_OK; WF_BAD_CLASS if the class is above 3; or else WF_NO_STATION. After an error
 * `air` is unchanged. */
int32_t wf_path_pending(const struct wf_path *path, uint16_t station, uint8_t class_, uint32_t *air);

/* Returns 1 if wf_path_pull of a class would open an exchange now, else 0, because it would return WF_FULL,
 * WF_AHEAD or WF_IDLE, or because the class is above 3. */
int32_t wf_path_can_pull(const struct wf_path *path, uint8_t class_);

/* Returns the list of a class that contains a station: 1 the new list, 2 the old list, 0 neither. A station
 * that is not live is on neither. A class above 3 has no lists: 0. */
int32_t wf_path_listed(const struct wf_path *path, uint16_t station, uint8_t class_);

/* Returns 1 if the counts of the path are below 2^62, as every other function requires, else 0. This function
 * may be called in either case. */
int32_t wf_path_has_small_counts(const struct wf_path *path);

/* Writes how many frames of a live station's TID are in flow queues. Returns WF_OK; WF_BAD_TID exactly if the
 * TID is above 7; or else WF_NO_STATION exactly if the station is not live. After an error `count` is
 * unchanged. */
int32_t wf_path_queued(const struct wf_path *path, uint16_t station, uint8_t tid, uint32_t *count);

/* Writes the octets of the bodies of a live station's TID in flow queues. It looks at each queue. Returns
 * WF_OK; WF_BAD_TID exactly if the TID is above 7; or else WF_NO_STATION exactly if the station is not live.
 * After an error `octets` is unchanged. */
int32_t wf_path_octets(const struct wf_path *path, uint16_t station, uint8_t tid, uint64_t *octets);

/* Writes the octets of a queue, and the state of CoDel in it, which an empty queue keeps. The frames of a
 * flow are in queue `flow` modulo `flows` or, if another TID uses this queue, in the overflow queue of their
 * TID: queue `flows` + 8 * station + TID. Returns WF_OK; or WF_BAD_INDEX exactly if the queue does not exist,
 * and then `codel` is unchanged. */
int32_t wf_path_codel(const struct wf_path *path, uint32_t queue, struct wf_codel *codel);

/* Writes how many frames with sequence numbers of a live station's TID wait to be sent. Returns WF_OK;
 * WF_BAD_TID exactly if the TID is above 7; or else WF_NO_STATION exactly if the station is not live. After an
 * error `count` is unchanged. */
int32_t wf_path_waiting(const struct wf_path *path, uint16_t station, uint8_t tid, uint32_t *count);

/* Writes how many frames of a live station's TID are in open exchanges. Returns WF_OK; WF_BAD_TID exactly if the
 * TID is above 7; or else WF_NO_STATION exactly if the station is not live. After an error `count` is
 * unchanged. */
int32_t wf_path_flying(const struct wf_path *path, uint16_t station, uint8_t tid, uint32_t *count);

/* Writes 1 if each frame of a live station's TID that got a sequence number is acknowledged or dropped: none is
 * in an open exchange or waits to be sent. Else it writes 0. If a held TID is drained, its agreement can begin
 * (wf_path_hold). Returns WF_OK; WF_BAD_TID exactly if the TID is above 7; or else WF_NO_STATION exactly if the
 * station is not live. After an error `drained` is unchanged. */
int32_t wf_path_drained(const struct wf_path *path, uint16_t station, uint8_t tid, uint32_t *drained);

/* Writes the TIM element (IEEE 802.11-2012, 8.4.2.7) of a BSS, and returns its size in octets. It shows the
 * association identifiers (wf_path_set_aid) of the stations of the BSS that sleep and have traffic; a BSS that
 * does not exist has none. `count` is the DTIM count and `period` the DTIM period in beacons; the bit for group
 * frames is set if `group` is not 0. A driver that calls wf_path_beacon passes `count` of the latest reply of
 * the BSS, the setting `period` (1 if that is 0), and `more` of that reply; before the first beacon, and
 * without group frames, it passes 0, 1 and 0. The rest of `out` is unchanged. */
size_t wf_path_tim(const struct wf_path *path, uint8_t bss, uint8_t count, uint8_t period, uint8_t group, uint8_t out[256]);

/* ---- cells. A cell has both halves, and the history of its calls. Transmissions are octets inside: the cell
 * writes each one that arrives, passes it to the station, and reads the station's BlockAck. The conditions
 * for a handle of a path apply to a handle of a cell too. Each call gives the number of its caller, which the
 * history keeps and the machine does not use. */

/* Puts a cell with these settings into an empty handle. The settings are copied. It allocates the path, the
 * receive halves, and a history of `calls` entries of 48 octets each. No station is live, and no call was
 * made. Returns WF_OK; WF_IN_USE if the handle holds a cell already; WF_BAD_SETTING + n if the nth setting is
 * the first that is out of its range, or the nth number is the first reserved one that is not 0; or
 * WF_NO_MEMORY. After an error the handle is as before. */
int32_t wf_cell_make(struct wf_cell *cell, const struct wf_settings *settings);

/* Frees the cell of a handle with all frames inside and the history. The handle is then empty. If it was,
 * nothing happens. */
void wf_cell_free(struct wf_cell *cell);

/* Makes a call that neither accepts nor reaps a frame: all kinds except WF_CALL_ENQUEUE and WF_CALL_REAP. It
 * writes the answer to `reply`. `caller` is any number of the caller's, which the history keeps. Returns
 * WF_OK, or the first of these that holds: WF_BAD_CALL if the struct does not show such a call, or shows a
 * rate of no format, a class above 3, or a group frame whose `length` is not 1 to WF_GREATEST_BODY, and then
 * nothing has changed, nor `reply`; WF_HISTORY_FULL if the history has `calls` entries, and then the state and
 * the history of the cell are unchanged; the refusal of the call. After WF_OK and a refusal of the call it is
 * one entry of the history. A group frame has the tag 0 and the address ff:ff:ff:ff:ff:ff. */
int32_t wf_cell_ask(struct wf_cell *cell, uint32_t caller, const struct wf_call *call, struct wf_reply *reply);

/* Accepts a packet for a station as a frame, whose id is `id` of the reply. The body is copied. Returns WF_OK,
 * or the first of these that holds: WF_BAD_LENGTH exactly if `length` is not 1 to WF_GREATEST_BODY;
 * WF_NO_MEMORY if there is no memory for the frame; WF_HISTORY_FULL if the history has `calls` entries;
 * WF_BAD_STATION, WF_BAD_TID, WF_NO_STATION, WF_ROOM or WF_SLEEPING. After WF_BAD_LENGTH and WF_NO_MEMORY
 * `reply` is unchanged. The call is one entry of the history, except after these two and WF_HISTORY_FULL. The
 * frame keeps the source and the tag of the packet until wf_cell_reap returns them; the entry has neither, so a
 * replay of the history has the placeholder source. */
int32_t wf_cell_enqueue(struct wf_cell *cell, uint32_t caller, uint16_t station, const struct wf_packet *packet,
                        struct wf_reply *reply);

/* Accepts a packet for a station as a frame without octets, whose id is `id` of the reply, as
 * wf_path_enqueue_bare does. Its octets are zeros to the station that it is sent to. Returns WF_OK, or the
 * first of these that holds: WF_BAD_LENGTH exactly if `length` is not 1 to WF_GREATEST_BODY; WF_NO_MEMORY if
 * there is no memory for the frame; WF_HISTORY_FULL if the history has `calls` entries; WF_BAD_STATION,
 * WF_BAD_TID, WF_NO_STATION, WF_ROOM or WF_SLEEPING. After WF_BAD_LENGTH and WF_NO_MEMORY `reply` is
 * unchanged. The call is one entry of the history, except after these two and WF_HISTORY_FULL; the entry has
 * neither the source nor the tag. */
int32_t wf_cell_enqueue_bare(struct wf_cell *cell, uint32_t caller, uint16_t station, const struct wf_bare *packet,
                             struct wf_reply *reply);

/* Takes the first finished frame out of the cell. `taken` gets its id, its fate and what its packet was, and
 * the front of `body` its `taken->length` octets; the rest of `body`, whose size is `room`, is unchanged. If
 * `room` is 0, the octets are freed and not copied, and `body` may be null. A frame that wf_cell_enqueue_bare
 * accepted leaves `body` unchanged. Returns WF_OK, or the first of these that holds: WF_SMALL_BUFFER exactly if
 * `room` is 1 to WF_GREATEST_BODY - 1, and then `reply` is unchanged; WF_HISTORY_FULL if the history has
 * `calls` entries; WF_NOTHING. After an error `taken` and `body` are unchanged. The call is one entry of the
 * history, except after WF_SMALL_BUFFER and WF_HISTORY_FULL. */
int32_t wf_cell_reap(struct wf_cell *cell, uint32_t caller, struct wf_reply *reply, struct wf_taken *taken, uint8_t *body,
                     size_t room);

/* Makes `count` calls in order, each as wf_cell_ask, wf_cell_enqueue_bare or wf_cell_reap does, and writes the
 * answer of each to the entry of `replies` at its place. `room` is the number of entries of `replies`. An
 * enqueue accepts a frame without octets, with the tag 0 and the placeholder source. A reap frees the frame;
 * its answer has the id and the fate. A call that is refused counts as made, and the burst goes on. `made` is
 * the number of calls that were made, each of which is one entry of the history; the other entries of
 * `replies` are unchanged. wf_cell_frames, wf_cell_released and wf_cell_block then are about the last call
 * that was made. Returns WF_OK if all were made; WF_SMALL_BUFFER if `room` is below `count`, and then none is
 * made; or else what stops it at the first call that is not made: WF_BAD_CALL if the struct shows no call;
 * WF_HISTORY_FULL if the history has `calls` entries; WF_BAD_LENGTH if it is an enqueue and `length` is not 1
 * to WF_GREATEST_BODY; or WF_NO_MEMORY if there is no memory for its frame. */
int32_t wf_cell_burst(struct wf_cell *cell, uint32_t caller, const struct wf_call *calls, size_t count, struct wf_reply *replies,
                      size_t room, size_t *made);

/* Writes the frames that the last call sends, if its answer sends some; otherwise their count is 0. A call that
 * was refused with WF_HISTORY_FULL counts as the last call; one that returned WF_BAD_CALL, WF_BAD_LENGTH,
 * WF_NO_MEMORY or WF_SMALL_BUFFER does not. */
void wf_cell_frames(const struct wf_cell *cell, struct wf_frames *frames);

/* Writes the frames that the station passed up because of the last call, an arrival or the end of an agreement;
 * otherwise, and if the transmission is of a batch, their count is 0. The last call is defined at
 * wf_cell_frames. */
void wf_cell_released(const struct wf_cell *cell, struct wf_passed_up *up);

/* Writes the BlockAck of the station, if the last call was answered with one (WF_KIND_BA); otherwise all fields
 * are 0. The last call is defined at wf_cell_frames. */
void wf_cell_block(const struct wf_cell *cell, struct wf_block *block);

/* Returns how many entries the history has. */
uint64_t wf_cell_len(const struct wf_cell *cell);

/* Returns how many more entries the history has room for. */
uint64_t wf_cell_room(const struct wf_cell *cell);

/* Writes one entry of the history: the caller and the call; `place` counts from 0. Returns WF_OK; or
 * WF_BAD_INDEX if the history is shorter, and then both are unchanged. */
int32_t wf_cell_entry(const struct wf_cell *cell, uint64_t place, uint32_t *caller, struct wf_call *call);

#ifdef __cplusplus
}
#endif

#endif
