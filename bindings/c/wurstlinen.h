/* Wurstlinen: a controller for RDM (ANSI E1.20) with proved queue, discovery, readers and writers. C11 and C++.
 *
 * Every call checks its arguments and returns a status. With a status other than WURST_DONE the handle is unchanged and
 * nothing is written, unless a call says otherwise. A session's log also keeps some of the calls that were refused.
 * A call on a handle that is closed, or of another kind (by a cast), returns WURST_NOT_OPEN and changes nothing, and
 * _dispose has no effect on it. _open, _start and the `log` of _rotate are the exceptions: they need a closed handle,
 * and refuse an open one of any kind as WURST_ALREADY_OPEN. The `log` of _drain may also be closed.
 *
 * What a C program has to ensure, since nothing checks it:
 * - A handle is all 0 (closed) or as the last call left it. It is never copied and never written by the program, its
 *   `kind` neither, and doesn't leave scope while it is open: what it holds would never be freed.
 * - Pointers aren't null, even for a length of 0, and point to as much memory as the call says. What a call writes
 *   doesn't overlap any other argument. No handle is passed twice in one call.
 * - A bool is 0 or 1.
 * - malloc, realloc and free belong to one allocator, and align blocks to 16 bytes (or define the three functions of
 *   heap.c otherwise).
 * - No call is made from a signal handler, or in the forked child of a process with threads.
 *
 * Threads: calls on one handle are made one at a time, on any thread, ordered by a lock, a thread's start or a join.
 * Calls on different handles may run at the same time, and so may calls without a handle. _rotate and _drain are calls
 * on both of their handles. No call blocks, starts a thread, does input or output, or reads a clock.
 *
 * UIDs are numbers below 2^48: manufacturer * 2^32 + device. Buffers are passed as a pointer and a length; `room` is
 * the capacity of a buffer. Strings have no 0 at the end.
 *
 * Memory is allocated by _open, _join, _start and _rotate, by _drain with a closed log, and by _deliver for a request's
 * data. The other calls allocate nothing. */
#ifndef WURSTLINEN_H
#define WURSTLINEN_H

#include <stdbool.h>
#include <stddef.h>
#include <stdint.h>

#ifdef __cplusplus
extern "C" {
#endif

/* The version of this header: major * 1,000,000 + minor * 1,000 + patch. wurst_version() is the library's. */
#define WURST_VERSION 1000
#define WURST_VERSION_TEXT "0.1.0"

/* Limits. */
#define WURST_MOST_FRAME_BYTES 257       /* of a frame, and of a reply */
#define WURST_MOST_PARAMETER_BYTES 231   /* of a packet's parameter data */
#define WURST_MOST_JOINED_BYTES 65535    /* of a request's data, all parts together */
#define WURST_MOST_DEVICES 1024          /* that a discovery finds */
#define WURST_MOST_BAD_UIDS 16           /* that a discovery sets apart */
#define WURST_MOST_CLIENTS 16            /* of a controller */
#define WURST_MOST_PLACES 4080           /* of all clients together */
#define WURST_MOST_DISCOVERIES 4         /* that a client has outstanding */
#define WURST_BRANCH_REPLY_BYTES 24      /* of a device's reply to a branch, at most */
#define WURST_UID_TEXT_BYTES 13          /* of a UID's text, as 7a70:00000001 */
#define WURST_DEFAULT_BUDGET 384008      /* enough frames for 1,024 devices, and as many known ones */
#define WURST_MOST_ENTRIES 1000000       /* free entries of a new log; each takes 296 bytes */
#define WURST_LEAST_FREE 3               /* entries that have to be free for a call that a full log refuses */
#define WURST_BROADCAST UINT64_C(0xffffffffffff) /* addresses all devices */

/* How a call ended. */
enum wurst_status {
    WURST_DONE = 0,
    WURST_NOTHING = 1,               /* there is nothing to return */
    WURST_NOT_OPEN = 2,              /* the handle is closed, or of another kind */
    WURST_ALREADY_OPEN = 3,          /* the handle is open, but the call opens it */
    WURST_BAD_UID = 4,               /* a UID is 2^48 or more */
    WURST_BROADCAST_UID = 5,         /* a UID is broadcast, but has to be a device's or a controller's */
    WURST_TOO_MANY_PLACES = 6,       /* more than 4,080 places */
    WURST_NO_BUDGET = 7,             /* the budget is 0 */
    WURST_BAD_SEARCH = 8,            /* no such search */
    WURST_BAD_KIND = 9,              /* no such kind of discovery */
    WURST_BAD_CLASS = 10,            /* no such command class or response class */
    WURST_DATA_TOO_LONG = 11,        /* more than 231 bytes of parameter data */
    WURST_REPLY_TOO_LONG = 12,       /* more than 257 bytes of a reply */
    WURST_TOO_MANY_ENTRIES = 13,     /* more than 1,000,000 entries of a log */
    WURST_BUFFER_TOO_SMALL = 14,     /* a buffer is too small for what is to be written */
    WURST_OUT_OF_MEMORY = 15,        /* an allocation failed */
    WURST_CLOSED = 16,               /* the queue is closed */
    WURST_UNKNOWN_CLIENT = 17,       /* no such client has joined */
    WURST_TOO_MANY_CLIENTS = 18,     /* sixteen clients have joined */
    WURST_NO_PLACES = 19,            /* less capacity is left than the client asks for */
    WURST_FULL = 20,                 /* the client's places or four discoveries are taken, or no number is left */
    WURST_LOG_FULL = 21,             /* fewer than three entries of the log are free */
    WURST_NOT_ASKED = 22,            /* no reply is awaited */
    WURST_OTHER_OUTCOME = 23,        /* the client's oldest outcome is of the other kind */
    WURST_NOT_IDLE = 24,             /* the session isn't idle */
    WURST_NO_ENTRY = 25,             /* the log has no entry of this index */
    WURST_BAD_RANGE = 26,            /* the lower bound is above the upper one */
    WURST_TOO_MANY_DEVICES = 27,     /* more than 1,024 devices */
    WURST_BAD_PREAMBLE = 28,         /* more than 7 preamble bytes */
    WURST_BAD_RESPONSE_TYPE = 29,    /* no such response type */
    WURST_NOT_ENDED = 30,            /* the run hasn't ended */
    WURST_HAS_ENDED = 31,            /* the run has ended */
    WURST_UID_LENGTH = 32,           /* a UID's text doesn't have 13 bytes */
    WURST_UID_SEPARATOR = 33,        /* its fifth byte isn't a colon */
    WURST_UID_DIGIT = 34,            /* one of its other bytes isn't a hexadecimal digit */
    WURST_TOO_SHORT = 35,            /* a packet has fewer than 26 bytes */
    WURST_WRONG_START = 36,          /* its first byte isn't the start code */
    WURST_WRONG_SUB_START = 37,      /* its second byte isn't the sub start code */
    WURST_LENGTH_MISMATCH = 38,      /* its message length doesn't fit its bytes */
    WURST_PARAM_LENGTH_MISMATCH = 39, /* its parameter data length doesn't fit its message length */
    WURST_WRONG_CHECKSUM = 40,       /* its checksum isn't the sum of its bytes */
    WURST_INVALID_CLASS = 41,        /* its command class isn't a response's */
    WURST_INVALID_RESPONSE_TYPE = 42, /* its response type doesn't exist */
    WURST_NOT_TEXT = 43              /* the bytes aren't UTF-8 */
};

/* How discovery runs search, and what a discovery starts from. */
enum wurst_search { WURST_STEADY = 0, WURST_QUICK = 1 };
enum wurst_kind { WURST_FULL_DISCOVERY = 0, WURST_INCREMENTAL = 1 };

/* Command classes of requests; response classes and types of responses. */
enum wurst_command_class { WURST_GET = 0, WURST_SET = 1 };
enum wurst_response_class { WURST_DISCOVERY_RESPONSE = 0, WURST_GET_RESPONSE = 1, WURST_SET_RESPONSE = 2 };
enum wurst_ack { WURST_ACK = 0, WURST_ACK_TIMER = 1, WURST_NACK = 2, WURST_ACK_OVERFLOW = 3 };

/* The kind of an outcome. */
enum wurst_outcome { WURST_REQUEST_OUTCOME = 0, WURST_DISCOVERY_OUTCOME = 1 };

/* How a request ended. */
enum wurst_request_status {
    WURST_COMPLETED = 0,                 /* the device answered */
    WURST_WAS_BROADCAST = 1,             /* broadcast, so not answered */
    WURST_FAILED_TO_SEND = 2,            /* the line failed, or the queue was closed */
    WURST_TIMEOUT = 3,                   /* no bytes came */
    WURST_INVALID_RESPONSE = 4,          /* a response that doesn't answer it, or doesn't join with the parts before */
    WURST_REPLY_TOO_SHORT = 5,
    WURST_REPLY_WRONG_START = 6,
    WURST_REPLY_WRONG_SUB_START = 7,
    WURST_REPLY_LENGTH_MISMATCH = 8,
    WURST_REPLY_PARAM_LENGTH_MISMATCH = 9,
    WURST_REPLY_CHECKSUM = 10,
    WURST_REPLY_INVALID_CLASS = 11,
    WURST_REPLY_INVALID_RESPONSE_TYPE = 12,
    WURST_TRANSACTION_MISMATCH = 13,
    WURST_SUB_DEVICE_MISMATCH = 14,
    WURST_SOURCE_MISMATCH = 15,
    WURST_DEST_MISMATCH = 16,
    WURST_CLASS_MISMATCH = 17,
    WURST_NO_MEMORY = 18                 /* no memory for the joined data */
};

/* Why a discovery run ended early. */
enum wurst_fault {
    WURST_NO_FAULT = 0,
    WURST_CORRUPT = 1,       /* a branch of one UID was answered, but showed no new device (quick: 8 times) */
    WURST_TOO_MANY = 2,      /* more than 1,024 devices */
    WURST_EXHAUSTED = 3,     /* the budget is used up */
    WURST_LINE_FAILED = 4,   /* the line failed */
    WURST_ABORTED = 5        /* closed or stopped */
};

/* Handles. Begin with {0}; end with _dispose. An open one's kind is 1 to 4, in this order. */
struct wurst_controller { void *at; bool is_open; uint32_t kind; };
struct wurst_session { void *at; bool is_open; uint32_t kind; };
struct wurst_log { void *at; bool is_open; uint32_t kind; };
struct wurst_agent { void *at; bool is_open; uint32_t kind; };

struct wurst_setup {
    uint64_t source;   /* the controller's own UID, not broadcast */
    uint64_t budget;   /* how many frames a discovery may take, from 1; see WURST_DEFAULT_BUDGET */
    uint32_t search;   /* enum wurst_search */
    uint16_t places;   /* of all clients together, 0 to 4,080 */
};

struct wurst_request {
    uint64_t target;         /* the device, or a broadcast UID */
    uint32_t command_class;  /* enum wurst_command_class */
    uint16_t sub_device;     /* 0 the root, 0xffff all */
    uint16_t pid;
};

struct wurst_completion {
    uint64_t number;
    size_t len;              /* bytes of data */
    uint32_t status;         /* enum wurst_request_status */
    uint32_t ack;            /* of the last reply: enum wurst_ack; without a head 0, as the next three */
    uint32_t response_class; /* enum wurst_response_class */
    uint16_t sub_device;
    uint16_t pid;
    bool has_head;           /* there is a last reply: only with WURST_COMPLETED */
    bool may_be_incomplete;  /* may lack its first parts: a GET of it, or over 1,024 others, broke off. GET again */
};

struct wurst_end {
    uint64_t number;
    uint64_t run;      /* the run that served the discovery, from 1; 0 if none was begun for it */
    uint64_t corrupt;  /* the UID of WURST_CORRUPT, else 0 */
    size_t count;      /* devices; also after a fault, those found until then */
    uint32_t fault;    /* enum wurst_fault */
};

struct wurst_device {
    uint64_t uid;
    uint64_t binding;  /* 0 if it gave none */
    uint16_t control;  /* bits: 1 managed proxy, 2 sub-device, 4 boot-loader, 8 proxied device */
    bool has_binding;
};

/* What an entry of a log is, what a refused call was, and whose a frame is. */
enum wurst_entry_kind {
    WURST_ENTRY_JOIN = 0,     /* client, places: a client joined */
    WURST_ENTRY_REFUSE = 1,   /* call, cause: a call was refused. client: the caller; a refused join has none.
                                 places: of a join; discovery: of a discover; the request: of a submit */
    WURST_ENTRY_ACCEPT = 2,   /* client, number: its request was accepted; the request */
    WURST_ENTRY_ASK = 3,      /* client, number, discovery: its discovery was accepted */
    WURST_ENTRY_SEND = 4,     /* owner, number or run: a frame was taken; bytes: the frame */
    WURST_ENTRY_CAME = 5,     /* has_failed: the line failed; else bytes: the reply, none for silence */
    WURST_ENTRY_FINISH = 6,   /* number, status, joined: a request ended */
    WURST_ENTRY_ANSWER = 7,   /* number, run, fault, corrupt: a discovery was answered */
    WURST_ENTRY_COLLECT = 8,  /* client: it collected its oldest outcome */
    WURST_ENTRY_PAUSE = 9,
    WURST_ENTRY_RESUME = 10,
    WURST_ENTRY_CLOSE = 11
};
enum wurst_call { WURST_CALL_JOIN = 0, WURST_CALL_SUBMIT = 1, WURST_CALL_DISCOVER = 2 };
enum wurst_owner { WURST_OF_REQUEST = 0, WURST_OF_RUN = 1 };

struct wurst_entry {         /* fields that its kind doesn't have are 0 */
    uint64_t number;         /* of the request, or of the discovery */
    uint64_t run;            /* of a frame, the run that sent it; of an answer, the run that served it, 0 for none */
    uint64_t corrupt;        /* the UID of WURST_CORRUPT */
    uint64_t target;         /* of a request, as the next four and the bytes, which are its parameter data */
    size_t len;              /* how many bytes the entry has */
    size_t joined;           /* how many bytes the data of a request with WURST_COMPLETED have */
    uint32_t kind;           /* enum wurst_entry_kind */
    uint32_t call;           /* enum wurst_call */
    uint32_t owner;          /* enum wurst_owner */
    uint32_t discovery;      /* enum wurst_kind */
    uint32_t status;         /* enum wurst_request_status */
    uint32_t fault;          /* enum wurst_fault */
    uint32_t command_class;  /* enum wurst_command_class */
    uint16_t sub_device;
    uint16_t pid;
    uint8_t client;
    uint8_t places;
    uint8_t cause;           /* 1 the queue was closed; of a join, 2 sixteen clients, 3 too few places, 4 no memory;
                                of a submit or a discover, 2 no such client, 3 full */
    bool has_client;
    bool has_failed;
};

struct wurst_response {
    uint64_t source;         /* the device */
    uint64_t dest;           /* the controller that it answers */
    size_t len;              /* bytes of parameter data */
    uint32_t ack;            /* enum wurst_ack */
    uint32_t response_class; /* enum wurst_response_class */
    uint16_t sub_device;
    uint16_t pid;
    uint8_t tn;              /* the transaction number of the command that it answers */
    uint8_t count;           /* messages that wait in the device's queue */
};

enum wurst_command_kind { WURST_UNMUTE = 0, WURST_BRANCH = 1, WURST_MUTE = 2, WURST_REQUEST = 3 };

struct wurst_command {       /* fields that its kind doesn't have are 0 */
    uint64_t source;         /* the controller */
    uint64_t target;         /* of a mute or a request */
    uint64_t lo;             /* of a branch */
    uint64_t hi;             /* of a branch */
    size_t len;              /* bytes of a request's parameter data */
    uint32_t kind;           /* enum wurst_command_kind */
    uint32_t command_class;  /* of a request: enum wurst_command_class */
    uint16_t sub_device;     /* of a request */
    uint16_t pid;            /* of a request */
    uint8_t tn;
};

struct wurst_mute_ack {
    uint64_t binding;  /* 0 if the device gave none */
    uint16_t control;
    bool has_binding;
};

struct wurst_start {
    uint64_t source;   /* the UID of the controller whose frames they are, not broadcast */
    uint64_t budget;   /* how many exchanges the run may make */
    uint32_t kind;     /* enum wurst_kind */
    uint32_t search;   /* enum wurst_search */
    uint8_t tn;        /* the transaction number of the first frame */
};

enum wurst_operation { WURST_UNMUTE_ALL = 0, WURST_MUTE_DEVICE = 1, WURST_BRANCH_RANGE = 2 };
enum wurst_branch_reply { WURST_SILENT = 0, WURST_ONE = 1, WURST_COLLISION = 2 };

/* The library's version, as WURST_VERSION. */
uint32_t wurst_version(void);

/* ---- Controllers: the queue of requests and discoveries on one line. A controller has no log, and can run for years.
 *
 * One frame is outstanding at a time. Send what _take writes, and pass the line's reply to _deliver (no bytes are
 * silence), or call _fail if the line failed. Then take the next frame. */

/* Opens a closed handle: a controller without clients. Allocates.
 * WURST_ALREADY_OPEN; then of the setup, the first of WURST_BAD_UID, WURST_BROADCAST_UID (source),
 * WURST_TOO_MANY_PLACES, WURST_NO_BUDGET, WURST_BAD_SEARCH; WURST_OUT_OF_MEMORY. */
uint32_t wurst_controller_open(struct wurst_controller *handle, const struct wurst_setup *setup);

/* Frees the controller that a handle holds, and closes the handle. Without effect on any other handle. */
void wurst_controller_dispose(struct wurst_controller *handle);

/* Lets a client join that may have this many requests outstanding, from their acceptance until their outcomes are
 * collected, and writes its number: 0 to 15. Allocates.
 * The first of WURST_CLOSED, WURST_TOO_MANY_CLIENTS, WURST_NO_PLACES, WURST_OUT_OF_MEMORY. */
uint32_t wurst_controller_join(struct wurst_controller *handle, uint8_t places, uint8_t *client);

/* Accepts a client's request with these parameter data, and writes its number: 0, 1, 2 .. for all clients together.
 * Of the request, the first of WURST_BAD_UID, WURST_BAD_CLASS, WURST_DATA_TOO_LONG; then the first of WURST_CLOSED,
 * WURST_UNKNOWN_CLIENT, WURST_FULL. */
uint32_t wurst_controller_submit(struct wurst_controller *handle, uint8_t client, const struct wurst_request *request,
                                 const uint8_t *param, size_t param_len, uint64_t *number);

/* Accepts a client's discovery (enum wurst_kind), and writes its number. One run serves all discoveries that are asked
 * when it begins. WURST_BAD_KIND; then the first of WURST_CLOSED, WURST_UNKNOWN_CLIENT, WURST_FULL. */
uint32_t wurst_controller_discover(struct wurst_controller *handle, uint8_t client, uint32_t kind, uint64_t *number);

/* Begins no run and sends no request until _resume. A run that has begun goes on. Without effect if paused or
 * closed. */
uint32_t wurst_controller_pause(struct wurst_controller *handle);

/* Begins runs and sends requests again. Without effect if not paused, or closed. */
uint32_t wurst_controller_resume(struct wurst_controller *handle);

/* Refuses all later joins, submits and discovers, and sends nothing more. What waits is ended: at once, or by the next
 * _deliver or _fail if a reply is awaited. Outcomes can still be collected. */
uint32_t wurst_controller_close(struct wurst_controller *handle);

/* Writes the next frame for the line, start code and checksum included, and how many bytes it has. `room` is at least
 * WURST_MOST_FRAME_BYTES, else WURST_BUFFER_TOO_SMALL.
 * WURST_NOTHING: a reply is awaited, or nothing is to be sent. */
uint32_t wurst_controller_take(struct wurst_controller *handle, uint8_t *frame, size_t room, size_t *len);

/* Takes the line's reply to the last frame; len 0 is silence. May allocate; if that fails, the request ends with
 * WURST_NO_MEMORY.
 * WURST_REPLY_TOO_LONG (the reply is still awaited), WURST_NOT_ASKED. */
uint32_t wurst_controller_deliver(struct wurst_controller *handle, const uint8_t *reply, size_t len);

/* Reports that the line failed at the last frame: what the devices received isn't known. WURST_NOT_ASKED. */
uint32_t wurst_controller_fail(struct wurst_controller *handle);

/* Writes the kind of the client's oldest outcome that it hasn't collected (enum wurst_outcome).
 * WURST_UNKNOWN_CLIENT, WURST_NOTHING. */
uint32_t wurst_controller_oldest(struct wurst_controller *handle, uint8_t client, uint32_t *kind);

/* Collects a client's oldest outcome if it is a request's, with its data. It is then no longer outstanding.
 * WURST_UNKNOWN_CLIENT, WURST_NOTHING, WURST_OTHER_OUTCOME; WURST_BUFFER_TOO_SMALL: only completion->len is written,
 * the number of bytes needed, and the outcome stays. */
uint32_t wurst_controller_next_completion(struct wurst_controller *handle, uint8_t client,
                                          struct wurst_completion *completion, uint8_t *buffer, size_t room);

/* Collects a client's oldest outcome if it is a discovery's, with its devices, ascending by UID.
 * WURST_UNKNOWN_CLIENT, WURST_NOTHING, WURST_OTHER_OUTCOME; WURST_BUFFER_TOO_SMALL: only end->count is written, the
 * number of devices, and the outcome stays. */
uint32_t wurst_controller_next_discovery(struct wurst_controller *handle, uint8_t client, struct wurst_end *end,
                                         struct wurst_device *devices, size_t room);

/* Writes the devices that the last run without fault found, ascending by UID, and how many there are.
 * WURST_BUFFER_TOO_SMALL: only the count is written. */
uint32_t wurst_controller_devices(struct wurst_controller *handle, struct wurst_device *devices, size_t room,
                                  size_t *count);

/* Writes the number of the run that found them; 0 before the first. */
uint32_t wurst_controller_devices_run(struct wurst_controller *handle, uint64_t *run);

/* Writes the bad UIDs of the run that began last, open or ended: those that it has set apart, the newest first, because
 * each was answered badly when it was asked alone. Writes how many there are, 0 before the first run, and whether the
 * run gave up more. WURST_BUFFER_TOO_SMALL: only the count is written. WURST_MOST_BAD_UIDS are enough. The second call
 * writes the number of that run; 0 before the first. */
uint32_t wurst_controller_bad_uids(struct wurst_controller *handle, uint64_t *uids, size_t room, size_t *count,
                                   bool *more);
uint32_t wurst_controller_bad_uids_run(struct wurst_controller *handle, uint64_t *run);

/* Each writes an answer: whether the queue is idle, since nothing waits, is under way or is uncollected; whether
 * sending is paused; whether the queue is closed; whether a reply is awaited. */
uint32_t wurst_controller_is_idle(struct wurst_controller *handle, bool *answer);
uint32_t wurst_controller_is_paused(struct wurst_controller *handle, bool *answer);
uint32_t wurst_controller_is_closed(struct wurst_controller *handle, bool *answer);
uint32_t wurst_controller_awaits(struct wurst_controller *handle, bool *answer);

/* ---- Sessions: a controller with a log of all that it does.
 *
 * The log has a fixed capacity of entries. A request takes 5, and 2 for each further frame. A discovery takes 3, and
 * its run 2 for each frame. _drain empties the log at any time. Some entries are reserved: 1 for a close, 1 for a reply
 * that is awaited, 2 for each request and discovery that hasn't ended, 1 for each outcome that isn't collected. A log
 * with fewer than WURST_LEAST_FREE free entries refuses some calls; replies, closes and collects always fit.
 * Calls that a controller also has do the same as the controller's. What is said here is in addition. */

/* Opens a closed handle: a session without clients, whose log has capacity for this many entries, 0 to
 * WURST_MOST_ENTRIES, and one more for a close. Allocates the log's memory, 296 bytes for each entry.
 * WURST_ALREADY_OPEN; the faults of the setup; WURST_TOO_MANY_ENTRIES; WURST_OUT_OF_MEMORY. */
uint32_t wurst_session_open(struct wurst_session *handle, const struct wurst_setup *setup, size_t entries);

/* The same, but the log keeps nothing, so that the session can last for years. It counts its entries, up to 2^62. */
uint32_t wurst_session_open_without_log(struct wurst_session *handle, const struct wurst_setup *setup);

/* Frees the session that a handle holds, with its log, and closes the handle. Without effect on any other handle. */
void wurst_session_dispose(struct wurst_session *handle);

/* As wurst_controller_join. First WURST_LOG_FULL, without an entry; any other refusal is an entry. */
uint32_t wurst_session_join(struct wurst_session *handle, uint8_t places, uint8_t *client);

/* As wurst_controller_submit. After the faults of the request comes WURST_LOG_FULL, all without an entry; any other
 * refusal is an entry. */
uint32_t wurst_session_submit(struct wurst_session *handle, uint8_t client, const struct wurst_request *request,
                              const uint8_t *param, size_t param_len, uint64_t *number);

/* As wurst_controller_discover. After WURST_BAD_KIND comes WURST_LOG_FULL, both without an entry; any other refusal is
 * an entry. */
uint32_t wurst_session_discover(struct wurst_session *handle, uint8_t client, uint32_t kind, uint64_t *number);

/* As wurst_controller_pause and _resume. WURST_LOG_FULL, even if the call would have no effect. */
uint32_t wurst_session_pause(struct wurst_session *handle);
uint32_t wurst_session_resume(struct wurst_session *handle);

/* As wurst_controller_take. After WURST_BUFFER_TOO_SMALL comes WURST_LOG_FULL, even if there is nothing to send. */
uint32_t wurst_session_take(struct wurst_session *handle, uint8_t *frame, size_t room, size_t *len);

/* As wurst_controller_deliver, _fail, _close, _oldest, _next_completion, _next_discovery, _devices, _devices_run,
 * _bad_uids, _bad_uids_run, _is_idle, _is_paused, _is_closed and _awaits. */
uint32_t wurst_session_deliver(struct wurst_session *handle, const uint8_t *reply, size_t len);
uint32_t wurst_session_fail(struct wurst_session *handle);
uint32_t wurst_session_close(struct wurst_session *handle);
uint32_t wurst_session_oldest(struct wurst_session *handle, uint8_t client, uint32_t *kind);
uint32_t wurst_session_next_completion(struct wurst_session *handle, uint8_t client,
                                       struct wurst_completion *completion, uint8_t *buffer, size_t room);
uint32_t wurst_session_next_discovery(struct wurst_session *handle, uint8_t client, struct wurst_end *end,
                                      struct wurst_device *devices, size_t room);
uint32_t wurst_session_devices(struct wurst_session *handle, struct wurst_device *devices, size_t room,
                               size_t *count);
uint32_t wurst_session_devices_run(struct wurst_session *handle, uint64_t *run);
uint32_t wurst_session_bad_uids(struct wurst_session *handle, uint64_t *uids, size_t room, size_t *count, bool *more);
uint32_t wurst_session_bad_uids_run(struct wurst_session *handle, uint64_t *run);
uint32_t wurst_session_is_idle(struct wurst_session *handle, bool *answer);
uint32_t wurst_session_is_paused(struct wurst_session *handle, bool *answer);
uint32_t wurst_session_is_closed(struct wurst_session *handle, bool *answer);
uint32_t wurst_session_awaits(struct wurst_session *handle, bool *answer);

/* Each writes a count: of the log's free entries, neither taken nor reserved; and of the entries that it stores. */
uint32_t wurst_session_free_entries(struct wurst_session *handle, size_t *count);
uint32_t wurst_session_entry_count(struct wurst_session *handle, size_t *count);

/* Writes the stored entry of this index, counted from 0, oldest first, and its bytes into the buffer.
 * WURST_NO_ENTRY; WURST_BUFFER_TOO_SMALL: only entry->len is written, the number of bytes needed.
 * WURST_MOST_FRAME_BYTES are enough for each entry. */
uint32_t wurst_session_entry(struct wurst_session *handle, size_t index, struct wurst_entry *entry, uint8_t *buffer,
                             size_t room);

/* Continues with a fresh log with capacity for this many entries. Opens the closed handle `log`, which then holds the
 * old log. Numbers, clients, devices and whether it is paused or closed are kept. Allocates the fresh log's memory, and
 * for a moment a second session without entries. WURST_ALREADY_OPEN (`log`, of any kind); WURST_TOO_MANY_ENTRIES;
 * WURST_LOG_FULL, for fewer than WURST_LEAST_FREE entries; WURST_NOT_IDLE; WURST_OUT_OF_MEMORY. */
uint32_t wurst_session_rotate(struct wurst_session *handle, size_t entries, struct wurst_log *log);

/* Hands out all entries that the log stores, at any time, and keeps entries in other memory. An open handle `log` is
 * emptied, its memory is used next, whatever `entries` is, and nothing is allocated. With a closed one, memory for this
 * many entries and a close is allocated. Then `log` holds what was handed out. Writes the number of its first entry,
 * from 0 after a rotation. WURST_NOT_OPEN (`log`, of another kind); WURST_LOG_FULL (`log` has less capacity than is
 * reserved, or keeps nothing; over 2^62 entries in all); WURST_TOO_MANY_ENTRIES; WURST_OUT_OF_MEMORY. */
uint32_t wurst_session_drain(struct wurst_session *handle, size_t entries, struct wurst_log *log, uint64_t *first);

/* Frees the log that a handle holds, and closes the handle. Without effect on any other handle. */
void wurst_log_dispose(struct wurst_log *handle);

/* As wurst_session_entry_count and wurst_session_entry. */
uint32_t wurst_log_entry_count(struct wurst_log *handle, size_t *count);
uint32_t wurst_log_entry(struct wurst_log *handle, size_t index, struct wurst_entry *entry, uint8_t *buffer,
                         size_t room);

/* ---- Readers and writers: packets without a queue. */

/* Reads a UID's text, as 7a70:00000001, in either case.
 * WURST_NOT_TEXT; the first of WURST_UID_LENGTH, WURST_UID_SEPARATOR, WURST_UID_DIGIT. */
uint32_t wurst_uid_read(const uint8_t *text, size_t len, uint64_t *uid);

/* Writes a UID's text in lower case: WURST_UID_TEXT_BYTES bytes, without a 0 at the end.
 * WURST_BAD_UID, WURST_BUFFER_TOO_SMALL. */
uint32_t wurst_uid_write(uint64_t uid, uint8_t *text, size_t room);

/* Reads what came after a branch: `kind` (enum wurst_branch_reply), and for WURST_ONE the UID. Bytes after a device's
 * text are ignored. Always WURST_DONE. */
uint32_t wurst_branch_reply_read(const uint8_t *bytes, size_t len, uint32_t *kind, uint64_t *uid);

/* Writes a device's reply to a branch, after 0 to 7 preamble bytes. `room` is at least WURST_BRANCH_REPLY_BYTES.
 * The first of WURST_BAD_UID, WURST_BAD_PREAMBLE, WURST_BUFFER_TOO_SMALL. */
uint32_t wurst_branch_reply_write(uint64_t uid, uint8_t preamble, uint8_t *bytes, size_t room, size_t *len);

/* Each of the following writes one packet into a buffer for WURST_MOST_FRAME_BYTES. The packet is from the controller
 * `source`, with the transaction number `tn`, port id 1 and message count 0.
 * Of the request, the first of WURST_BAD_UID, WURST_BAD_CLASS, WURST_DATA_TOO_LONG; of the source, WURST_BAD_UID;
 * WURST_BUFFER_TOO_SMALL. */
uint32_t wurst_request_write(const struct wurst_request *request, const uint8_t *param, size_t param_len,
                             uint64_t source, uint8_t tn, uint8_t *frame, size_t room, size_t *len);

/* Asks all devices to unmute. WURST_BAD_UID, WURST_BUFFER_TOO_SMALL. */
uint32_t wurst_unmute_write(uint64_t source, uint8_t tn, uint8_t *frame, size_t room, size_t *len);

/* Asks this device to mute. Of `uid`, WURST_BAD_UID or WURST_BROADCAST_UID; of `source`, WURST_BAD_UID;
 * WURST_BUFFER_TOO_SMALL. */
uint32_t wurst_mute_write(uint64_t uid, uint64_t source, uint8_t tn, uint8_t *frame, size_t room, size_t *len);

/* Asks each unmuted device from `lo` to `hi` to reply. The first of: for `lo` and `hi`, WURST_BAD_UID; WURST_BAD_RANGE;
 * for `source`, WURST_BAD_UID; WURST_BUFFER_TOO_SMALL. */
uint32_t wurst_branch_write(uint64_t lo, uint64_t hi, uint64_t source, uint8_t tn, uint8_t *frame, size_t room,
                            size_t *len);

/* Reads the response that the bytes begin with, with its parameter data. What comes after its checksum is ignored.
 * The first of WURST_TOO_SHORT, WURST_WRONG_START, WURST_WRONG_SUB_START, WURST_LENGTH_MISMATCH,
 * WURST_PARAM_LENGTH_MISMATCH, WURST_WRONG_CHECKSUM, WURST_INVALID_CLASS, WURST_INVALID_RESPONSE_TYPE;
 * WURST_BUFFER_TOO_SMALL unless `room` is at least WURST_MOST_PARAMETER_BYTES. */
uint32_t wurst_response_read(const uint8_t *bytes, size_t len, struct wurst_response *response, uint8_t *param,
                             size_t room);

/* Writes a response's packet; response->len isn't read. The first of WURST_BAD_UID (source, dest),
 * WURST_BAD_RESPONSE_TYPE, WURST_BAD_CLASS, WURST_DATA_TOO_LONG, WURST_BUFFER_TOO_SMALL. */
uint32_t wurst_response_write(const struct wurst_response *response, const uint8_t *param, size_t param_len,
                              uint8_t *frame, size_t room, size_t *len);

/* Reads the acknowledgement of the mute of `uid` that `source` sent with `tn`. WURST_NOTHING: the bytes aren't one.
 * WURST_BAD_UID. */
uint32_t wurst_mute_ack_read(uint64_t uid, uint64_t source, uint8_t tn, const uint8_t *bytes, size_t len,
                             struct wurst_mute_ack *ack);

/* Writes the acknowledgement of the mute that `source` sent with `tn`. The first of: for the device's UID,
 * WURST_BAD_UID or WURST_BROADCAST_UID; for its binding UID, read even without has_binding, and for `source`,
 * WURST_BAD_UID; WURST_BUFFER_TOO_SMALL. */
uint32_t wurst_mute_ack_write(const struct wurst_device *device, uint64_t source, uint8_t tn, uint8_t *frame,
                              size_t room, size_t *len);

/* Reads a controller's command: exactly the bytes that one of the four writers above writes. A request's parameter data
 * are written into `param`. The first of WURST_NOTHING, if the bytes aren't one, and WURST_BUFFER_TOO_SMALL, if
 * `room` is less than WURST_MOST_PARAMETER_BYTES. */
uint32_t wurst_command_read(const uint8_t *bytes, size_t len, struct wurst_command *command, uint8_t *param,
                            size_t room);

/* ---- Agents: single discovery runs, on a line of the caller's own. A run takes 42 KB of memory.
 *
 * Send what _next writes, and pass the line's reply to _hear, or call _fail if the line failed, until _next returns
 * WURST_NOTHING. */

/* Begins a run on a closed handle. An incremental run mutes the known devices first. Allocates.
 * WURST_ALREADY_OPEN; then the first of WURST_BAD_UID, WURST_BROADCAST_UID (source), WURST_BAD_KIND, WURST_BAD_SEARCH;
 * of the known UIDs, WURST_BAD_UID, WURST_BROADCAST_UID or WURST_TOO_MANY_DEVICES; WURST_OUT_OF_MEMORY. */
uint32_t wurst_agent_start(struct wurst_agent *handle, const struct wurst_start *start, const uint64_t *known,
                           size_t known_len);

/* Frees the run that a handle holds, and closes the handle. Without effect on any other handle. */
void wurst_agent_dispose(struct wurst_agent *handle);

/* Writes what the run asks next (enum wurst_operation) and its frame. Asking again writes the same.
 * The first of WURST_NOTHING, if the run has ended, and WURST_BUFFER_TOO_SMALL, if `room` is less than
 * WURST_MOST_FRAME_BYTES. */
uint32_t wurst_agent_next(struct wurst_agent *handle, uint32_t *operation, uint8_t *frame, size_t room, size_t *len);

/* Takes the line's reply; len 0 is silence. Or reports that the line failed, which ends the run. The next frame has the
 * next transaction number. WURST_HAS_ENDED. */
uint32_t wurst_agent_hear(struct wurst_agent *handle, const uint8_t *reply, size_t len);
uint32_t wurst_agent_fail(struct wurst_agent *handle);

/* Ends the run with WURST_ABORTED. Without effect if it has ended. */
uint32_t wurst_agent_stop(struct wurst_agent *handle);

/* Each writes what there is so far, as wurst_controller_devices and wurst_controller_bad_uids do. */
uint32_t wurst_agent_devices(struct wurst_agent *handle, struct wurst_device *devices, size_t room, size_t *count);
uint32_t wurst_agent_bad_uids(struct wurst_agent *handle, uint64_t *uids, size_t room, size_t *count, bool *more);

/* Writes why the run ended early (enum wurst_fault), and the UID of WURST_CORRUPT, else 0. WURST_NOT_ENDED. */
uint32_t wurst_agent_fault(struct wurst_agent *handle, uint32_t *fault, uint64_t *corrupt);

/* Writes how many exchanges the run has made. */
uint32_t wurst_agent_frames(struct wurst_agent *handle, uint64_t *frames);

/* ---- Texts. */

/* A status in words, for messages. */
static inline const char *wurst_text(uint32_t status) {
    static const char *const texts[] = {
        "done", "nothing to give", "the handle is closed, or of another kind", "the handle is open already",
        "a UID is 2^48 or more", "a UID is broadcast", "more than 4,080 places", "the budget is 0",
        "no such search", "no such kind of discovery", "no such class",
        "more than 231 bytes of parameter data", "more than 257 bytes of a reply",
        "more than 1,000,000 entries", "the buffer is too small", "out of memory", "the queue is closed",
        "no such client", "sixteen clients have joined", "too few places",
        "the client's places or four discoveries are taken, or no number is left",
        "the log is full", "no reply is awaited", "the oldest outcome is of the other kind",
        "the session isn't idle", "no such entry", "the lower bound is above the upper one", "more than 1,024 devices",
        "more than 7 preamble bytes", "no such response type", "the run hasn't ended", "the run has ended",
        "a UID has 13 characters", "a UID has a colon after its first four digits", "a UID has hexadecimal digits",
        "a packet has 26 bytes at least", "a packet begins with the start code cc",
        "a packet has the sub start code 01", "the message length does not fit the bytes",
        "the parameter data length does not fit the message length", "the checksum is wrong",
        "the command class is not that of a response", "there is no such response type", "the bytes aren't UTF-8"};
    return status < sizeof texts / sizeof texts[0] ? texts[status] : "no such status";
}

#ifdef __cplusplus
}
#endif

#endif
