/* The proved judge of journals, the proved machine of one thread, one operation at a time, and the lines of journals.

   docs/FORMATS.md has the text of journals, and docs/MODEL.md the objects. Link libtongsthyme.a, or libtongsthyme.so.

   What the library promises is proved of its Rattle source, and nothing checks that a caller of another language does its part. The
   caller's part is this:

   - Each pointer leads to what its type says, and no two pointers of one call lead to the same memory. None is null: an empty journal
     needs a pointer too.
   - A machine begins as `struct tongsthyme_machine machine = {0};`. Only these functions touch it, it is not copied, and it is in one
     call at a time, on the thread that opened it. Calls with different machines may run at once, and so may calls of the judge.
   - The program's malloc, realloc and free are the C library's, or do what those do. No call is made from a signal handler, or from
     the child of a fork of a program with threads.

   No function keeps a pointer that it is given, prints anything, or reads or writes a file. */
#ifndef TONGSTHYME_H
#define TONGSTHYME_H

#include <stddef.h>
#include <stdint.h>

#ifdef __cplusplus
extern "C" {
#endif

/* ---- The judge */

/* What a text is. */
enum tongsthyme_verdict_status {
    TONGSTHYME_LEGAL = 0,        /* the journal of a legal history, in version 2 with the right call numbers */
    TONGSTHYME_ILLEGAL = 1,      /* a journal in which an entry is not what the services do, or has another call number */
    TONGSTHYME_MALFORMED = 2,    /* not a journal */
    TONGSTHYME_TOO_LONG = 3,     /* more than 67,108,864 bytes; it was not read */
    TONGSTHYME_OUT_OF_MEMORY = 4 /* memory ran out before the text was judged */
};

/* Why a text is not a journal. */
enum tongsthyme_fault {
    TONGSTHYME_FAULT_FORM = 1,          /* the line does not have a form that is allowed at its place */
    TONGSTHYME_FAULT_NUMBER = 2,        /* a number has a leading zero or is beyond its range */
    TONGSTHYME_FAULT_CONFIGURATION = 3, /* at EVENTS: the configuration is refused */
    TONGSTHYME_FAULT_COUNT = 4,         /* at END: the number is not that of the events */
    TONGSTHYME_FAULT_CUT = 5            /* the line does not end with LF, or the text ends before its END line */
};

/* A field to which the status gives no meaning is 0. */
struct tongsthyme_verdict {
    uint32_t status; /* enum tongsthyme_verdict_status */
    uint32_t events; /* LEGAL: the number of events */
    uint32_t line;   /* ILLEGAL: the line of the first wrong entry, counted from 1. MALFORMED: the line of the first fault */
    uint32_t kind;   /* MALFORMED: enum tongsthyme_fault */
};

/* Judges the `length` bytes at `journal`, writes the verdict, and returns its status. */
uint32_t tongsthyme_judge(const uint8_t *journal, size_t length, struct tongsthyme_verdict *verdict);

/* ---- The machine: what an implementation of the services has to answer */

/* How a call on a machine, or tongsthyme_line, went. */
enum tongsthyme_status {
    TONGSTHYME_DONE = 0,              /* the operation was made, what was looked for is there, or the line was written */
    TONGSTHYME_NOT_ADMITTED = 1,      /* no such caller or object, or the caller may not do this; nothing changed */
    TONGSTHYME_FULL = 2,              /* the object has had 524,287 events; nothing changed */
    TONGSTHYME_NO_SUCH_OPERATION = 3, /* a number of the operation, or of an answer passed in, has no meaning; nothing changed */
    TONGSTHYME_NO_MACHINE = 4,        /* the handle holds no machine */
    TONGSTHYME_ABSENT = 5,            /* what was looked for is not there */
    TONGSTHYME_NO_ROOM = 6,           /* the room is too small for the line; nothing was written */
    TONGSTHYME_NO_MEMORY = 7          /* memory ran out; nothing was written */
};

/* Kinds of objects. */
enum tongsthyme_kind {
    TONGSTHYME_ECB = 0,     /* an event control block */
    TONGSTHYME_ELEMENT = 1, /* a pause element */
    TONGSTHYME_VOLUME = 2,  /* a shared number of 32 bits */
    TONGSTHYME_LATCHES = 3  /* the latch set */
};

/* Operations on an event control block, with their field. */
enum tongsthyme_ecb_operation {
    TONGSTHYME_ECB_ARM = 0,    /* begins a wait: sets the wait bit if the word is zero */
    TONGSTHYME_ECB_EXTEND = 1, /* begins a wait, and keeps the exit that a post is to run; a: the exit, counted from 1 */
    TONGSTHYME_ECB_SETTLE = 2, /* ends a wait: clears the wait bit if the block is not complete */
    TONGSTHYME_ECB_CLEAR = 3,  /* sets the word to zero */
    TONGSTHYME_ECB_POST = 4,   /* completes the block; a: the completion code, below 2^30 */
    TONGSTHYME_ECB_TEST = 5    /* reads the word */
};

/* Operations on a pause element. */
enum tongsthyme_element_operation {
    TONGSTHYME_ELEMENT_OPEN = 0,    /* allocates the element */
    TONGSTHYME_ELEMENT_PAUSE = 1,   /* begins a pause, or takes the code that was kept for it; a: the generation of the token */
    TONGSTHYME_ELEMENT_RESUME = 2,  /* ends a pause that was released, and takes its code; a: the generation */
    TONGSTHYME_ELEMENT_RELEASE = 3, /* releases a pause, or keeps the code for it; a: the generation; b: the release code, below 2^24 */
    TONGSTHYME_ELEMENT_CLOSE = 4,   /* frees the element; a: the generation */
    TONGSTHYME_ELEMENT_TEST = 5     /* reads the state */
};

/* Operations on a volume. */
enum tongsthyme_volume_operation {
    TONGSTHYME_VOLUME_READ = 0, /* reads the number */
    TONGSTHYME_VOLUME_WRITE = 1 /* replaces the number; a: the new one */
};

/* Operations on the latch set. */
enum tongsthyme_latch_operation {
    /* Requests a latch. a: the latch; requestor; b: enum tongsthyme_mode; c: enum tongsthyme_form; d: the block of POSTED */
    TONGSTHYME_LATCH_OBTAIN = 0,
    /* Asks for the state of a request. a: the latch; b: the number of the request */
    TONGSTHYME_LATCH_CONFIRM = 1,
    /* Takes a request out. a: the latch; b: the number of the request; c: 1 if a request that waits is to stay, otherwise 0 */
    TONGSTHYME_LATCH_RELEASE = 2,
    /* Takes all requests of a requestor out of all latches. requestor */
    TONGSTHYME_LATCH_PURGE = 3
};

/* How a requestor holds a latch. */
enum tongsthyme_mode {
    TONGSTHYME_SHARED = 0,   /* beside other shared holders */
    TONGSTHYME_EXCLUSIVE = 1 /* with no other holder */
};

/* What becomes of a request that is not granted at once. */
enum tongsthyme_form {
    TONGSTHYME_CONDITIONAL = 0, /* it is dropped */
    TONGSTHYME_WAITING = 1,     /* it is queued, and its task is woken at the grant */
    TONGSTHYME_POSTED = 2       /* it is queued, and a block is posted at the grant */
};

/* An operation of a caller on an object. Fields that the operation does not use are ignored. */
struct tongsthyme_operation {
    uint32_t caller;    /* counted from 0 */
    uint32_t kind;      /* enum tongsthyme_kind */
    uint32_t object;    /* the number of the object, counted from 0; the latch set has none */
    uint32_t operation; /* of the enum of its kind */
    uint32_t a;
    uint32_t b;
    uint32_t c;
    uint32_t d;
    uint64_t requestor;
};

/* Replies of an event control block. */
enum tongsthyme_ecb_reply {
    TONGSTHYME_ECB_ARMED = 0,    /* the wait bit is set now */
    TONGSTHYME_ECB_LINKED = 1,   /* the block waits, and has an exit; a: the exit */
    TONGSTHYME_ECB_COMPLETE = 2, /* the block is complete; a: the completion code */
    TONGSTHYME_ECB_WAITING = 3,  /* the block waits already, and has no exit */
    TONGSTHYME_ECB_OPEN = 4,     /* the block is not complete and had no exit; its word is zero now */
    TONGSTHYME_ECB_POSTED = 5,   /* the post completed a block on which no task waited */
    TONGSTHYME_ECB_WOKE = 6,     /* the post ended a wait, and the task has to be woken; a: the block's exit, or 0 if it has none */
    TONGSTHYME_ECB_ALREADY = 7,  /* the block was complete before the post; a: the completion code that it keeps */
    TONGSTHYME_ECB_WORD = 8      /* a: the fullword before the operation: 2^31 is the wait bit, 2^30 the completion bit */
};

/* Replies of a pause element. */
enum tongsthyme_element_reply {
    TONGSTHYME_ELEMENT_OPENED = 0,  /* the element is allocated now; a: its generation */
    TONGSTHYME_ELEMENT_INUSE = 1,   /* the element is allocated already */
    TONGSTHYME_ELEMENT_PARKED = 2,  /* the pause began, and the task has to wait for its release */
    TONGSTHYME_ELEMENT_GIVEN = 3,   /* the pause is over; a: the release code; b: the generation of the next token */
    TONGSTHYME_ELEMENT_SPENT = 4,   /* another generation than the element's, or the element is free; a: the element's generation */
    TONGSTHYME_ELEMENT_BUSY = 5,    /* the element's phase does not allow the operation */
    TONGSTHYME_ELEMENT_NOTYET = 6,  /* the pause was not released yet */
    TONGSTHYME_ELEMENT_EARLY = 7,   /* released before its pause: the code is kept */
    TONGSTHYME_ELEMENT_WOKE = 8,    /* released, and the task that pauses has to be woken */
    TONGSTHYME_ELEMENT_ALREADY = 9, /* released before; the first code is kept */
    TONGSTHYME_ELEMENT_CLOSED = 10, /* the element is free now */
    TONGSTHYME_ELEMENT_STATE = 11   /* a: the generation; b: enum tongsthyme_phase; c: the release code that is kept, otherwise 0 */
};

/* Phases of a pause element. */
enum tongsthyme_phase {
    TONGSTHYME_FREE = 0,        /* not allocated */
    TONGSTHYME_RESET = 1,       /* allocated, and neither paused nor released */
    TONGSTHYME_PRERELEASED = 2, /* released before its pause, for which the code is kept */
    TONGSTHYME_PAUSED = 3,      /* a task pauses */
    TONGSTHYME_RELEASED = 4     /* the pause was released, and its task has not resumed yet */
};

/* Replies of a volume. */
enum tongsthyme_volume_reply {
    TONGSTHYME_VOLUME_VALUE = 0, /* a: the number */
    TONGSTHYME_VOLUME_STORED = 1 /* the number was written */
};

/* Replies of the latch set. */
enum tongsthyme_latch_reply {
    TONGSTHYME_LATCH_GRANTED = 0,  /* the request holds the latch; a: its number */
    TONGSTHYME_LATCH_QUEUED = 1,   /* the request was queued; a: its number */
    TONGSTHYME_LATCH_NOTNOW = 2,   /* nothing was queued; a: the number of the request that is in the way */
    TONGSTHYME_LATCH_WAITING = 3,  /* the request is in the list, and not granted */
    TONGSTHYME_LATCH_GONE = 4,     /* the latch has no such request of this caller */
    TONGSTHYME_LATCH_RELEASED = 5, /* the request was taken out; a: how many others this granted */
    TONGSTHYME_LATCH_PURGED = 6    /* a: how many requests were taken out; b: how many others this granted */
};

/* The place of an event, and its reply. Fields that the reply does not use are 0. */
struct tongsthyme_answer {
    uint32_t place; /* how many events the object had before this one */
    uint32_t reply; /* of the enum of the object's kind */
    uint32_t a;
    uint32_t b;
    uint32_t c;
};

/* One machine, or none. */
struct tongsthyme_machine {
    void *at;
};

/* Judges a journal, writes the verdict, and returns its status, as tongsthyme_judge. If it is LEGAL, the handle then holds the machine
   after the journal's entries, and a machine that it held is freed. A journal with `END 0` opens a new machine. Otherwise the handle
   keeps what it holds. */
uint32_t tongsthyme_machine_open(const uint8_t *journal, size_t length, struct tongsthyme_machine *machine,
                                 struct tongsthyme_verdict *verdict);

/* Makes an operation, and returns DONE, NOT_ADMITTED, FULL, NO_SUCH_OPERATION or NO_MACHINE. With DONE the answer is written, otherwise it
   is as it was. The call takes no memory, and never waits: a reply says that the caller has to. */
uint32_t tongsthyme_machine_step(struct tongsthyme_machine *machine, const struct tongsthyme_operation *operation,
                                 struct tongsthyme_answer *answer);

/* Shows an object and changes nothing: the answer is its place, and its state as the reply of a TEST or, for a volume, of a READ. Returns
   DONE, ABSENT or NO_MACHINE. For the latch set it returns ABSENT: tongsthyme_machine_request shows that. This call and the next two write
   what they found only with DONE. */
uint32_t tongsthyme_machine_object(struct tongsthyme_machine *machine, uint32_t kind, uint32_t number,
                                   struct tongsthyme_answer *answer);

/* What became of a request that waited. */
enum tongsthyme_wake_code {
    TONGSTHYME_WAKE_GRANTED = 0, /* it holds the latch now */
    TONGSTHYME_WAKE_PURGED = 1   /* it was taken out of the list */
};

/* What has to be done for a request that the last operation on the latch set granted, or purged while it waited. */
struct tongsthyme_wake {
    uint32_t caller;  /* the caller that made the request */
    uint32_t request; /* its number */
    uint32_t code;    /* enum tongsthyme_wake_code */
    uint32_t posts;   /* 1 if a block has to be posted with the code, 0 if the task has to be woken */
    uint32_t ecb;     /* the block */
};

/* Shows the wake of this index, in order from 0, among those of the last operation on the latch set. Returns DONE, ABSENT or NO_MACHINE. */
uint32_t tongsthyme_machine_wake(struct tongsthyme_machine *machine, uint32_t index, struct tongsthyme_wake *wake);

/* A request in the list of a latch. */
struct tongsthyme_request {
    uint64_t requestor;
    uint32_t request; /* its number */
    uint32_t caller;  /* the caller that made it */
    uint32_t mode;    /* enum tongsthyme_mode */
    uint32_t form;    /* enum tongsthyme_form */
    uint32_t ecb;     /* the block of POSTED */
};

/* Shows the request of this index, in order of arrival from 0, in the list of a latch. Returns DONE, ABSENT or NO_MACHINE. */
uint32_t tongsthyme_machine_request(struct tongsthyme_machine *machine, uint32_t latch, uint32_t index,
                                    struct tongsthyme_request *request);

/* Frees the machine, if there is one. The handle holds none then, and may be opened again. */
void tongsthyme_machine_close(struct tongsthyme_machine *machine);

/* ---- The line of an event in a journal */

/* Enough room for any line: the longest has 108 bytes. */
#define TONGSTHYME_LINE_ROOM 128

/* Writes the line of an event in a journal of version 1, with its LF and without a terminating zero, to the front of the `room` bytes at
   `text`, and its length to `length`. The operation and the answer are those of a step, or of an event of another implementation. Fields
   that the reply does not use are ignored. Returns DONE, NO_SUCH_OPERATION, NO_ROOM or NO_MEMORY, and writes only with DONE.

   A number beyond the range that docs/FORMATS.md gives it is written as it is: tongsthyme_judge then finds the line malformed. */
uint32_t tongsthyme_line(const struct tongsthyme_operation *operation, const struct tongsthyme_answer *answer, uint8_t *text, size_t room,
                         size_t *length);

#ifdef __cplusplus
}
#endif
#endif
