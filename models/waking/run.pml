/* A run: `run_in` of crates/run_threads/src/pipeline.rt, with its four threads. The caller's thread
 * starts the three others, is the splitter, and joins the others.
 */

#ifndef EVENTS
#define EVENTS 2    /* how many events the trace has at most */
#endif
#ifndef RING
#define RING 1      /* the capacity of each ring */
#endif
#ifndef OUTBOX
#define OUTBOX 1    /* the room of each outbox */
#endif
#ifndef BATCH
#define BATCH RING  /* how many items a receiver takes at most */
#endif
#ifndef PARTS
#define PARTS 1     /* how many parts the answer to an event has at most */
#endif

/* TURN: the turn of each event. Otherwise each turn is tried. D_THEN_I: first D, then only I. */
#ifdef D_THEN_I
#define TURN ((place == 1) -> turn_d : turn_i)
#endif

/* FINE: each atomic action is a step of its own. Otherwise each call of an end is one step, and a
 * few calls that directly follow one another share one. */
#ifdef FINE
#define CALL(steps) steps
#else
#define CALL(steps) atomic { steps; skip }
#endif

/* The messages to a stage, from a stage, and to the merge. Each stream ends with `finish`. */
mtype = { event, part, done, turn_i, turn_d, turn_both, finish };
#define NONE 0

#define RINGS 5
#define ORDER 0
#define TO_I 1
#define TO_D 2
#define FROM_I 3
#define FROM_D 4

/* `Rings::new` of ends.rt: the splitter has one bell for its three ends. Each other end has a bell
 * of its own. */
#define BELLS 10
#ifdef THREE_BELLS
#define SENDER_BELL(ring) ring
#else
#define SENDER_BELL(ring) (ring < FROM_I -> 0 : ring)
#endif
#ifdef ONE_BELL_FOR_TWO
#define RECEIVER_BELL(ring) (5 + (ring == TO_D -> TO_I : ring))
#else
#define RECEIVER_BELL(ring) (5 + ring)
#endif

/* What a thread does next. */
#define READING 0
#define ASKING 1
#define RECEIVING 2
#define AWAITING_MESSAGE 3
#define PUBLISHING 4
#define AWAITING_ROOM 5

/* A stage that has ended is known by its ring to the merge. */
#define MERGE 0
bool has_ended[RINGS];
bool stopped;    /* a thread stopped before its end */
byte place;      /* how many events were posted */
byte merged;     /* how many of them the merge has served */

#include "bell.pml"
#include "ring.pml"
#include "sender.pml"
#include "receiver.pml"
#include "splitter.pml"
#include "stage.pml"

#include "merge.pml"

/* `start`, and `give_up` if a thread cannot be started: its own ends are dropped, and then the
 * other ends that no thread has. */
inline start_or_give_up()
{
    run stage(TO_I, FROM_I);
    if
    :: run stage(TO_D, FROM_D);
        if
        :: run merge()
#ifdef REFUSALS
        :: drop_merge_ends();
            has_ended[MERGE] = true;
            goto cut
#endif
        fi
#ifdef REFUSALS
    :: CALL(drop_receiver(TO_D));
        CALL(drop_sender(FROM_D));
        d_step { has_ended[FROM_D] = true; has_ended[MERGE] = true }
#ifndef JOINS_BEFORE_DROPS
        drop_merge_ends();
#endif
        goto cut
#endif
    fi
}

/* The drop of a `SplitterEnds`. */
inline drop_splitter_ends()
{
    at = ORDER;
    do
    :: CALL(drop_sender(at));
        at++;
        if
        :: at == FROM_I -> at = ORDER; break
        :: else
        fi
    od
}

init
{
    byte count, turn, at, mode = READING;
    bool moved, any, all, early;

    start_or_give_up();
    at = TO_I;
    split();

cut:
    /* `finish`, if the splitter gave up: the trace has a fault, or an end is gone. */
    skip;
    d_step { moved = false; any = false; all = false; early = false; turn = NONE }
#ifndef JOINS_BEFORE_DROPS
    drop_splitter_ends();
#endif

join:
    has_ended[FROM_I];
    has_ended[FROM_D];
    has_ended[MERGE]
}
