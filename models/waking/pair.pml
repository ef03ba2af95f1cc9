/* The two ends of one ring, each in a thread of its own. Every atomic action is one step.
 *
 * The sender posts messages and offers or publishes them, and ends by the drop of its end. The
 * receiver receives until the sender is gone, or drops its end before. Between two messages the
 * sender may wait until all before were received, as a thread does that waits for a slow reader.
 */

#ifndef MESSAGES
#define MESSAGES 3    /* how many messages are sent at most */
#endif
#ifndef RING
#define RING 1        /* the capacity of the ring */
#endif
#ifndef OUTBOX
#define OUTBOX 1      /* the room of the outbox */
#endif
#ifndef BATCH
#define BATCH RING    /* how many items the receiver takes at most */
#endif

mtype = { event };
#define NONE 0

#define RINGS 1
#define ONLY 0
#define BELLS 2
#define SENDER_BELL(ring) 0
#ifdef ONE_BELL_FOR_TWO
#define RECEIVER_BELL(ring) 0
#else
#define RECEIVER_BELL(ring) 1
#endif

bool receiver_stopped;
byte received;    /* how many messages were received */

#include "bell.pml"
#include "ring.pml"
#include "sender.pml"
#include "receiver.pml"

/* `publish` and `await_room` of crates/run_threads, until all is published or there is room. */
inline publish_posted(room_will_do)
{
    do
    :: abandoned[ONLY] -> goto cut
    :: !abandoned[ONLY] ->
        publish(ONLY);
        if
        :: !HAS_POSTED(ONLY) || (room_will_do && HAS_ROOM(ONLY)) -> break
        :: else
        fi;
        if
        :: !moved -> pause_sender(ONLY)
        :: else
        fi;
        moved = false
    od;
    moved = false
}

active proctype sender()
{
    byte count, sent;
    bool moved, early;

    do
    :: sent < MESSAGES ->
        if
        :: !HAS_ROOM(ONLY) -> publish_posted(true)
        :: else
        fi;
        atomic { post(ONLY, event); sent++ };
        if
        :: offer(ONLY); moved = false
        :: true
        fi
    :: publish_posted(false);
        (received == sent || receiver_stopped)
    :: break
    od;
#ifndef ENDS_UNPUBLISHED
    publish_posted(false);
#endif

cut:
    drop_sender(ONLY)
}

/* `Rx::recv` and `Rx::wait_and_recv`, up to the drop of the sender. */
active proctype receiver()
{
    byte message, count;
    bool moved;

    do
    :: try_receive(ONLY);
        if
        :: message == NONE ->
            if
            :: abandoned[ONLY] ->
                try_receive(ONLY);
                if
                :: message == NONE -> break
                :: else
                fi
            :: !abandoned[ONLY] -> pause_receiver(ONLY)
            fi
        :: else
        fi;
        if
        :: message != NONE -> atomic { message = NONE; received++ }
        :: else
        fi
    :: receiver_stopped = true; break
    od;
    drop_receiver(ONLY)
}
