/* Receiving ends: `Rx` of crates/pipe_rings/src/rx.rt. */

local bool begun[RINGS];    /* an item was received: the batch has its full size */

/* `Rx::look`: the first time it takes one item out of the ring, and later a whole batch. If it took
 * anything, `Rx::found` rings the sender. */
inline look_in(ring)
{
    pop_at_most(ring, (begun[ring] -> BATCH : 1));
    if
    :: moved ->
        begun[ring] = true;
        moved = false;
#ifndef NO_RING_AFTER_POP
        ring_bell(SENDER_BELL(ring))
#endif
    :: else
    fi
}

/* `Rx::try_recv`: sets `message`, to NONE if there is none in the batch or the ring. */
inline try_receive(ring)
{
    if
    :: batch[ring] == 0 -> look_in(ring)
    :: else
    fi;
    d_step {
        message = FIRST(batch[ring]);
        batch[ring] = batch[ring] >> 3
    }
}

/* `Rx::pause`, at the time when it sleeps. */
inline pause_receiver(ring)
{
    sleep_at(RECEIVER_BELL(ring))
}

/* The drop of an `Rx`. */
inline drop_receiver(ring)
{
    abandoned[ring] = true;
#ifndef NO_RING_AT_DROP
    ring_bell(SENDER_BELL(ring))
#endif
}
