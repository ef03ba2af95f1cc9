/* Sending ends: `Tx` of crates/pipe_rings/src/tx.rt. */

local byte outbox_length[RINGS];  /* counts what is in the ring too, until the outbox is empty */
local bool unannounced[RINGS];    /* items were moved into the ring since the receiver was woken */

#define HAS_POSTED(ring) (outbox[ring] != 0)             /* `Tx::posted`, more than 0 */
#define HAS_ROOM(ring) (outbox_length[ring] < OUTBOX)    /* `Tx::has_room` */

/* `Tx::post`. */
inline post(ring, posted)
{
    append(outbox[ring], posted);
    outbox_length[ring]++
}

/* `Tx::move_posted`, and `Tx::found` if anything moved. Sets `moved`. */
inline move_posted(ring)
{
#ifdef MARK_READ_FIRST
    early = asleep[RECEIVER_BELL(ring)];
#endif
    push_all_that_fit(ring);
    d_step {
        unannounced[ring] = unannounced[ring] || moved;
        outbox_length[ring] = (HAS_POSTED(ring) -> outbox_length[ring] : 0)
    }
}

/* `Tx::announce`. */
inline announce(ring)
{
    if
    :: unannounced[ring] ->
        unannounced[ring] = false;
#ifdef MARK_READ_FIRST
        if
        :: early -> early = false; ring_bell(RECEIVER_BELL(ring))
        :: else
        fi
#else
        ring_bell(RECEIVER_BELL(ring))
#endif
    :: else
    fi
}

/* `Tx::offer`. It announces if items are left in the outbox. It also does so if many were offered
 * since the last time; here that is never so, which is the harder case. */
inline offer(ring)
{
    move_posted(ring);
    if
    :: HAS_POSTED(ring) -> announce(ring)
    :: else
    fi
}

/* `Tx::publish`. Sets `moved`. */
inline publish(ring)
{
#ifdef PUBLISH_IS_OFFER
    offer(ring)
#else
    move_posted(ring);
    announce(ring)
#endif
}

/* `Tx::pause`, at the time when it sleeps. */
inline pause_sender(ring)
{
    announce(ring);
    sleep_at(SENDER_BELL(ring))
}

/* The drop of a `Tx`. */
inline drop_sender(ring)
{
    abandoned[ring] = true;
#ifndef NO_RING_AT_DROP
    ring_bell(RECEIVER_BELL(ring))
#endif
}
