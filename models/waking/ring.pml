/* Rings: the parts of rtrb that crates/pipe_rings uses. Each end loads the count of the other end,
 * and then stores its own. (rtrb loads only if what it knows from earlier is too little.)
 *
 * A queue of messages is a number in base 8, with its first message in the lowest digit.
 */

#define LENGTH(queue) ((queue == 0) -> 0 : ((queue < 8) -> 1 : ((queue < 64) -> 2 : 3)))
#define FIRST(queue) (queue & 7)

/* Appends a message to a queue of 3 messages at most. */
inline append(queue, added)
{
    queue = queue | (added << (3 * LENGTH(queue)))
}

short in_ring[RINGS];        /* the queue in the ring */
bool abandoned[RINGS];       /* one of the two ends was dropped */
local short outbox[RINGS];   /* what was posted and is not in the ring yet */
local short batch[RINGS];    /* what came out of the ring and is not received yet */

/* `push_partial_slice`: moves as many items of the outbox as the ring has free places. The last
 * step is the store that hands them all over. Sets `moved`: whether there were any. */
inline push_all_that_fit(ring)
{
    count = RING - LENGTH(in_ring[ring]);
    d_step {
        moved = (count > 0 && outbox[ring] != 0);
        do
        :: count > 0 && outbox[ring] != 0 ->
            append(in_ring[ring], FIRST(outbox[ring]));
            outbox[ring] = outbox[ring] >> 3;
            count--
        :: else -> break
        od;
        count = 0
    }
}

/* `pop` and `pop_partial_slice`: moves items of the ring to the batch, which is empty, but `most`
 * at most. The last step is the store that frees all their places. Sets `moved`, too. */
inline pop_at_most(ring, most)
{
    count = LENGTH(in_ring[ring]);
    d_step {
        count = ((count < most) -> count : most);
        moved = (count > 0);
        do
        :: count > 0 ->
            append(batch[ring], FIRST(in_ring[ring]));
            in_ring[ring] = in_ring[ring] >> 3;
            count--
        :: else -> break
        od
    }
}
