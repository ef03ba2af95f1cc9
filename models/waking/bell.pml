/* Bells: `Bell` of crates/pipe_rings/src/bell.rt.
 *
 * A bell is a word that says whether its thread is awake or asleep. A thread parks as on a futex:
 * the kernel compares the word and puts the thread to sleep in one step, and a wake ends the sleep
 * of one thread that sleeps there at that time.
 */

bool asleep[BELLS];    /* the word: ASLEEP or AWAKE */
byte parked[BELLS];    /* how many threads sleep at the bell */
byte woken[BELLS];     /* how many of them were woken, and have not gone on yet */

/* `wake_one` of the word. */
inline wake_one(bell)
{
    d_step {
        if
        :: parked[bell] > 0 ->
            parked[bell]--;
            woken[bell]++
        :: else
        fi
    }
}

/* `Bell::ring` and `Bell::wake`: loads the word; if it says ASLEEP, stores AWAKE and wakes one. */
inline ring_bell(bell)
{
    if
    :: asleep[bell] ->
        asleep[bell] = false;
        wake_one(bell)
    :: else
    fi
}

/* `park` of the word: sleeps until woken, if the word still says ASLEEP. */
inline park(bell)
{
    if
    :: d_step { asleep[bell] -> parked[bell]++ };
        d_step { woken[bell] > 0 -> woken[bell]-- }
    :: !asleep[bell]
    fi
}

/* `Bell::sleep` without a limit. The first call marks the thread as asleep and answers NotYet; the
 * caller then looks once more, and calls again. */
inline sleep_at(bell)
{
    if
    :: asleep[bell] -> park(bell)
    :: else ->
        asleep[bell] = true
#ifdef NO_LAST_LOOK
        ; park(bell)
#endif
    fi
}
