/* The merge: `merge_all` of crates/run_threads/src/merge_thread.rt, `await_item` of waits.rt, and
 * the rule of crates/stage_core/src/merge.rt. */

/* `Merge::turn`, `Merge::take` and `Merge::wants`: from which ring the next message has to come.
 * Memory can run out. */
inline take_message()
{
#ifdef REFUSALS
    if
    :: goto cut
    :: true
    fi;
#endif
    if
    :: wanted == ORDER ->
        turn = message;
        wanted = ((turn == turn_d) -> FROM_D : FROM_I)
    :: wanted != ORDER && message == part
    :: wanted == FROM_I && message != part && turn != turn_i ->
        wanted = FROM_D
    :: else ->
        if
        :: turn == finish -> message = NONE; goto ended
        :: else
        fi;
        wanted = ORDER;
        turn = NONE;
        merged++
    fi;
    message = NONE;
    mode = RECEIVING
}

/* `next_turn` and `next_from`. */
inline receive_wanted()
{
    try_receive(wanted);
    if
    :: message != NONE -> take_message()
    :: else -> mode = AWAITING_MESSAGE
    fi
}

/* `await_item`, up to its next look at the ring. */
inline await_item()
{
    if
    :: abandoned[wanted] ->
        try_receive(wanted);
        if
        :: message == NONE -> goto cut
        :: else -> take_message()
        fi
    :: else ->
        pause_receiver(wanted);
        mode = RECEIVING
    fi
}

/* The drop of a `MergeEnds`. */
inline drop_merge_ends()
{
    at = ORDER;
    do
    :: CALL(drop_receiver(at));
        at = (at == ORDER -> FROM_I : at + 1);
        if
        :: at == RINGS -> at = ORDER; break
        :: else
        fi
    od
}

/* The thread of the merge. */
proctype merge()
{
    byte message, turn, count, at, wanted = ORDER, mode = RECEIVING;
    bool moved;

    do
    :: CALL(mode == RECEIVING -> receive_wanted())
    :: CALL(mode == AWAITING_MESSAGE -> await_item())
    od;

cut:
    skip;
    d_step { message = NONE; turn = NONE; wanted = ORDER; mode = RECEIVING; stopped = true }
    drop_merge_ends();

ended:
    has_ended[MERGE] = true
}
