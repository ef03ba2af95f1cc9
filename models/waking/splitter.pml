/* The splitter: `split` of crates/run_threads/src/split.rt, `SplitterEnds` of ends.rt, and
 * `await_rooms` of waits.rt. */

/* `SplitterEnds::have_room`. */
#define HAVE_ROOM (HAS_ROOM(ORDER) && HAS_ROOM(TO_I) && HAS_ROOM(TO_D))

/* `SplitterEnds::are_published`. */
#define ARE_PUBLISHED (!HAS_POSTED(ORDER) && !HAS_POSTED(TO_I) && !HAS_POSTED(TO_D))

/* `SplitterEnds::are_cut`. If so, the splitter gives up. */
inline leave_if_cut()
{
    if
    :: abandoned[ORDER] || abandoned[TO_I] || abandoned[TO_D] -> goto cut
    :: else
    fi
}

/* `SplitterEnds::publish`: the stages come first. Sets `any`: whether a message was moved. */
inline publish_each()
{
    at = TO_I;
    do
    :: publish(at);
        any = any || moved;
        at = (at + 1) % 3;
        if
        :: at == TO_I -> break
        :: else
        fi
    od;
    moved = false
}

/* `SplitterEnds::offer`. */
inline offer_each()
{
    at = TO_I;
    do
    :: offer(at);
        at = (at + 1) % 3;
        if
        :: at == TO_I -> break
        :: else
        fi
    od;
    moved = false
}

/* The pause of `await_rooms`. The three ends share one bell, so it sleeps at one that holds
 * anything; with the fault THREE_BELLS, at any of these. */
inline pause_at_one()
{
#ifdef THREE_BELLS
    if
    :: HAS_POSTED(TO_I) -> at = TO_I
    :: HAS_POSTED(TO_D) -> at = TO_D
    :: HAS_POSTED(ORDER) -> at = ORDER
    fi;
#else
    at = (HAS_POSTED(ORDER) -> ORDER : (HAS_POSTED(TO_I) -> TO_I : TO_D));
#endif
    pause_sender(at);
    at = TO_I
}

/* `SplitterEnds::post`. */
inline post_routed()
{
    post(ORDER, turn);
    if
    :: turn != turn_d -> post(TO_I, ((turn == finish) -> finish : event))
    :: else
    fi;
    if
    :: turn != turn_i -> post(TO_D, ((turn == finish) -> finish : event))
    :: else
    fi
}

/* `Source::next`: another record, the end of the trace, or a fault in it. */
inline take_record()
{
    if
    :: place < EVENTS ->
        place++;
#ifdef TURN
        turn = TURN
#else
        if
        :: turn = turn_i
        :: turn = turn_d
        :: turn = turn_both
        fi
#endif
    :: turn = finish
#ifdef REFUSALS
    :: goto cut
#endif
    fi
}

/* `send_routed`, and `send_end` after the last record: posts the messages if there is room. */
inline send_routed()
{
    if
    :: !HAVE_ROOM -> mode = PUBLISHING
    :: else ->
        post_routed();
#ifdef OFFERS
        offer_each();
#endif
        if
        :: turn == finish ->
#ifdef SPLITTER_ENDS_UNPUBLISHED
            goto join;
#endif
            all = true;
            mode = PUBLISHING
        :: else ->
            turn = NONE;
            mode = READING
        fi
    fi
}

/* `next_record`: the record is at hand, or the reader has to be asked. Before that, all has to be
 * published. */
inline next_record()
{
    if
    :: take_record();
        send_routed()
    ::
#ifdef ASKS_UNPUBLISHED
        mode = ASKING
#else
        all = true;
        mode = PUBLISHING
#endif
    fi
}

/* What follows in `publish` of split.rt, once it has published what fits. */
inline go_on_with_what_was_read()
{
    if
    :: all && ARE_PUBLISHED && turn == finish -> any = false; goto join
    :: all && ARE_PUBLISHED && turn == NONE -> all = false; mode = ASKING
    :: !all && HAVE_ROOM -> send_routed()
    :: else -> mode = (any -> PUBLISHING : AWAITING_ROOM)
    fi;
    any = false
}

/* The loop of `split`. `all` says that all has to be published, and not only to make room. A reader
 * that is asked is slow: it answers once the merge has served each event before, or a thread has
 * stopped. The loops of `publish` and `await_rooms` are one here: each publishes, and pauses if
 * nothing moved.
 */
inline split()
{
    do
    :: atomic { mode == READING -> next_record() }
    :: CALL(mode == PUBLISHING -> leave_if_cut(); publish_each(); go_on_with_what_was_read())
    :: CALL(mode == AWAITING_ROOM -> pause_at_one(); mode = PUBLISHING)
    :: CALL(mode == ASKING && (merged == place || stopped) -> take_record(); send_routed())
    od
}
