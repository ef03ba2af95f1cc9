/* The stages: `run_stage` of crates/run_threads/src/stage_thread.rt, and `await_room` and
 * `await_message` of waits.rt. */

/* `Tx::is_cut` of the end to the merge. If so, the stage stops. */
inline stop_if_cut()
{
    if
    :: abandoned[to_merge] -> goto cut
    :: else
    fi
}

/* `L1Stage::on`: the answer to a message. Each event has up to PARTS parts. Memory can run out. */
inline answer_message()
{
#ifdef REFUSALS
    if
    :: goto cut
    :: true
    fi;
#endif
    if
    :: message == finish ->
        finished = true;
        answers = finish
    :: else ->
        do
        :: LENGTH(answers) < PARTS -> append(answers, part)
        :: break
        od;
        append(answers, done)
    fi;
    message = NONE;
    quiet = false;
    send_outbox()
}

/* `send_outbox`: posts answers while there is room. */
inline send_outbox()
{
    do
    :: answers != 0 && HAS_ROOM(to_merge) ->
        post(to_merge, FIRST(answers));
        answers = answers >> 3
#ifdef OFFERS
        ; offer(to_merge); moved = false
#endif
    :: else -> break
    od;
    all = (finished && answers == 0);
#ifdef STAGE_ENDS_UNPUBLISHED
    if
    :: all -> all = false; goto ended
    :: else
    fi;
#endif
    mode = ((all || !HAS_ROOM(to_merge)) -> PUBLISHING : RECEIVING)
}

/* What follows in `publish` of stage_thread.rt, once it has published what fits. */
inline go_on_with_answers()
{
    if
    :: all && !HAS_POSTED(to_merge) && finished -> moved = false; goto ended
    :: all && !HAS_POSTED(to_merge) && !finished ->
        all = false;
        quiet = true;
        mode = RECEIVING
    :: !all && HAS_ROOM(to_merge) -> send_outbox()
    :: else -> mode = (moved -> PUBLISHING : AWAITING_ROOM)
    fi;
    moved = false
}

/* `receive` and `publish_and_receive`: before it waits for a message, all has to be published. */
inline receive_message()
{
    try_receive(from_splitter);
    if
    :: message != NONE -> answer_message()
#ifdef WAITS_UNPUBLISHED
    :: message == NONE -> mode = AWAITING_MESSAGE
#else
    :: message == NONE && quiet -> mode = AWAITING_MESSAGE
    :: message == NONE && !quiet -> all = true; mode = PUBLISHING
#endif
    fi
}

/* `await_message`, up to its next look at the ring. */
inline await_message()
{
    stop_if_cut();
    if
    :: abandoned[from_splitter] ->
        try_receive(from_splitter);
        if
        :: message == NONE -> goto cut
        :: else -> answer_message()
        fi
    :: else ->
        pause_receiver(from_splitter);
        mode = RECEIVING
    fi
}

/* The thread of a stage: `serve_all`. `all` says that all has to be published, and not only to make
 * room; `quiet`, that it was published since the last message. The loops of `publish` and
 * `await_room` are one here: each publishes, and pauses if nothing moved.
 */
proctype stage(byte from_splitter, to_merge)
{
    byte message, count, mode = RECEIVING;
    short answers;
    bool moved, early, all, quiet, finished;

    do
    :: CALL(mode == RECEIVING -> receive_message())
    :: CALL(mode == AWAITING_MESSAGE -> await_message())
    :: CALL(mode == PUBLISHING -> stop_if_cut(); publish(to_merge); go_on_with_answers())
    :: CALL(mode == AWAITING_ROOM -> pause_sender(to_merge); mode = PUBLISHING)
    od;

cut:
    skip;
    d_step {
        message = NONE;
        answers = 0;
        moved = false;
        early = false;
        all = false;
        stopped = true
    }
    CALL(drop_receiver(from_splitter));
    CALL(drop_sender(to_merge));

ended:
    has_ended[to_merge] = true
}
