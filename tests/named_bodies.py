"""Wrong bodies that have to be refused, whatever else the gate tries: for each, by what it would do, the edit that stands for it, or
the test that fails with it. So none is lost where edits are moved, emptied or aimed at something else.

An edit of a crate is in its must-fail/, which the prover has to refuse; one of tests/planted/ has to be told by tests. It replaces
the text that is told here, which stands once in that file, in that function, by another one. A test is told by its file and
by words that stand in it. The last line is "N passed, M failed"; the exit status is 0 where none failed.
"""

import pathlib
import re
import sys

import documents

ROOT = pathlib.Path(__file__).resolve().parent.parent
FUNCTION = re.compile(r"^ *(?:pub(?:\(crate\))? )?fn (\w+)", re.M)
PLANTED = "tests/planted"
# what a runtime under a lock would need in one of these is found by tests/documents.py
LOCKLESS = {"shared_words", "itm_runtime"}

# what the body does; the crate, or the folder, and the edit; its file and function, and the text that is replaced
EDITS = [
    # reads, validation and begins
    ("a read answers without confirming the clock",
     "norec_accesses", "answers_without_confirming", "reads.rt", "loaded", "Turn::Wait(Pending::Confirm(seen))"),
    ("a round compares the log and does not load the clock again",
     "norec_blocks", "round_without_second_clock_load", "rounds.rt", "next_row", "Turn::Wait(Pending::RoundEnd)"),
    ("a read after a read skips the write set",
     "norec_accesses", "skips_the_write_set_at_read_after_read", "reads.rt", "take_known", "match known_word(state, piece) {"),
    ("a read after a write skips the log",
     "norec_accesses", "skips_the_log_at_read_after_write", "reads.rt", "confirmed_word", "state.log.add(LogRow { word, value });"),
    ("a begin takes a snapshot that is remembered, in the engine",
     "norec_blocks", "begins_from_a_remembered_snapshot", "begins.rt", "begin", "Ok(Turn::Wait(Pending::Begin))"),
    ("a begin takes a snapshot that is remembered, on a thread",
     "itm_runtime", "begins_from_a_remembered_snapshot", "blocks.rt", "begin_block", "engine.begin_at_once(props, again, clock);"),
    ("a thread takes no step and answers from the commits that it has seen",
     "itm_runtime", "answers_from_commits_already_seen", "drive.rt", "any_step", "engine.resume_into(found, answer)"),
    # commits
    ("a part of a word is put into a value kept from before the exchange, in the engine",
     "norec_blocks", "merges_into_a_value_kept_from_before", "commits.rt", "back_loaded", "state.got = Some(seen);"),
    ("a part of a word is put into a value kept from before the exchange, on a thread",
     "itm_runtime", "merges_into_a_value_kept_from_before", "blocks.rt", "store_row", "let value = engine.part_over(row, found);"),
    ("a commit frees the clock before its last store",
     "norec_blocks", "frees_before_the_last_store", "commits.rt", "freed", "state.clock = state.snapshot + 2;"),
    ("a writer that stores what was there counts as a reader",
     "norec_blocks", "silent_stores_are_readonly", "commits.rt", "commit", "exchange(state, Taking::Commit)"),
    ("an irrevocable block without writes puts the clock back, in the engine",
     "norec_irrevocable", "without_writes_puts_the_clock_back", "steps.rt", "step_of", "Step::Store(0, state.snapshot + 2)"),
    ("an empty irrevocable block puts the clock back, on a thread",
     "itm_runtime", "empty_irrevocable_block_puts_the_clock_back", "slow_path.rt", "call_told",
     "let first = self.engine.call_into(call, answer)?;"),
    # blocks in blocks
    ("a cancel cuts the value log",
     "norec_blocks", "cancel_cuts_the_value_log", "aborts.rt", "abort", "state.frames.cancel(&mut state.arena);"),
    ("a block that goes back drops its new rows and leaves the old ones overwritten",
     "write_set", "renew_keeps_overwritten_values", "set.rt", "renew", "put_back(&mut self.rows, &mut self.saves, here.saves);"),
    ("a write in a block does not save the row that it overwrites",
     "write_set", "reserve_saves_nothing", "set.rt", "reserve", "reserve_row(&mut self.rows, &mut self.saves, self.inner.rows, word)"),
    ("of what was logged twice the newest value comes back",
     "undo_log", "newest_log_wins", "log.rt", "unwind", "arena.put(span.place, &bytes[start..]);"),
    ("a new try begins with a cleared arena",
     "norec_blocks", "retry_clears_the_arena", "begins.rt", "begin_seen", "state.snapshot = seen;"),
    # blocks that go back alone
    ("a block goes back and does not load the clock last",
     "norec_blocks", "restart_skips_the_last_clock_load", "rounds.rt", "row_seen", "Turn::Wait(Pending::RoundBack(row))"),
    ("a block that goes back cuts rows of the blocks around it",
     "norec_blocks", "restart_cuts_rows_of_the_outer_part", "restarts.rt", "restart", "state.log.cut(kept);"),
    ("a block that goes back keeps the replies that were dropped",
     "tx_runs", "dropped_calls_are_kept", "open_attempt.rt", "renew", "self.row.calls.cut(point.kept);"),
    ("a block that goes back puts back bytes of the arena that were not logged",
     "undo_log", "log_of_whole_words", "log.rt", "log", "let size = size as usize;"),
    # copies
    ("a move copies from the low end always",
     "norec_data", "memmove_always_from_the_low_end", "copies.rt", "direction", "Direction::Down"),
    # answers without cause
    ("each read ends in a conflict",
     "norec_accesses", "each_read_ends_in_conflict", "reads.rt", "confirmed", "if seen == state.snapshot {"),
    ("each exchange of the clock ends in a conflict",
     "norec_blocks", "each_exchange_ends_in_conflict", "commits.rt", "exchanged", "if seen == state.snapshot {"),
    ("the engine is always busy",
     "norec_blocks", "always_busy", "begins.rt", "begin_seen", "if seen % 2 == 0 {"),
    ("the engine never finds memory",
     "norec_blocks", "begin_always_finds_no_memory", "begins.rt", "begin", "reserve_room(&mut state.frames, props, room)?;"),
    # worlds, runs and shared words
    ("attempts that ended in conflict are not told",
     "norec_world", "attempts_hidden", "world.rt", "attempts", "ended: &self.ended,"),
    ("a run skips a block",
     "tx_runs", "skips_a_block", "player_run.rt", "take_in", "self.player.answer(&Reply::Done);"),
    ("a run gives up after tries that were never made",
     "tx_runs", "counts_tries_that_were_never_made", "player_run.rt", "retry", "self.nth += 1;"),
    ("each pass has cells of its own",
     "shared_words", "passes_on_private_cells", "words.rt", "new", "Ok(made)"),
    # the checker
    ("two writers at one position are legal",
     "history_checker", "second_writer_at_a_position_accepted", "tables.rt", "is_taken", "at >= slots.len() || slots[at].is_some()"),
    ("each history that can be read is legal",
     "history_checker", "all_legal", "whole.rt", "judge", "let attempts = history.attempts.as_slice();"),
    # what only tests can tell
    ("the host runs one worker after the other",
     PLANTED, "host_runs_one_worker_after_the_other", "workers.rt", "start_and_join", "let Started { handles, whole } = start_all("),
    ("the host never finds memory",
     PLANTED, "host_always_tells_no_memory", "threads.rt", "run_threads", "let Ok((before, room)) = memories(alloc, program) else {"),
    ("the host never finds a thread",
     PLANTED, "host_always_tells_no_thread", "threads.rt", "run_threads", "let Ok((before, room)) = memories(alloc, program) else {"),
    ("a script is always answered with status 4",
     PLANTED, "sched_always_answers_4", "by_schedule.rt", "sched", "match run(alloc, reader, writer) {"),
    ("a script is always answered with status 5",
     PLANTED, "sched_always_answers_5", "by_schedule.rt", "sched", "match run(alloc, reader, writer) {"),
]

# what the body does; a file, and words in it that show it
TESTS = [
    ("the runtime runs under a lock", "tests/documents.py", 'self.expect(named == THREADED, page, "locks, shared cells or threads in"'),
    ("the host runs one thread to its end before the next", "crates/thread_tests/src/tests/interleavings.rt", "fn a_commit_between_two_reads("),
    ("the host answers a thread from the memory of its begin", "crates/thread_tests/src/tests/interleavings.rt", "call _ITM_RU8 8 = 0700000000000000"),
    ("the host tells tries that no thread made", "crates/thread_tests/src/tests/interleavings.rt", "fn a_commit_before_each_try("),
    ("a script with ample memory finds none", "tests/rows.sh", 'check "$name" "$wanted"'),
    ("a run writes its history at its end", "crates/command_tests/src/tests/play.rt", "fn first_attempt_before_the_last_answer("),
    ("a command writes what it has of a text whose reading failed", "crates/command_tests/src/tests/reads.rt", "fn failing_reads("),
]


def changes(path):
    """The pairs of an edit, each with the file that it is in."""
    file = old = None
    for line in path.read_text().splitlines():
        word, _, text = line.partition(": ")
        if word == "file":
            file = text
        elif word == "old":
            old = text
        elif word in ("new", "new:"):
            yield file, old, text


def crate_of(folder, path):
    """The crate that an edit is of: a planted one says so."""
    return re.search(r"^crate: (\w+)$", path.read_text(), re.M)[1] if folder == PLANTED else folder


def wrong(folder, edit, file, function, text):
    """What is wrong with an edit, if anything is."""
    path = ROOT / (PLANTED if folder == PLANTED else f"crates/{folder}/must-fail") / f"{edit}.edit"
    if not path.is_file():
        return f"there is no {path.relative_to(ROOT)}"
    there = [old for name, old, new in changes(path) if name == f"src/{file}" and old.strip() == text != new.strip()]
    if not there:
        return f"{edit} does not change {text}"
    source = (ROOT / "crates" / crate_of(folder, path) / "src" / file).read_text()
    if source.count(there[0]) != 1:
        return f"{file} has {text} {source.count(there[0])} times"
    within = FUNCTION.findall(source[: source.index(there[0])])
    return None if within and within[-1] == function else f"{text} stands in {within[-1:]}"


def main():
    failed = len(LOCKLESS & documents.THREADED)
    if failed:
        print("failed: the runtime runs under a lock: tests/documents.py lets", *sorted(LOCKLESS & documents.THREADED))
    for body, *edit in EDITS:
        said = wrong(*edit)
        if said:
            failed += 1
            print(f"failed: {body}: {said}")
    for body, file, words in TESTS:
        path = ROOT / file
        if not path.is_file() or words not in path.read_text():
            failed += 1
            print(f"failed: {body}: {file} has no {words}")
    print(f"{len(EDITS) + len(TESTS) + len(LOCKLESS) - failed} passed, {failed} failed")
    return 1 if failed else 0


if __name__ == "__main__":
    sys.exit(main())
