#!/usr/bin/env python3
"""Lists what the gate refuses: the guards of the crates .._guards, by the tables of their READMEs, and the edits in crates/*/must-fail
in the order of crates.txt, by name in plain words, for each what it would do, by a line of this script.

    tests/wrong-bodies.py          writes tests/WRONG-BODIES.md, which is not kept
    tests/wrong-bodies.py --check  ends with 1, and says which, where an edit has no line here or a line no edit
"""

import pathlib
import sys

TOP = pathlib.Path(__file__).resolve().parent.parent
PAGE = TOP / "tests" / "WRONG-BODIES.md"

# What the changed code would do.
WOULD = {
    "a_failed_read_told_as_an_empty_file": "a desk would begin anew over a store that it couldn't read",
    "a_failed_write_told_as_done": "an order would be answered as kept that isn't in the store",
    "a_folder_that_is_not_synced": "a new store could be gone after a loss of power",
    "a_lock_that_is_not_taken": "two desks could write one store",
    "a_car_that_the_other_book_has_is_lost": "a car would be told as lost that the next book allows",
    "judged_by_a_released_book": "what kept orders come to by a draft would be told of a book that is already released",
    "a_start_from_another_store": "a desk would take up the rows of another store than the one that the words name",
    "a_time_out_told_as_the_end": "a message that was cut off would be taken for all that its caller sent",
    "a_late_message_told_as_ended": "a message that took too long would be taken for all that its caller sent",
    "a_port_that_failed_and_no_fault_of_the_door": "a desk with a broken port would end as if nothing had failed",
    "a_port_that_keeps_its_last_link": "a connection would be taken and never served",
    "links_that_come_back_in_another_order": "who served which connection could no longer be told",
    "a_failed_accept_told_as_the_end": "a worker would stop at the first connection that fails, as if no more came",
    "a_file_of_just_the_limit_is_too_long": "a file that may just be read would be refused as too long",
    "a_short_write_whose_rest_is_dropped": "where a write takes a part of the bytes, the others would be lost without a word",
    "the_end_after_a_fault_of_reading": "a failed read would be taken for the end of the input, and half a book for a whole one",
    "a_write_dropped_from_the_history": "what a thread did at the machine would be missing from the history",
    "an_answer_invented": "a thread would be told an answer that the machine never gave",
    "the_opening_state_always_shown": "a thread would see the machine as it was at first, and not what others did since",
    "a_read_fault_of_a_desk_told_as_done": "a desk whose connection broke would end as if all were answered",
    "a_service_that_takes_no_link": "a service would end without having taken a connection, and tell what its store had at the start",
    "every_service_told_as_a_door_fault": "a service that has served all its connections would end as if its port had failed",
    "a_cut_response_told_as_written": "a session would go on behind a response that its caller never got",
}

HEAD = """# Wrong bodies that have to be refused

A contract that is too weak would let wrong code pass. Two things tell that it is: a guard is a function that calls another and ensures that a run can't do a harm, proved from the contract of the callee alone, or a lemma that evaluates a definition at a small value; it excludes all bodies that do this harm. Where no contract above says the harm, the gate changes the code in the way that would do it, and the prover has to refuse the change: a wrong body is an edit in the folder `must-fail` of a crate; `rt must-fail NAME` tries those of one crate. `tests/wrong-bodies.py` makes this list from them.
"""


def crate_names():
    """The crates in the order of crates.txt, lowest first."""
    lines = (TOP / "crates.txt").read_text().splitlines()
    return [line.split()[0].rstrip(":") for line in lines if line[:1].isalpha()]


def rows(crate):
    """The rows of the page for one crate, one for each wrong body."""
    edits = sorted((TOP / "crates" / crate / "must-fail").glob("*.edit"))
    return [f"| `{crate}` | {linked(crate, edit)} | {WOULD.get(edit.stem, '')} |" for edit in edits]


def linked(crate, edit):
    """The name of a wrong body in plain words, with a link to it."""
    return f"[{edit.stem.replace('_', ' ')}](../crates/{crate}/must-fail/{edit.name})"


def guards(crate):
    """The table of the guards of one crate, as its README has it."""
    lines = (TOP / "crates" / crate / "README.md").read_text().splitlines()
    return [f"## `{crate}`", "", *(line for line in lines if not line or line.startswith("|")), ""]


def page():
    """The whole text."""
    parts = [found for found in map(rows, crate_names()) if found]
    sums = f"There are {sum(map(len, parts))} wrong bodies in {len(parts)} crates.\n"
    table = ["| Crate | Wrong body | What it would do |", "|---|---|---|"]
    held = [line for crate in crate_names() if crate.endswith("_guards") for line in guards(crate)]
    return "\n".join([HEAD, sums, *table, *(row for part in parts for row in part), "", *held]) + "\n"


def check():
    """Ends with 1 where an edit has no line above, or a line no edit."""
    edits = {edit.stem for edit in TOP.glob("crates/*/must-fail/*.edit")}
    faults = [f"the wrong body {name} has no line" for name in sorted(edits - set(WOULD))]
    faults += [f"the line {name} has no wrong body" for name in sorted(set(WOULD) - edits)]
    for fault in faults:
        print(f"tests/wrong-bodies.py: {fault}")
    sys.exit(1 if faults else 0)


if sys.argv[1:] == ["--check"]:
    check()
elif sys.argv[1:]:
    sys.exit(__doc__)
else:
    PAGE.write_text(page())
