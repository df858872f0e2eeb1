//! The refusals by number. Their texts are those of [`crate::refusal_text`].

use super::{Example, Topic};

/// State 0, new of variable 1, state 1; forbidden there: variable 1 at #.
const JOB: &[u8] = &[2, 1, 2, 0, 1, 0, 6, 1, 0, 1, 1, 1, 0, 1, 0];

/// One member, the forbidden shape, and one cover.
const CERTIFICATE: &[u8] = &[2, 1, 1, 0, 1, 0, 0];

pub const REFUSALS: &[Topic] = &[
    Topic {
        names: &["1"],
        says: "There is nothing in the job, or too much. The certificate isn't looked at.",
        example: Example::Pair(&[], CERTIFICATE, "refused 1 at 0"),
    },
    Topic {
        names: &["2"],
        says: "There is nothing in the certificate, or too much. A release counts a routine without a \
certificate so.",
        example: Example::Pair(JOB, &[], "refused 2 at 0"),
    },
    Topic {
        names: &["3"],
        says: "The file ends, or the bytes at the place are no number: it is above 65,535, or written in \
more bytes than it needs. The place is the number's first byte. `vorruda show` prints what was read up to \
there, and `vorruda check` says which number it was to be.",
        example: Example::Pair(
            &[2, 1, 2, 0, 1, 0, 6, 1, 0, 1, 1, 1, 0, 1],
            CERTIFICATE,
            "refused 3 at 14",
        ),
    },
    Topic {
        names: &["4"],
        says: "The number at the place reads, but may not stand there: a version, kind, state, variable or \
place that there isn't, a count above its limit, or a fact that doesn't come behind the one before it. \
`vorruda check` says which number it is and what it has to be. Here the kind, at byte 6, is 14.",
        example: Example::Pair(
            &[2, 1, 2, 0, 1, 0, 14, 1, 0, 1, 1, 1, 0, 1, 0],
            CERTIFICATE,
            "refused 4 at 6",
        ),
    },
    Topic {
        names: &["5"],
        says: "The last forbidden shape is read, and the file goes on. Often the number of forbidden shapes \
is too low.",
        example: Example::Pair(
            &[2, 1, 2, 0, 1, 0, 6, 1, 0, 1, 1, 1, 0, 1, 0, 0],
            CERTIFICATE,
            "refused 5 at 15",
        ),
    },
    Topic {
        names: &["6"],
        says: "As 3, in the certificate. Where the place is the file's end, covers are missing: `vorruda \
owed` draws each shape that has to be covered, and `vorruda check` says which comes next.",
        example: Example::Pair(JOB, &[2, 1, 1, 0, 1, 0], "refused 6 at 6"),
    },
    Topic {
        names: &["7"],
        says: "As 4, in the certificate. In a cover, the member has to be below the number of members, and \
an image below the number of cells of the covered shape. Here a variable stands at cell 0 of a shape \
without cells.",
        example: Example::Pair(JOB, &[2, 1, 1, 0, 3, 0, 0], "refused 7 at 4"),
    },
    Topic {
        names: &["8"],
        says: "A run starts with no cells and all variables at *. No member at the start state may be \
satisfied by that heap, else the certificate would say that the start itself leads to what is forbidden. So \
such a member has a cell, or a variable at #. Here member 1, at state 0, asks nothing: the job sets the \
variable to null, and that is forbidden.",
        example: Example::Pair(
            &[2, 1, 2, 0, 1, 0, 3, 1, 0, 1, 1, 1, 0, 1, 0],
            &[2, 2, 1, 0, 1, 0, 0, 0, 0, 0, 0, 1],
            "refused 8 at 6",
        ),
    },
    Topic {
        names: &["9"],
        says: "The cover at the place was read, but its member doesn't embed in the shape that it is to \
cover, or is at another state. The verdict tells the first rule that is broken, 1 to 6, and the lowest cell \
or variable at which it is: `vorruda explain rule 3`. `vorruda check` draws the two shapes. Here the member \
has the variable at *, and the forbidden shape has it at #.",
        example: Example::Pair(JOB, &[2, 1, 1, 0, 2, 0, 0], "refused 9 at 6 rule 3 of 1"),
    },
    Topic {
        names: &["10"],
        says: "Every cover that is owed was read and holds, and the file goes on.",
        example: Example::Pair(JOB, &[2, 1, 1, 0, 1, 0, 0, 0], "refused 10 at 7"),
    },
    Topic {
        names: &["11"],
        says: "A file has no larger numbers. vorruda_write_numbers tells the index of the first one that is.",
        example: Example::Text("Writing 1, 65536 is refused, with index 1."),
    },
    Topic {
        names: &["12"],
        says: "The buffer that was lent for the result is too short. The length that is needed is told, and \
nothing was written: call again with that much room.",
        example: Example::Text("127, 128, 300, 65535 need 8 bytes; with 7 it is refused, and 8 is told."),
    },
    Topic {
        names: &["13"],
        says: "The heap that was lent to a step, or to the block list, isn't one: it has to have 137 bytes, \
with values 64 numbers; 1 to 8 variables (the block list takes at least 3); each variable and each link of a \
used cell at #, at * or at a used cell; zeros elsewhere.",
        example: Example::Text("Variable 1 stands at cell 40, and cell 40 is unused."),
    },
    Topic {
        names: &["14"],
        says: "vorruda_step takes kinds 1 to 7, vorruda_step_values 1 to 13. Operand 0 is null and may not \
stand everywhere; vorruda.h has the table.",
        example: Example::Text("Kind 3 with a = 0: null can't be set."),
    },
    Topic {
        names: &["15"],
        says: "The stepper's heap and the block list have 64 cells, and all are used. Jobs have no such \
limit: what is certified holds for heaps of any size.",
        example: Example::Text("new(a) on a heap of 64 used cells."),
    },
    Topic {
        names: &["16"],
        says: "Shapes were to be forbidden of a variable or at a state that the job doesn't have. Variables \
count from 1, states from 0.",
        example: Example::Text("A job of one variable, and variable 2 of it is to be no list."),
    },
    Topic {
        names: &["17"],
        says: "The line that is told is none of a listing. A line has single blanks as in `x := y.next`, no \
others, and byte 10 at its end; there is no `else`. Or an `end` has nothing to close, or one is missing, which \
is told at the line after the last. `vorruda try` tells all such lines at once with what would be right, and \
`vorruda fix` writes that down.",
        example: Example::Listing("x := null\nwhile x!=null\nend\n", 2),
    },
    Topic {
        names: &["18"],
        says: "Blocks lie too deep within each other. Write the inner ones one behind the other.",
        example: Example::Listing(
            "if any\nif any\nif any\nif any\nif any\nif any\nif any\nif any\nif any\nif any\nif any\nif any\n\
if any\nif any\nif any\nif any\nif any\n",
            17,
        ),
    },
    Topic {
        names: &["19"],
        says: "A listing has at most 8 names and 63 lines, since each line makes a state. Use a variable again \
that is free, or part the routine in two: `vorruda try FIRST --then SECOND`.",
        example: Example::Listing("a := b\nc := d\ne := f\ng := h\ni := a\n", 5),
    },
    Topic {
        names: &["20"],
        says: "Both files begin with their version, 1 or 2, and it has to be the same. Version 2 has facts on \
values; a certificate for a job without them has 0 facts in each shape.",
        example: Example::Pair(JOB, &[1, 1, 1, 0, 1, 0], "refused 20 at 0"),
    },
    #[cfg(feature = "carrying")]
    Topic {
        names: &["21"],
        says: "A file of version 2 goes down to version 1 only if it has nothing that version 1 lacks: kinds 8 \
to 13, which work on values, and facts. The place is that of the first such kind or number of facts, in the job \
first and then in the certificate.",
        example: Example::Text(
            "The job of `read(x)` has kind 13: `vorruda down` tells the place of that 13 in job.bin.",
        ),
    },
    Topic {
        names: &["23"],
        says: "A tally counts in 32 bits. The verdict wasn't taken in, and the tally is as it was.",
        example: Example::Text("4,294,967,295 covers were counted, and a certificate of one cover comes."),
    },
    Topic {
        names: &["24"],
        says: "The hand-over of a join is the state of the first job at which the second starts. States are \
numbered from 0.",
        example: Example::Text("vorruda join job1.bin cert1.bin job2.bin cert2.bin --at 64"),
    },
    Topic {
        names: &["25"],
        says: "Both jobs of a join work on the same heap, so variable k of one is variable k of the other. \
`vorruda try FIRST --then SECOND` numbers them alike.",
        example: Example::Text("The first job has x and t, the second x, t and y."),
    },
    Topic {
        names: &["26"],
        says: "At the hand-over the first program is at its end. A transition from there, even to the same \
state, would go on in it.",
        example: Example::Text("A listing's first state as the hand-over: its first line leaves it."),
    },
    Topic {
        names: &["27"],
        says: "The second relies on what it gets: its members at its start state are shapes that may not be \
handed over. The first has to forbid each of them at the hand-over, number for number. `vorruda join` draws \
those that it doesn't, and `vorruda try FIRST --then SECOND` puts them there.",
        example: Example::Text("The second follows x.next at once, so the first has to forbid x at # there."),
    },
    Topic {
        names: &["28"],
        says: "Blocks of the block list count from 1. An insert behind the n-th takes 0 for the front, a remove \
does not.",
        example: Example::Text("Removing block 4 of a list of 3."),
    },
    Topic {
        names: &["29"],
        says: "The block list walks from the head, variable 1, and has to come to #. The heap is as it was.",
        example: Example::Text("The head stands at *, as in a heap that was never set up."),
    },
    Topic {
        names: &["31"],
        says: "A job forbids 1 to 64 shapes. Forbid some lines in one routine and the others in a second one \
that is otherwise the same; both certificates together say all.",
        example: Example::Text("A job with 61 forbidden shapes, and `no list`, which has 4, is to come on top."),
    },
];
