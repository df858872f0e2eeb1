//! The words that are printed, and signs.

use super::{Example, Topic};

pub const WORDS: [Topic; 22] = [
    Topic {
        names: &["#", "null"],
        says: "The end of a list. A variable or a link stands at a cell, at # or at *.",
        example: Example::Text("  [1 x] -> [2] -> #  -- a list of two cells from x on"),
    },
    Topic {
        names: &["*", "dangling"],
        says: "No cell at all: a variable that was never set, the link of a new cell, or what led to a cell that was \
deleted. A run stops at a line that copies, tests or follows it.",
        example: Example::Text("  [1 x] -> *  -- x's block was never linked, or its next one is deleted"),
    },
    Topic {
        names: &["cell", "block"],
        says: "What a struct with a link `next` is in C. It has one link, and may have a value. Drawings of runs \
number cells from 1 as they are made; a number in a file or in a refusal counts from 0.",
        example: Example::Text("  [3 x t]  -- cell 3, where x and t stand"),
    },
    Topic {
        names: &["->"],
        says: "In a heap, one link. In a shape, a link or a path of several, through cells that the shape doesn't \
name.",
        example: Example::Text("  [1 x] -> [2] -> back to [1 x]  -- a ring"),
    },
    Topic {
        names: &["listing"],
        says: "A routine as a desk writes it, line by line: operations on variables of one letter and links, `while`, \
`if`, `end` and `mark`. A blank line and `forbidden` follow it, and what must not be there. ROUTINES.md, which is \
installed in share/doc/vorruda, goes from C to a listing; `vorruda new NAME` writes one to start from.",
        example: Example::Text("  while x != null\n  x := x.next\n  end\n  mark 0"),
    },
    Topic {
        names: &["mark"],
        says: "A line of a listing at which something is forbidden, with a number from 0 to 63. A run goes on behind \
it.",
        example: Example::Text("  mark 0\n\n  forbidden\n  mark 0  no list: x"),
    },
    Topic {
        names: &["any"],
        says: "A condition that may hold and may fail, for what depends on data. What is certified holds for both.",
        example: Example::Text("  while any  -- as often as the routine likes"),
    },
    Topic {
        names: &["forbidden", "bads"],
        says: "What no run may come to: shapes at states. A verdict tells how many there are as `bads`.",
        example: Example::Text("  mark 0  x at a, a -> b, y at b  -- y behind x, somewhere"),
    },
    Topic {
        names: &["job"],
        says: "A routine in bytes: variables, states, transitions between them, and shapes that are forbidden at \
states. FORMAT.md, in share/doc/vorruda, has it byte by byte; `vorruda show` prints one.",
        example: Example::Text("vorruda translate my.listing -o job.bin"),
    },
    Topic {
        names: &["transition"],
        says: "A step of a job: from a state by an operation to a state. It is taken where the operation can be \
carried out. Routines that aren't made of blocks, or that work on values, are written as transitions, in a file \
that ends in .routine.",
        example: Example::Text("  loop  x := x.next -> loop.1"),
    },
    Topic {
        names: &["run"],
        says: "What a routine does from the start, with no cells and all variables at *: step by step, each heap made \
of the one before. A line that can't be carried out ends it.",
        example: Example::Text("vorruda run my.listing --to 0"),
    },
    Topic {
        names: &["shape"],
        says: "Part of a heap: some cells, where their links and the variables stand, and facts on values. It says \
nothing of the rest. A heap satisfies it where the shape's cells can be found in the heap, and its links are \
paths there that share no cell.",
        example: Example::Text("  [1 x] -> back to [1 x]  -- x on a ring of any length"),
    },
    Topic {
        names: &["fact"],
        says: "What a shape says of values: one cell's is below another's, or equal; equal to itself says that there \
is one.",
        example: Example::Text("  [1 x] -> [2]\n  2 < 1  -- behind x, somewhere, a smaller value"),
    },
    Topic {
        names: &["certificate"],
        says: "Members, and a cover for all that is owed. Whoever made it need not be trusted: the proved checker \
reads all of it. Where it is accepted, no run of the job, on heaps of any size, comes to what is forbidden.",
        example: Example::Text("accepted bads 16 members 113 covers 377 links 396"),
    },
    Topic {
        names: &["member", "members"],
        says: "A shape of the certificate, at a state. All members together hold every heap from which a forbidden \
one could be reached, and none of them holds the start.",
        example: Example::Text("By member 0, at line 14:\n\n         y at *"),
    },
    Topic {
        names: &["cover", "covers", "owed"],
        says: "A note in the certificate which member lies in which shape, with an image for each of its cells. One is \
owed for each forbidden shape, and for each shape that comes before a member by a transition, in an order that \
FORMAT.md gives. `vorruda owed` draws them.",
        example: Example::Text("4 0 2: member 4, whose cells 0 and 1 lie at cells 0 and 2 of the covered shape"),
    },
    Topic {
        names: &["links"],
        says: "How many links the checker followed in all covers of an accepted certificate: the lengths of the paths \
that the members' links are.",
        example: Example::Text("A member with one link, whose path has two links, counts 2."),
    },
    Topic {
        names: &["accepted"],
        says: "The certificate holds. The counts of forbidden shapes, members, covers and links follow.",
        example: Example::Text("accepted bads 1 members 1 covers 1 links 0"),
    },
    Topic {
        names: &["refused"],
        says: "The certificate doesn't hold, or a file can't be read. The refusal's number and a place follow: a byte \
of the job for 1, 3, 4 and 5, one of the certificate for the others. It says nothing bad of the routine.",
        example: Example::Text("refused 9 at 5 rule 3 of 1"),
    },
    Topic {
        names: &["beyond", "beyond the rules"],
        says: "There is no certificate, and no run was found that is wrong. The rules forget something that the \
routine relies on: going back over a delete, which links dangle; or how many cells a path has. A chain of shapes \
shows it.",
        example: Example::Text("vorruda try beyond_delete_first"),
    },
    Topic {
        names: &["hand-over", "join"],
        says: "Where one program ends and another starts, with the heap that the first leaves. Two jobs with their \
certificates are judged as one by `vorruda join`, two listings by `vorruda try FIRST --then SECOND`.",
        example: Example::Text("vorruda try load_insert.first --then load_insert.second"),
    },
    Topic {
        names: &["share", "tally", "sheet"],
        says: "The sheet of a release, in exact numbers: which share of the verdicts is accepted, and how many covers an \
accepted certificate has on average. Fractions are in lowest terms; none stands where there is nothing to divide \
by.",
        example: Example::Text("share 1/2 covers 1/1"),
    },
];
