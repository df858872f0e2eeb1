//! The rules that a cover can break.

use super::{Example, Topic};

pub const RULES: [Topic; 6] = [
    Topic {
        names: &["rule 1", "state"],
        says: "A cover's member has to be at the state of the covered shape: of a forbidden shape where it is \
forbidden, of a shape that comes before a member the state that the transition leaves. The number behind `of` \
is 0. A misfit that is often made: the state that the transition leads to.",
        example: Example::Pair(
            &[2, 1, 2, 0, 1, 0, 6, 1, 0, 1, 1, 1, 0, 1, 0],
            &[2, 1, 0, 0, 1, 0, 0],
            "refused 9 at 6 rule 1 of 0",
        ),
    },
    Topic {
        names: &["rule 2", "image"],
        says: "Each cell of the member has an image, a cell of the covered shape, and no two have the same. The \
number behind `of` is the lowest cell whose image another one has too. Here cells 0 and 1 of the member both \
have the image 0.",
        example: Example::Pair(
            &[2, 1, 1, 0, 0, 1, 0, 2, 0, 0, 0, 0],
            &[2, 1, 0, 2, 0, 0, 0, 0, 0, 0, 0],
            "refused 9 at 8 rule 2 of 0",
        ),
    },
    Topic {
        names: &["rule 3", "variable"],
        says: "A variable that has a place in the member has to stand, in the covered shape, at the image of that \
place; # and * are their own images. A variable that is nowhere in the member may be anywhere. The number behind \
`of` is the variable, from 1.",
        example: Example::Pair(
            &[2, 1, 2, 0, 1, 0, 6, 1, 0, 1, 1, 1, 0, 1, 0],
            &[2, 1, 1, 0, 2, 0, 0],
            "refused 9 at 6 rule 3 of 1",
        ),
    },
    Topic {
        names: &["rule 4", "link", "path"],
        says: "A link of the member that has a place is a path in the covered shape: from the image of its cell \
follow links, at least one, until an image, # or * is met; that has to be the image of the link's place. The \
number behind `of` is the cell, from 0. Here the member's cell is linked to #, the covered one to *.",
        example: Example::Pair(
            &[2, 1, 1, 0, 0, 1, 0, 1, 0, 2, 0],
            &[2, 1, 0, 1, 0, 1, 0, 0, 0],
            "refused 9 at 7 rule 4 of 0",
        ),
    },
    Topic {
        names: &["rule 5", "shared path"],
        says: "Paths of two links of a member may not go through the same cell on their way. Else a place where two \
lists meet would go unseen. The number behind `of` is the higher of the two cells. Here cells 0 and 1 of the \
covered shape both lead to cell 2, and that to cell 3, which is the image of the member's cell 2.",
        example: Example::Pair(
            &[2, 1, 1, 0, 0, 1, 0, 4, 0, 5, 5, 6, 0, 0],
            &[2, 1, 0, 3, 0, 5, 5, 0, 0, 0, 0, 1, 3],
            "refused 9 at 9 rule 5 of 1",
        ),
    },
    Topic {
        names: &["rule 6"],
        says: "Each fact that a member lists, with images for its cells, has to be among the facts of the covered \
shape and what follows from them. The number behind `of` is the fact's first cell. Here the covered shape has \
cell 1 below cell 0, and the member cell 0 equal to cell 1.",
        example: Example::Pair(
            &[2, 1, 1, 0, 0, 1, 0, 2, 3, 4, 0, 1, 0, 1, 0],
            &[2, 1, 0, 2, 3, 4, 0, 1, 1, 0, 1, 0, 0, 1],
            "refused 9 at 11 rule 6 of 0",
        ),
    },
];
