//! The ready sets of forbidden shapes.

use super::{Example, Topic};

pub const SETS: [Topic; 11] = [
    Topic {
        names: &["no list"],
        says: "x is no list that ends at null: following links from x, # isn't met. x or a link on the way is at *, \
or there is a ring. x at # is a list, the empty one. Four shapes, by the proved call vorruda_forbid_not_list.",
        example: Example::Text("  mark 0  no list: x  -- at mark 0, x has to be a list"),
    },
    Topic {
        names: &["lost block"],
        says: "Some cell isn't met by following links from x: nothing will ever free or weave it. Six shapes, by the \
proved call vorruda_forbid_lost_block. Of several variables: a cell is met from none of them, while they are \
lists that share no cell.",
        example: Example::Text("  mark 0  lost block: x  -- at mark 0, every block hangs at x"),
    },
    Topic {
        names: &["ring"],
        says: "A ring is met by following links from x. A list that ends at null or dangles isn't forbidden by it.",
        example: Example::Text("  mark 0  ring: x  -- at mark 0, x leads into no ring"),
    },
    Topic {
        names: &["no ring"],
        says: "x isn't on a ring. For routines that keep their blocks in one.",
        example: Example::Text("  mark 0  no ring: x  -- at mark 0, x is on a ring"),
    },
    Topic {
        names: &["shared"],
        says: "Some cell is met both from x and from y.",
        example: Example::Text("  mark 0  shared: x y  -- at mark 0, x and y have no block in common"),
    },
    Topic {
        names: &["lost block shared"],
        says: "Some cell is met from neither x nor y, while both are lists, one of which may lie in the other or join \
it.",
        example: Example::Text("  mark 0  lost block shared: x y  -- at mark 0, every block hangs at x or y"),
    },
    Topic {
        names: &["not sorted"],
        says: "Of the cells met from x, one has a smaller value than one ahead of it. A listing itself knows no \
values; write transitions to test and set them.",
        example: Example::Text("  mark 0  not sorted: x  -- at mark 0, values rise or stay from x on"),
    },
    Topic {
        names: &["not falling"],
        says: "Of the cells met from x, one has a larger value than one ahead of it.",
        example: Example::Text("  mark 0  not falling: x  -- at mark 0, values fall or stay from x on"),
    },
    Topic {
        names: &["not sorted round"],
        says: "x is on a ring, and of its cells in their order from x on, one has a smaller value than one ahead of \
it.",
        example: Example::Text("  mark 0  not sorted round: x  -- at mark 0, the ring rises from x on"),
    },
    Topic {
        names: &["not falling round"],
        says: "x is on a ring, and of its cells in their order from x on, one has a larger value than one ahead of \
it.",
        example: Example::Text("  mark 0  not falling round: x  -- at mark 0, the ring falls from x on"),
    },
    Topic {
        names: &["steps"],
        says: "No link is followed or set through a variable at # or *: what would crash in C. It stands without a \
mark, for all lines. It doesn't speak of a dangling variable that is copied, tested or deleted. Where a \
listing forbids nothing, this is forbidden. By the proved call vorruda_forbid_bad_steps.",
        example: Example::Text("  steps  -- x := y.next with y at null or dangling can't happen"),
    },
];
