//! What is said of mistakes in a routine: the place, the word, and what would be right there.

use vorruda_host::reference::job::Job;
use vorruda_host::routine::{parse, Mistake};

const SMALL: &str = include_str!("small.txt");

/// The one mistake after a change of the small routine.
fn mistake(old: &str, new: &str) -> String {
    assert!(SMALL.contains(old), "{old}");
    let mistakes = parse(&SMALL.replacen(old, new, 1)).unwrap_err();
    assert_eq!(mistakes.all.len(), 1, "{mistakes}");
    mistakes.all[0].mistake.to_string()
}

#[test]
fn mistakes_in_operations() {
    let rows = [
        (
            "x.next    ->",
            "x.nxt     ->",
            "line 7, column 16: `x.nxt`: did you mean `x.next`?",
        ),
        (
            "y := x.next",
            "yy := x.next",
            "line 7, column 11: `yy`: no variable has this name; did you mean `y`?",
        ),
        (
            "y := x.next",
            "y := next.next",
            "line 7, column 16: `next.next`: expected a variable, one of x, y",
        ),
        (
            "y := x.next",
            "y.next := x.next",
            "line 7, column 21: `x.next`: only one side can be a link: load \
             it into a variable first",
        ),
        (
            "y := x.next",
            "y = x.next",
            "line 7, column 15: `x.next`: a test is of variables and null: \
             load the link into one first",
        ),
        (
            "y := x.next",
            "y == x",
            "line 7, column 13: `==`: expected `:=`, which sets, or `=` or \
             `!=`, which test; for values also `:=>`, `:=<` and `<`",
        ),
        (
            "y := x.next",
            "y := x z",
            "line 7, column 18: `z`: expected the end of the line",
        ),
        (
            "y := x.next",
            "null := x",
            "line 7, column 11: `null`: can't be set: expected a variable or \
             its link",
        ),
        (
            "y := x.next",
            "y := null.next",
            "line 7, column 16: `null.next`: null has no link",
        ),
        (
            "new(x)",
            "nwe(x)",
            "line 5, column 11: `nwe`: did you mean `new`?",
        ),
        (
            "new(x)",
            "new(null)",
            "line 5, column 15: `null`: expected a variable",
        ),
        ("new(x)", "new(x", "line 5, column 25: `->`: expected `)`"),
        (
            "skip  ",
            "sikp  ",
            "line 8, column 11: `sikp`: did you mean `skip`?",
        ),
        (
            "skip  ",
            "leave ",
            "line 8, column 11: `leave`: expected one of `a = b`, `a != b`, \
             `a := b`, `a := b.next`, `a.next := b`, `new(a)`, `delete(a)`, \
             `skip`, `a.num = b.num`, `a.num < b.num`, `a.num := b.num`, \
             `a.num :=> b.num`, `a.num :=< b.num`, `read(a)`",
        ),
    ];
    for (old, new, what) in rows {
        assert_eq!(mistake(old, new), what);
    }
}

/// In place of `y := x.next`.
#[test]
fn mistakes_in_operations_on_values() {
    let rows = [
        (
            "y.num := x",
            "20: `x`: did you mean `x.num`? A value goes with a value",
        ),
        (
            "y := x.num",
            "11: `y`: did you mean `y.num`? A value goes with a value",
        ),
        (
            "y.num = x.next",
            "19: `x.next`: did you mean `x.num`? A value goes with a value",
        ),
        (
            "y < x",
            "11: `y`: did you mean `y.num`? A value goes with a value",
        ),
        (
            "y.num :=> x",
            "21: `x`: did you mean `x.num`? A value goes with a value",
        ),
        ("y.num := null", "20: `null`: null has no value"),
        ("null.num < x.num", "11: `null.num`: null has no value"),
        (
            "y.num != x.num",
            "17: `!=`: values differ if one is below the other: expected two transitions with `<`",
        ),
        (
            "y.num > x.num",
            "17: `>`: expected `:=`, which sets, or `=` or `!=`, which test; for values also \
             `:=>`, `:=<` and `<`",
        ),
        ("y.nmu = x.num", "11: `y.nmu`: did you mean `y.num`?"),
        (
            "y.value = x.num",
            "11: `y.value`: did you mean `y.next` or `y.num`?",
        ),
        (
            "z.num = x.num",
            "11: `z.num`: expected a variable, one of x, y",
        ),
        ("raed(x)", "11: `raed`: did you mean `read`?"),
        ("read(null)", "16: `null`: expected a variable"),
        ("read(x.num)", "16: `x.num`: expected a variable"),
    ];
    for (new, what) in rows {
        assert_eq!(
            mistake("y := x.next", new),
            format!("line 7, column {what}")
        );
    }
}

#[test]
fn mistakes_in_lines() {
    let rows = [
        (
            "x.next := null -> end",
            "x.next := null",
            "line 6, column 26: expected `->` and a state: a line is a \
             state, an operation, `->` and a state",
        ),
        (
            "-> linked",
            "->",
            "line 5, column 29: expected the name of a state",
        ),
        (
            "forbidden",
            "forbid",
            "line 10, column 1: `forbid`: did you mean `forbidden`?",
        ),
        (
            "variables x y",
            "variable x y",
            "line 2, column 1: `variable`: did you mean `variables`?",
        ),
        (
            "variables x y",
            "variables x y x",
            "line 2, column 15: `x`: the word is taken: expected another name",
        ),
        (
            "variables x y",
            "",
            "line 5, column 15: `x`: expected a variable, but none is named \
             above",
        ),
        (
            "start     begin",
            "",
            "line 12, column 1: no line names the start; expected `start` \
             and a state above",
        ),
        (
            "start     begin",
            "start",
            "line 3, column 7: expected the name of a state",
        ),
    ];
    for (old, new, what) in rows {
        assert_eq!(mistake(old, new), what);
    }
}

#[test]
fn mistakes_in_what_is_forbidden() {
    let rows = [
        (
            "end       x at c",
            "enb       x at c",
            "line 11, column 1: `enb`: no state has this name; did you mean \
             `end`?",
        ),
        (
            "end       x at c",
            "middle    x at c",
            "line 11, column 1: `middle`: expected a state, one of begin, \
             linked, end",
        ),
        (
            "x at c",
            "x ta c",
            "line 11, column 13: `ta`: did you mean `at`?",
        ),
        (
            "x at c",
            "x within c",
            "line 11, column 13: `within`: expected `x at p`, `c -> p`, \
             `cell c`, `c < d`, `c = d` or `value c`, where p is a cell, # or *",
        ),
        ("d -> *", "c -> *", "line 11, column 27: `c`: is told twice"),
        (
            "d -> *",
            "x -> *",
            "line 11, column 27: `x`: a variable in place of a cell: expected the \
             cell that it is at",
        ),
        (
            "d -> *",
            "d -> ?",
            "line 11, column 32: `?`: expected the name of a cell, # or *",
        ),
        (
            "steps",
            "end lost block:",
            "line 12, column 17: expected one or more variables",
        ),
        (
            "steps",
            "end lost blok: x",
            "line 12, column 5: `lost blok`: did you mean `lost block`?",
        ),
        (
            "steps",
            "end lost block shared: x",
            "line 12, column 26: expected two variables",
        ),
        (
            "steps",
            "end not sorted round x",
            "line 12, column 5: `not sorted round`: a ready set without its colon: expected `not \
             sorted round: x`",
        ),
        (
            "steps",
            "end sorted: x",
            "line 12, column 5: `sorted`: expected a ready set, one of no \
             list, lost block shared, lost block, ring, no ring, shared, not sorted round, not \
             sorted, not falling round, not falling",
        ),
        (
            "steps",
            "end",
            "line 12, column 5: expected a shape, as `x at #`, or a ready \
             set, as `no list: x`",
        ),
    ];
    for (old, new, what) in rows {
        assert_eq!(mistake(old, new), what);
    }
}

/// In place of `d -> *`.
#[test]
fn mistakes_in_facts_on_values() {
    let inconsistent = "up to here a cell is below itself, so that no heap has the shape";
    let rows = [
        ("c < d, d < c", format!("38: `c`: {inconsistent}")),
        ("c < d = c", format!("35: `c`: {inconsistent}")),
        ("c < c", format!("31: `c`: {inconsistent}")),
        (
            "c < x",
            "31: `x`: a variable in place of a cell: expected the cell that it is at".to_string(),
        ),
        (
            "c < #",
            "31: `#`: expected the name of a cell".to_string(),
        ),
        (
            "value *",
            "33: `*`: expected the name of a cell".to_string(),
        ),
        (
            "c <",
            "30: `,`: expected the name of a cell".to_string(),
        ),
        ("c < d < e -> #", "37: `->`: expected `,`".to_string()),
        (
            "c > d",
            "29: `>`: expected `x at p`, `c -> p`, `cell c`, `c < d`, `c = d` or `value c`, where p \
             is a cell, # or *"
                .to_string(),
        ),
    ];
    for (new, what) in rows {
        assert_eq!(mistake("d -> *", new), format!("line 11, column {what}"));
    }
    let two = mistake("steps", "end not sorted: x y");
    assert_eq!(two, "line 12, column 21: expected one variable");
}

/// A job with a dead end, or with a state that no run comes to, is a right one.
#[test]
fn states_that_may_be_misspelt_are_warnings() {
    let rows = [
        (
            "x.next := null -> end",
            "x.next := null -> edn",
            "line 6, column 29: `edn`: nothing leaves this state and nothing is forbidden \
             there; did you mean `end`?",
        ),
        (
            "end       skip",
            "stop      skip",
            "line 8, column 1: `stop`: nothing leads to this state",
        ),
    ];
    for (old, new, what) in rows {
        let routine = parse(&SMALL.replacen(old, new, 1)).unwrap();
        let warnings: Vec<String> = routine.warnings.iter().map(Mistake::to_string).collect();
        assert_eq!(warnings.last().unwrap(), what);
        assert!(Job::read(&routine.job.bytes()).is_ok());
    }
}
