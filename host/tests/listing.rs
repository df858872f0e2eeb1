//! Routines with a listing in place of their transitions: what they become.

use vorruda_host::reference::job::Job;
use vorruda_host::routine::{parse, parse_listing, Mistakes, Routine};

const SMALL: &str = "\
-- Makes cells until it stops.
listing
x := null
while any
new(y)
y.next := x
x := y
end
mark 0
if x != null
y := x.next
end
mark 12

forbidden
mark 0   no ring: x
mark 12  x at c, c -> *
steps
";

/// The one mistake of a text.
fn mistake_in(routine: Result<Routine, Mistakes>) -> String {
    let mistakes = routine.unwrap_err();
    assert_eq!(mistakes.all.len(), 1, "{mistakes}");
    mistakes.all[0].mistake.to_string()
}

#[test]
fn a_routine_with_a_listing() {
    let routine = parse(SMALL).unwrap();
    assert_eq!(routine.title, "Makes cells until it stops.");
    assert_eq!(routine.variables, ["x", "y"]);
    assert_eq!(routine.states[0], "line 3");
    assert_eq!(routine.states[10..], ["line 13", "after line 13"]);
    assert_eq!(routine.statement(1), Some("while any"));
    assert_eq!(routine.statement(11), None);
    assert!(routine.warnings.is_empty());
    let texts: Vec<String> = (0..routine.job.transitions.len())
        .map(|number| routine.operation(number))
        .collect();
    let expected = [
        "x := null",
        "while any",
        "new(y)",
        "y.next := x",
        "x := y",
        "end",
        "while any",
        "mark 0",
        "x != null",
        "y := x.next",
        "end",
        "x = null",
        "mark 12",
    ];
    assert_eq!(texts, expected);
    let states: Vec<u64> = routine.job.forbidden.iter().map(|bad| bad.state).collect();
    assert_eq!(states, [6, 6, 6, 6, 6, 10, 3, 3, 8, 8]);
    assert_eq!(routine.origins[5].line, Some(17));
    assert_eq!(routine.origins[5].text, "x at c, c -> *");
    assert_eq!(Job::read(&routine.job.bytes()), Ok(routine.job));
}

#[test]
fn a_file_that_is_a_listing() {
    let text = "new(x)\nx := x.next\n";
    let routine = parse_listing(text).unwrap();
    assert_eq!(routine.title, "A listing of 2 lines.");
    assert_eq!(routine.states, ["line 1", "line 2", "after line 2"]);
    let lines: Vec<Option<usize>> = routine.origins.iter().map(|origin| origin.line).collect();
    assert_eq!(lines, [None, None]);
    assert_eq!(routine.origins[0].to_string(), "`steps` is forbidden");

    let text = format!("{text}mark 3\nforbidden -- a ring\nmark 3 ring: x\n");
    let routine = parse_listing(&text).unwrap();
    assert_eq!(routine.title, "a ring");
    assert_eq!(routine.origins[0].to_string(), "line 5 forbids `ring: x`");
    let nothing = "line 1, column 1: nothing is forbidden; expected a line `forbidden` and shapes \
                   below it";
    assert_eq!(mistake_in(parse_listing("")), nothing);
    assert_eq!(mistake_in(parse_listing("new(x)\n")), nothing);
}
