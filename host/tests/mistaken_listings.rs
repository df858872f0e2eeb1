//! What is said of mistaken listings: all mistakes at once, each by its name, with its line, a caret
//! under the word, and what would be right.

use vorruda_host::routine::{parse, parse_listing, Mistakes, Told};
use vorruda_host::text::visible;

/// A file whose name ends in `.listing`, without a mistake.
const LISTING: &str = "\
x := null
while any
new(t)
t.next := x
x := t
end
mark 0

forbidden
mark 0  no list: x
steps
";

/// The mistakes after a change of the listing.
fn mistakes(old: &str, new: &str) -> Mistakes {
    assert!(LISTING.contains(old), "{old}");
    parse_listing(&LISTING.replacen(old, new, 1)).unwrap_err()
}

/// A mistake in short: its place, the word and its name, and the lines that would be right.
fn in_short(told: &Told) -> String {
    let mistake = &told.mistake;
    let name = mistake.what.split(": ").next().unwrap();
    let place = format!("{}:{}", mistake.line, mistake.column);
    let right = match &mistake.right {
        None => String::new(),
        Some(lines) => format!(" => {}", lines.join(" / ")),
    };
    format!("{place} `{}` {name}{right}", visible(&mistake.word))
}

/// Each change of the listing with what is said of it.
const TABLE: &[(&str, &str, &[&str])] = &[
(
            "x := null\n",
            "x := null\r\n",
            &[
                "1:10 `\\r` CRLF line end, as Windows writes it => x := null",
            ],
        ),
        (
            "new(t)",
            "  new(t)",
            &[
                "3:1 `  ` indentation => new(t)",
            ],
        ),
        (
            "new(t)",
            "\tnew(t)",
            &[
                "3:1 `\\t` indentation by a tab => new(t)",
            ],
        ),
        (
            "x := t\n",
            "x := t  \n",
            &[
                "5:7 `  ` blanks at the line's end => x := t",
            ],
        ),
        (
            "while any",
            "while\tany",
            &[
                "2:6 `\\t` a tab => while any",
            ],
        ),
        (
            "t.next := x",
            "t.next  := x",
            &[
                "4:8 `` blanks => t.next := x",
            ],
        ),
        (
            "x := null",
            "x:=null",
            &[
                "1:2 `` blanks => x := null",
            ],
        ),
        (
            "x := null",
            "\u{feff}x := null",
            &[
                "1:1 `` a byte order mark ahead of the text => x := null",
            ],
        ),
        (
            "new(t)\n",
            "new(t)\n\n",
            &[
                "4:1 `` a blank line inside of a listing, which would end it => ",
            ],
        ),
        (
            "x := null",
            "x := null -- empty",
            &[
                "1:11 `--` a comment => x := null",
            ],
        ),
        (
            "x := null",
            "x := null // empty",
            &[
                "1:11 `//` a comment => x := null",
            ],
        ),
        (
            "x := null",
            "x := null /* empty */",
            &[
                "1:11 `/*` a comment => x := null",
            ],
        ),
        (
            "new(t)",
            "-- build\nnew(t)",
            &[
                "3:1 `--` a comment => ",
            ],
        ),
        (
            "new(t)",
            "# build\nnew(t)",
            &[
                "3:1 `#` a comment => ",
            ],
        ),
        (
            "x := t\n",
            "x := t->next\n",
            &[
                "5:6 `t->next` an arrow => x := t.next",
            ],
        ),
        (
            "t.next := x",
            "t -> next := x",
            &[
                "4:1 `t -> next` an arrow => t.next := x",
            ],
        ),
        (
            "x := t\n",
            "x := t->next->next\n",
            &[
                "5:6 `t->next->next` an arrow => x := t.next / x := x.next",
                "5:6 `t->next->next` several links at once => x := t.next / x := x.next",
            ],
        ),
        (
            "x := t\n",
            "delete x\n",
            &[
                "5:1 `delete` a call without brackets => delete(x)",
            ],
        ),
        (
            "new(t)",
            "new t",
            &[
                "3:1 `new` a call without brackets => new(t)",
            ],
        ),
        (
            "x := t\n",
            "free(t)\n",
            &[
                "5:1 `free` a call of other languages => delete(t)",
            ],
        ),
        (
            "new(t)",
            "t := new Block()",
            &[
                "3:6 `new` a cell that is assigned => new(t)",
            ],
        ),
        (
            "new(t)",
            "t = malloc(8);",
            &[
                "3:5 `malloc` a cell that is assigned => new(t)",
                "3:14 `;` a semicolon => new(t)",
            ],
        ),
        (
            "while any",
            "while (x != null)",
            &[
                "2:7 `(` brackets => while x != null",
            ],
        ),
        (
            "while any",
            "while(any)",
            &[
                "2:6 `(` brackets => while any",
            ],
        ),
        (
            "while any",
            "while x ≠ null",
            &[
                "2:9 `≠` a sign of other languages => while x != null",
            ],
        ),
        (
            "while any",
            "while x <> null",
            &[
                "2:9 `<>` a sign of other languages => while x != null",
            ],
        ),
        (
            "while any",
            "while x == null",
            &[
                "2:9 `==` a sign of other languages => while x = null",
            ],
        ),
        (
            "x := t\n",
            "x <- t\n",
            &[
                "5:3 `<-` a sign of other languages => x := t",
            ],
        ),
        (
            "x := t\n",
            "x ← t\n",
            &[
                "5:3 `←` a sign of other languages => x := t",
            ],
        ),
        (
            "x := null",
            "x := NULL",
            &[
                "1:6 `NULL` null by another name => x := null",
            ],
        ),
        (
            "x := null",
            "x := nil",
            &[
                "1:6 `nil` null by another name => x := null",
            ],
        ),
        (
            "x := null",
            "x := 0",
            &[
                "1:6 `0` null by another name => x := null",
            ],
        ),
        (
            "x := null",
            "x := #",
            &[
                "1:6 `#` null by another name => x := null",
            ],
        ),
        (
            "x := t\n",
            "x := t;\n",
            &[
                "5:7 `;` a semicolon => x := t",
            ],
        ),
        (
            "x := t\n",
            "x := t; t := null\n",
            &[
                "5:7 `;` a semicolon => x := t / t := null",
            ],
        ),
        (
            "while any",
            "while any {",
            &[
                "2:11 `{` a brace => while any",
            ],
        ),
        (
            "end\n",
            "}\n",
            &[
                "6:1 `}` an end of other languages => end",
            ],
        ),
        (
            "new(t)",
            "{\nnew(t)",
            &[
                "3:1 `{` a brace => ",
            ],
        ),
        (
            "while any",
            "while any do",
            &[
                "2:11 `do` a word behind the test => while any",
            ],
        ),
        (
            "while any",
            "if any then",
            &[
                "2:8 `then` a word behind the test => if any",
            ],
        ),
        (
            "x := t\n",
            "if x != null\nt := x\nelse\nx := t\nend\n",
            &[
                "7:1 `else` a listing has no `else` => end / if x = null",
            ],
        ),
        (
            "x := t\n",
            "if (x = t) {\nt.next := x\n} else {\nt := x\n}\n",
            &[
                "5:4 `(` brackets => if x = t",
                "5:12 `{` a brace => if x = t",
                "7:3 `else` a listing has no `else` => end / if x != t",
                "9:1 `}` an end of other languages => end",
            ],
        ),
        (
            "x := t\n",
            "if any\nx := t\nelse\nt := x\nend\n",
            &[
                "7:1 `else` a listing has no `else`, and `any` has no opposite",
            ],
        ),
        (
            "x := t\n",
            "if x = t\nt.next := x\nelse if x = null\nt := x\nend\n",
            &[
                "7:1 `else` a listing has no `else`",
            ],
        ),
        (
            "x := t\n",
            "else\n",
            &[
                "5:1 `else` a listing has no `else`, and no `if` is open here",
            ],
        ),
        (
            "end\n",
            "endwhile\n",
            &[
                "6:1 `endwhile` an end of other languages => end",
            ],
        ),
        (
            "end\n",
            "end while\n",
            &[
                "6:5 `while` more than the end of a block => end",
            ],
        ),
        (
            "while any",
            "WHILE any",
            &[
                "2:1 `WHILE` capitals => while any",
            ],
        ),
        (
            "end\n",
            "End\n",
            &[
                "6:1 `End` capitals => end",
            ],
        ),
        (
            "x := t\n",
            "X := t\n",
            &[
                "5:1 `X` a capital => x := t",
            ],
        ),
        (
            "x := t\n",
            "head := t\nx := head.next\n",
            &[
                "5:1 `head` a name of several letters => h := t",
                "6:6 `head.next` a name of several letters => x := h.next",
            ],
        ),
        (
            "x := t\n",
            "x := t.next.next\n",
            &[
                "5:6 `t.next.next` several links at once => x := t.next / x := x.next",
            ],
        ),
        (
            "x := t\n",
            "x.next.next := t.next.next\n",
            &[
                "5:1 `x.next.next` several links at once => u := x.next / v := t.next / v := v.next / u.next := v",
                "5:16 `t.next.next` only one side can be a link => u := x.next / v := t.next / v := v.next / u.next := v",
            ],
        ),
        (
            "x := t\n",
            "x.next := t.next\n",
            &[
                "5:11 `t.next` only one side can be a link => u := t.next / x.next := u",
            ],
        ),
        (
            "x := t\n",
            "x.next.next := t\n",
            &[
                "5:1 `x.next.next` several links at once => u := x.next / u.next := t",
            ],
        ),
        (
            "x := t\n",
            "x = t.next\n",
            &[
                "5:3 `=` `=` tests => x := t.next",
            ],
        ),
        (
            "while any",
            "while x.next != null",
            &[
                "2:7 `x.next` a link in a test => u := x.next / while u != null",
            ],
        ),
        (
            "while any",
            "while x",
            &[
                "2:7 `x` a test without a comparison => while x != null",
            ],
        ),
        (
            "while any",
            "while (!x)",
            &[
                "2:7 `(` brackets => while x = null",
                "2:8 `!` a test without a comparison => while x = null",
            ],
        ),
        (
            "while any",
            "while not x",
            &[
                "2:7 `not` a test without a comparison => while x = null",
            ],
        ),
        (
            "while any",
            "while x := t",
            &[
                "2:9 `:=` `:=` sets => while x = t",
            ],
        ),
        (
            "while any",
            "while x != null and t != null",
            &[
                "2:17 `and` two tests at once",
            ],
        ),
        (
            "while any",
            "while x != null && t != null",
            &[
                "2:17 `&` two tests at once",
            ],
        ),
        (
            "while any",
            "while true",
            &[
                "2:7 `true` a test that always holds => while null = null",
            ],
        ),
        (
            "x := t\n",
            "break\n",
            &[
                "5:1 `break` a jump",
            ],
        ),
        (
            "x := t\n",
            "return x\n",
            &[
                "5:1 `return` a jump",
            ],
        ),
        (
            "while any",
            "for t in x",
            &[
                "2:1 `for` another loop",
            ],
        ),
        (
            "while any",
            "repeat",
            &[
                "2:1 `repeat` another loop",
            ],
        ),
        (
            "while any",
            "whlie any",
            &[
                "2:1 `whlie` did you mean `while`? => while any",
            ],
        ),
        (
            "x := t\n",
            "x := t.nxt\n",
            &[
                "5:6 `t.nxt` did you mean `t.next`?",
            ],
        ),
        (
            "x := t\n",
            "move x\n",
            &[
                "5:1 `move` no line of a listing",
            ],
        ),
        (
            "x := t\n",
            "skip\n",
            &[
                "5:1 `skip` a listing has `null = null` for it => null = null",
            ],
        ),
        (
            "x := t\n",
            "x.num := t.num\n",
            &[
                "5:1 `x.num` a listing has no values",
            ],
        ),
        (
            "while any",
            "while x.num < t.num",
            &[
                "2:7 `x.num` a listing has no values",
            ],
        ),
        (
            "new(t)",
            "read(t)",
            &[
                "3:1 `read` a listing has no values",
            ],
        ),
        (
            "x := t\n",
            "null := t\n",
            &[
                "5:1 `null` can't be set",
            ],
        ),
        (
            "mark 0\n",
            "mark 64\n",
            &[
                "7:6 `64` a mark without its number",
            ],
        ),
        (
            "mark 0\n",
            "mark 0\nmark 0\n",
            &[
                "8:6 `0` this mark stands above already",
            ],
        ),
        (
            "mark 0\n",
            "mark\n",
            &[
                "7:1 `mark` a mark without its number",
            ],
        ),
        (
            "mark 0\n",
            "mark 0 here\n",
            &[
                "7:8 `here` more than a mark => mark 0",
            ],
        ),
        (
            "end\n",
            "end\nend\n",
            &[
                "7:1 `end` an end without its block => ",
            ],
        ),
        (
            "end\n",
            "",
            &[
                "2:1 `while` a block without its end",
            ],
        ),
        (
            "x := null",
            "variables x t\nx := null",
            &[
                "1:1 `variables` a head inside of the listing => ",
            ],
        ),
        (
            "new(t)",
            "variables x t\nnew(t)",
            &[
                "3:1 `variables` a head inside of the listing => ",
            ],
        ),
        (
            "x := null",
            "listing\nx := null",
            &[
                "1:1 `listing` a head inside of the listing => ",
            ],
        ),
        (
            "forbidden",
            "Forbidden",
            &[
                "9:1 `Forbidden` did you mean `forbidden`? => forbidden",
            ],
        ),
        (
            "forbidden",
            "forbidden:",
            &[
                "9:10 `:` expected the end of the line => forbidden",
            ],
        ),
        (
            "forbidden",
            "forbiden",
            &[
                "9:1 `forbiden` did you mean `forbidden`? => forbidden",
            ],
        ),
        (
            "forbidden\n",
            "",
            &[
                "9:1 `mark` what is forbidden => forbidden / mark 0  no list: x",
            ],
        ),
        (
            "no list: x",
            "no list x",
            &[
                "10:9 `no list` a ready set without its colon => mark 0  no list: x",
            ],
        ),
        (
            "no list: x",
            "lost block x t",
            &[
                "10:9 `lost block` a ready set without its colon => mark 0  lost block: x t",
            ],
        ),
        (
            "no list: x",
            "x -> #",
            &[
                "10:9 `x` a variable in place of a cell => mark 0  x at c, c -> #",
            ],
        ),
        (
            "no list: x",
            "x -> t",
            &[
                "10:9 `x` a variable in place of a cell => mark 0  x at c, t at d, c -> d",
            ],
        ),
        (
            "no list: x",
            "x at c, x -> d",
            &[
                "10:17 `x` a variable in place of a cell => mark 0  x at c, c -> d",
            ],
        ),
        (
            "no list: x",
            "x at t",
            &[
                "10:14 `t` a variable in place of a cell => mark 0  t at c, x at c",
            ],
        ),
        (
            "no list: x",
            "x = null",
            &[
                "10:9 `x` a variable in place of a cell => mark 0  x at #",
            ],
        ),
        (
            "no list: x",
            "x at c, cell x",
            &[
                "10:22 `x` a variable in place of a cell => mark 0  x at c, cell c",
            ],
        ),
        (
            "no list: x",
            "x at NULL",
            &[
                "10:14 `NULL` null by another name => mark 0  x at #",
            ],
        ),
        (
            "no list: x",
            "no list: x;",
            &[
                "10:19 `;` a semicolon => mark 0  no list: x",
            ],
        ),
        (
            "0  no list",
            "0: no list",
            &[
                "10:7 `:` a colon behind the state => mark 0 no list: x",
            ],
        ),
        (
            "no list: x",
            "no lst: x",
            &[
                "10:9 `no lst` did you mean `no list`? => mark 0  no list: x",
            ],
        ),
        (
            "no list: x",
            "no list: y",
            &[
                "10:18 `y` expected a variable, one of x, t",
            ],
        ),
        (
            "mark 0  no list: x",
            "mark 0",
            &[
                "10:8 `` expected a shape, as `x at #`, or a ready set, as `no list",
            ],
        ),
        (
            "mark 0  no",
            "mark 3  no",
            &[
                "10:6 `3` expected a mark of the listing",
            ],
        ),
        (
            "mark 0  no",
            "end  no",
            &[
                "10:1 `end` expected `mark` and its number, since the routine is a listing",
            ],
        ),
        (
            "steps",
            "step",
            &[
                "11:1 `step` did you mean `steps`? => steps",
            ],
        ),
        (
            "steps",
            "steps;",
            &[
                "11:6 `;` a semicolon => steps",
            ],
        ),
];

#[test]
fn each_mistake_has_its_name_and_place() {
    assert!(TABLE.len() > 100);
    for (old, new, expected) in TABLE {
        let told: Vec<String> = mistakes(old, new).all.iter().map(in_short).collect();
        assert_eq!(told, *expected, "{new}");
    }
}

/// Under the line of the file, with the word above it.
#[test]
fn each_caret_is_under_the_word() {
    for (old, new, _) in TABLE {
        for told in mistakes(old, new).all {
            let text = told.to_string();
            let lines: Vec<Vec<char>> = text.lines().map(|line| line.chars().collect()).collect();
            let [_, source, carets] = &lines[..] else {
                panic!("{text}")
            };
            let first = carets.iter().position(|&c| c == '^').unwrap();
            let word: String = source
                .iter()
                .skip(first)
                .take(carets.len() - first)
                .collect();
            match told.mistake.word.is_empty() {
                true => assert_eq!(carets.len(), first + 1, "{text}"),
                false => assert_eq!(word, visible(&told.mistake.word), "{text}"),
            }
        }
    }
}

/// The text with each mistaken line as it is told to be right.
fn put_right(text: &str, mistakes: &Mistakes) -> Option<String> {
    let lines = text.split_terminator('\n');
    let mut lines: Vec<Vec<String>> = lines.map(|line| vec![line.to_string()]).collect();
    for told in &mistakes.all {
        lines[told.mistake.line - 1] = told.mistake.right.clone()?;
    }
    Some(lines.concat().join("\n") + "\n")
}

/// Where all lines are told that would be right, they are.
#[test]
fn what_is_told_to_be_right_is_right() {
    let everywhere = LISTING.replace('\n', " \r\n").replace("x :=", "\tx :=");
    let changed = TABLE
        .iter()
        .map(|(old, new, _)| LISTING.replacen(old, new, 1));
    let mut put = 0;
    for mut text in changed.chain([everywhere]) {
        let mut rounds = 0;
        while let Err(mistakes) = parse_listing(&text) {
            rounds += 1;
            assert!(rounds < 12, "{text}");
            let Some(right) = put_right(&text, &mistakes) else {
                rounds = 0;
                break;
            };
            text = right;
        }
        put += usize::from(rounds > 0);
    }
    assert!(put > 70, "{put}");
}

/// A file in which hardly a line is right: all is told at once.
#[test]
fn all_mistakes_of_a_file() {
    let text = "\
x = NULL;
while (x->next != NULL) {
  new x
}
mark 0
forbidden
mark 0 x -> #
mark 0 no list x
";
    let mistakes = parse_listing(text).unwrap_err();
    let told: Vec<String> = mistakes.all.iter().map(in_short).collect();
    let expected = [
        "1:3 `=` `=` tests => x := null",
        "1:5 `NULL` null by another name => x := null",
        "1:9 `;` a semicolon => x := null",
        "2:7 `(` brackets => t := x.next / while t != null",
        "2:8 `x->next` an arrow => t := x.next / while t != null",
        "2:8 `x->next` a link in a test => t := x.next / while t != null",
        "2:19 `NULL` null by another name => t := x.next / while t != null",
        "2:25 `{` a brace => t := x.next / while t != null",
        "3:1 `  ` indentation => new(x)",
        "3:3 `new` a call without brackets => new(x)",
        "4:1 `}` an end of other languages => end",
        "7:8 `x` a variable in place of a cell => mark 0 x at c, c -> #",
        "8:8 `no list` a ready set without its colon => mark 0 no list: x",
    ];
    assert_eq!(told, expected);
}

/// What is told once stands for all lines.
#[test]
fn line_ends_of_windows() {
    let mistakes = parse_listing(&LISTING.replace('\n', "\r\n")).unwrap_err();
    let expected = "\
1 mistake

line 1, column 10: `\\r`: CRLF line end, as Windows writes it: expected byte 10 without byte 13 before \
it; the same at lines 2 to 7
    1 | x := null\\r
      |          ^^
right | x := null";
    assert_eq!(mistakes.to_string(), expected);
}

#[test]
fn whole_messages() {
    let rows = [
        (
            "x := null",
            "x := null -- empty",
            "\
line 1, column 11: `--`: a comment: a listing has none; it may stand above the listing or behind \
`forbidden`
    1 | x := null -- empty
      |           ^^
right | x := null",
        ),
        (
            "x := t\n",
            "x := t->next\n",
            "\
line 5, column 6: `t->next`: an arrow: the link is written `t.next`
    5 | x := t->next
      |      ^^^^^^^
right | x := t.next",
        ),
        (
            "x := t\n",
            "delete x\n",
            "\
line 5, column 1: `delete`: a call without brackets: expected `delete(x)`
    5 | delete x
      | ^^^^^^
right | delete(x)",
        ),
        (
            "while any",
            "while (x != null)",
            "\
line 2, column 7: `(`: brackets: a test has none around it
    2 | while (x != null)
      |       ^
right | while x != null",
        ),
        (
            "while any",
            "while x \u{2260} null",
            "\
line 2, column 9: `\u{2260}`: a sign of other languages: expected `!=`
    2 | while x \u{2260} null
      |         ^
right | while x != null",
        ),
        (
            "x := null",
            "x := NULL",
            "\
line 1, column 6: `NULL`: null by another name: expected `null`
    1 | x := NULL
      |      ^^^^
right | x := null",
        ),
        (
            "x := t\n",
            "x := t;\n",
            "\
line 5, column 7: `;`: a semicolon: a line ends without one
    5 | x := t;
      |       ^
right | x := t",
        ),
        (
            "new(t)\nt",
            "  new(t)\n  t",
            "\
line 3, column 1: `  `: indentation: a line of a listing begins with its first word; the same at line 4
    3 |   new(t)
      | ^^
right | new(t)",
        ),
        (
            "new(t)",
            "\tnew(t)",
            "\
line 3, column 1: `\\t`: indentation by a tab: a line of a listing begins with its first word
    3 | \\tnew(t)
      | ^^
right | new(t)",
        ),
        (
            "while any",
            "while\tany",
            "\
line 2, column 6: `\\t`: a tab: expected one blank
    2 | while\\tany
      |      ^^
right | while any",
        ),
        (
            "x := t\n",
            "if x != null\nt := x\nelse\nx := t\nend\n",
            "\
line 7, column 1: `else`: a listing has no `else`: close the `if`, and open one with the opposite test
    7 | else
      | ^^^^
right | end
      | if x = null",
        ),
        (
            "no list: x",
            "no list x",
            "\
line 10, column 9: `no list`: a ready set without its colon: expected `no list: x`
   10 | mark 0  no list x
      |         ^^^^^^^
right | mark 0  no list: x",
        ),
        (
            "no list: x",
            "x -> #",
            "\
line 10, column 9: `x`: a variable in place of a cell: expected the cell that it is at
   10 | mark 0  x -> #
      |         ^
right | mark 0  x at c, c -> #",
        ),
        (
            "new(t)\n",
            "-- build\nnew(t)\n",
            "\
line 3, column 1: `--`: a comment: a listing has none; it may stand above the listing or behind \
`forbidden`
    3 | -- build
      | ^^
right | (no line)",
        ),
    ];
    for (old, new, message) in rows {
        let expected = format!("1 mistake\n\n{message}");
        assert_eq!(mistakes(old, new).to_string(), expected);
    }
}

/// A listing in a file that isn't named as one, and transitions in one that is.
#[test]
fn files_of_another_ending() {
    let text = LISTING.replace("x := t\n", "x := t;\n");
    let expected = "\
2 mistakes

line 1, column 1: `x`: a listing in a file of another ending: expected a line `listing` above, or a \
file whose name ends in `.listing`
    1 | x := null
      | ^
right | listing
      | x := null

line 5, column 7: `;`: a semicolon: a line ends without one
    5 | x := t;
      |       ^
right | x := t";
    assert_eq!(parse(&text).unwrap_err().to_string(), expected);

    let transitions = "variables x\nstart a\na new(x) -> b\nforbidden\nb x at #\n";
    assert!(parse(transitions).is_ok());
    let mistakes = parse_listing(transitions).unwrap_err();
    let told: Vec<String> = mistakes.all.iter().map(in_short).collect();
    assert_eq!(told, ["1:1 `variables` a routine of transitions"]);
}

/// The opposite test stands for `else` only where it still ends as before.
#[test]
fn no_second_test_where_it_may_end_otherwise() {
    for line in ["x := t", "new(x)", "delete(t)"] {
        let lines = format!("if x != null\n{line}\nelse\nt := x\nend\n");
        let told: Vec<String> = mistakes("x := t\n", &lines)
            .all
            .iter()
            .map(in_short)
            .collect();
        let name = "a listing has no `else`, and what the `if` tests may change above";
        assert_eq!(told, [format!("7:1 `else` {name}")]);
    }
}

/// A routine with a head above its listing; the lines below are read as a listing all the same.
#[test]
fn heads_above_a_listing() {
    let rows = [
        (
            "variables x\nlisting",
            "2:1 `listing` a listing has no `variables`, `start` or transitions beside it",
        ),
        ("listin", "1:1 `listin` did you mean `listing`?"),
        ("Listing", "1:1 `Listing` did you mean `listing`?"),
        (
            "listing\nlisting",
            "2:1 `listing` a head inside of the listing => ",
        ),
    ];
    for (heads, expected) in rows {
        let mistakes = parse(&format!("{heads}\n{LISTING}")).unwrap_err();
        let told: Vec<String> = mistakes.all.iter().map(in_short).collect();
        assert_eq!(told, [expected]);
    }
    assert!(parse(&format!("listing\n{LISTING}")).is_ok());
}

/// Whatever is left out or doubled: a text is read, or mistakes are told in lines that it has.
#[test]
fn damaged_texts_have_mistakes_too() {
    let (mut read, mut mistaken) = (0, 0);
    for (old, new, _) in TABLE {
        let text: Vec<char> = LISTING.replacen(old, new, 1).chars().collect();
        for at in 0..text.len() {
            let without = [&text[..at], &text[at + 1..]].concat();
            let doubled = [&text[..=at], &text[at..]].concat();
            for damaged in [without, doubled] {
                let damaged = String::from_iter(damaged);
                let Err(mistakes) = parse_listing(&damaged) else {
                    read += 1;
                    continue;
                };
                mistaken += 1;
                let lines = damaged.lines().count();
                let is_within = |told: &Told| (1..=lines).contains(&told.mistake.line);
                assert!(mistakes.all.iter().all(is_within), "{damaged}{mistakes}");
                assert!(!mistakes.all.is_empty(), "{damaged}");
            }
        }
    }
    assert!(read > 20 && mistaken > 10_000, "{read} {mistaken}");
}

#[test]
fn no_last_line_end() {
    let mistakes = parse_listing("new(x)\nx := x.next").unwrap_err();
    let expected = "\
1 mistake

line 2, column 12: no line end: the last line of a listing ends with byte 10 too
    2 | x := x.next
      |            ^
right | x := x.next";
    assert_eq!(mistakes.to_string(), expected);
}

/// At the line that is beyond a limit; what is behind it isn't read.
#[test]
fn limits() {
    let rows = [
        (
            "while any\n",
            "if any\n".repeat(17),
            "18:1 `if` at most 16 `while` and `if` may be open at once",
        ),
        (
            "x := t\n",
            "x = a\nb = c\nd = e\nf = g\n".to_string(),
            "8:1 `f` a listing has at most 8 names",
        ),
        (
            "x := t\n",
            "x := t\n".repeat(60),
            "64:1 `x` a listing has at most 63 lines",
        ),
    ];
    for (old, new, expected) in rows {
        let told: Vec<String> = mistakes(old, &new).all.iter().map(in_short).collect();
        assert_eq!(told, [expected]);
    }
}
