//! Good and bad calls: words, input, exit status, and what standard output and standard error begin with or hold.

use crate::person::{reply, Person, COMMAND};
use std::env;
use std::fs;
use std::os::unix::fs::PermissionsExt;

const EMPTY: &[u8] = &[0, 0, 0, 3, 1, 0, 0];
const BREAK: &[u8] = &[0, 0, 0, 4, 1, 0, 1, 0];

/// A module of Return, Pop, Return.
const BEHIND: &[u8] = &[
    0, 0, 0, 24, 2, 0, 1, 0, 0, 0, 0, 1, 0, 0, 0, 0, 0, 0, 0, 0, 3, 33, 7, 33, 0, 0, 0, 0,
];

/// A module of Pop, Return: there is nothing to pop.
const FALLS: &[u8] = &[
    0, 0, 0, 23, 2, 0, 1, 0, 0, 0, 0, 1, 0, 0, 0, 0, 0, 0, 9, 0, 2, 7, 33, 0, 0, 0, 0,
];

/// `pass`, `if None: break`, `break`.
const TWICE: &[u8] = &[0, 0, 0, 13, 1, 0, 3, 2, 6, 0, 0, 1, 0, 0, 0, 0, 0];

const SAMPLES: [&str; 6] = ["casing", "lambdas", "loops", "papers", "spine", "unpack"];

/// Words, input, status, a part of standard output, a part of standard error.
type Call = (&'static str, &'static [u8], i32, &'static str, &'static str);

#[rustfmt::skip] // a line a call
const CALLS: &[Call] = &[
    // help
    ("--help", b"", 0, "usage: rulketoos COMMAND", ""),
    ("help", b"", 0, "  lower    ", ""),
    ("--version", b"", 0, "rulketoos 0.1.0\n", ""),
    ("lower --help", b"", 0, "Example", ""),
    ("lower --help", b"", 0, "  --console       lowers by the console's limits", ""),
    ("run samples/none.py --help", b"", 0, "--budget STEPS", ""),
    // wrong usage
    ("", b"", 2, "", "no command is given"),
    ("lover spine.py", b"", 2, "", "there is no command lover"),
    ("lower", b"", 2, "", "FILE is missing"),
    ("lower a.py b.py", b"", 2, "", "b.py is one word too many"),
    ("lower spine.py -o", b"", 2, "", "FILE is missing after -o"),
    ("lower spine.py -o a -o b", b"", 2, "", "-o is given twice"),
    ("lower spine.py --quickly", b"", 2, "", "there is no option --quickly"),
    ("lower spine.py --console=1", b"", 2, "", "--console takes no value"),
    ("lower --measured=1 spine.py", b"", 2, "", "--measured takes no value"),
    ("show spine.module --console", b"", 2, "", "spine.module is a module, and --console is for a script or a tree"),
    ("code spine.py", b"", 2, "", "FUNCTION is missing"),
    ("code spine.py main", b"", 2, "", "FUNCTION is a number"),
    ("reach spine.py 0", b"", 2, "", "PLACE is missing"),
    ("order spine.py", b"", 2, "", "OTHER is missing"),
    ("sort", b"", 2, "", "FILE.. is missing"),
    ("cut", b"", 2, "", "FILE is missing"),
    ("cut spine.py loops.py", b"", 2, "", "loops.py is one word too many"),
    ("cut spine.module", b"", 2, "", "spine.module is a module"),
    ("cut none.py", b"", 2, "", "none.py can't be read"),
    ("reach spine.py 0 end", b"", 2, "", "PLACE is a number"),
    ("reach spine.py 0 1 --run=1", b"", 2, "", "--run takes no value"),
    ("code spine.py 18446744073709551616", b"", 2, "", "FUNCTION is a number"),
    ("run loops.py 0 yes", b"", 2, "", "ANSWERS is a word of 0 and 1"),
    ("run loops.py 0 1 --budget=-1", b"", 2, "", "STEPS is a number"),
    // files that can't be read
    ("lower none.py", b"", 2, "", "none.py can't be read: No such file"),
    ("lower .", b"", 2, "", "can't be read: Is a directory"),
    ("lower spine.module", b"", 2, "", "spine.module is a module"),
    ("read spine.tree", b"", 2, "", "spine.tree is a tree"),
    ("read spine.py", b"", 2, "", "spine.py is a script"),
    ("lower /dev/zero", b"", 2, "", "/dev/zero has more than"),
    // done
    ("show spine.py", b"", 0, "PAGE      1\nfunction 0 __main__: 0 parameters, 0 slots, height ", ""),
    ("show spine.tree", b"", 0, "\nclass 0 Job: __init__ is function 3, case is function 4\n", ""),
    ("show --console spine.py", b"", 0, "class 0 Job", ""),
    ("show -", b"x = 1\n", 0, "StoreGlobal                        1      x\n", ""),
    ("show -", b"x = 'a\\n'\n", 0, "ConstStr                           0      \"a\\n\"\n", ""),
    ("show -", b"x = 0.11\n", 0, "ConstF64            3FBC28F5C28F5C29      0.11\n", ""),
    ("show loops.module", b"", 0, "to ", ""),
    ("list spine.py", b"", 0, "PAGE      1                                         \n    0     0 LoadConst", ""),
    ("list -", EMPTY, 0, "\n    0     0 Return                                  \n", ""),
    ("check spine.py", b"", 0, "accepted\n", ""),
    ("check -", EMPTY, 0, "accepted\n", ""),
    ("check -- spine.tree", b"", 0, "accepted\n", ""),
    ("read spine.module", b"", 0, "accepted\n", ""),
    ("run loops.module 0 1101", b"", 0, "ending: 1 (returned)\nsteps: 23\nanswers used: 3\nevents: 00", ""),
    ("run --budget 3 loops.py 0", b"", 0, "ending: 3 (budget spent)\nsteps: 3\n", ""),
    ("run - 0 --budget 0", EMPTY, 0, "events: -\n", ""),
    ("sheet loops.py", b"", 0, "\nTOTAL ", ""),
    ("sheet -", EMPTY, 0, "    0      1      0      0              \nTOTAL      1      0      0              \n", ""),
    ("sheet -", b"while a: print(b)\n", 0, "    0      7      1      1              \n", ""),
    ("reach loops.py 0 0", b"", 0, "answers: -\n", ""),
    ("reach - 0 2", b"while a: pass\n", 0, "answers: 1\n", ""),
    ("reach --run - 0 3", b"while a: pass\n", 0, "answers: 0\nending: 1 (returned)\nsteps: 3\nanswers used: 1\nevents: 0b00011d0021\n", ""),
    ("reach - 0 1 --run", BEHIND, 0, "none\n", ""),
    ("heights -", EMPTY, 0, "function 0: 0\n", ""),
    ("heights -", b"print([a, b], c)\n", 0, "function 0: 2\n", ""),
    ("heights -", BEHIND, 0, "function 0: 0\n", ""),
    ("heights loops.module", b"", 0, "function 0: ", ""),
    ("order loops.py spine.py", b"", 0, "before\n", ""),
    ("order - spine.py", b"pass\n", 0, "before\n", ""),
    ("order --console spine.py spine.tree", b"", 0, "equal\n", ""),
    ("order spine.py -", b"x = 1\n", 0, "after\n", ""),
    ("sort spine.py - spine.tree", b"x = 1\n", 0, "  -\n  spine.py\n= spine.tree\n", ""),
    ("cut spine.py", b"", 0, "not refused\n", ""),
    ("cut --console spine.tree", b"", 0, "not refused\n", ""),
    ("cut - -o none/cut.tree", EMPTY, 0, "not refused\n", ""),
    ("cut -", b"x = 1\nbreak\nx = 2\n", 0, ":2:1: refused 9: does each break and continue stand in a loop of its own function?\ntop statement 2 of 3:\n    2  break\n", ""),
    ("cut -", BREAK, 0, "standard input: byte 7: refused 9: does each break and continue stand in a loop of its own function?\ntop statement 1 of 1: byte 7\n", ""),
    ("cut -", TWICE, 0, "?\ntop statement 2 of 3: bytes 8 to 15\n", ""),
    ("cut - -o -", TWICE, 0, "\0\0\0\x0b\x01\0\x01\x06\0\0\x01\0\0\0\0", ""),
    // refused
    ("cut -", b"", 1, "", "standard input (taken for a tree): refused 3: has the tree four bytes"),
    ("cut -", &[0, 0, 0, 3, 2, 0, 0], 1, "", "refused 4: is the tree's next byte"),
    ("cut -", b"x += 1\n", 1, "", "standard input:1:1: an augmented assignment"),
    ("heights -", FALLS, 1, "", "standard input: refused 37: is each place"),
    ("check -", b"() = t\n", 1, "", "refused 36: is no target"),
    ("order spine.py -", b"break\n", 1, "", "standard input:1:1: refused 9: "),
    ("order - none.py", b"break\n", 2, "", "none.py can't be read"),
    ("sort spine.py -", b"break\n", 1, "", "standard input:1:1: refused 9: "),
    ("reach loops.py 9 0", b"", 1, "", "loops.py: refused 22: does the function exist?"),
    ("reach loops.py 0 65535", b"", 1, "", "loops.py: refused 34: is the place in the function?"),
    ("reach loops.py 0 18446744073709551615", b"", 1, "", "loops.py: refused 34"),
    ("reach - 0 0", b"", 1, "", "standard input (taken for a module): refused 17: is the module"),
    ("sheet -", b"", 1, "", "standard input (taken for a module): refused 17: is the module"),
    ("list -", b"", 1, "", "standard input (taken for a module): refused 17: is the module"),
    ("list -", b"break\n", 1, "", "standard input:1:1: refused 9: "),
    ("lower -", b"", 1, "", "standard input (taken for a tree): refused 3: has the tree four bytes"),
    ("read -", b"", 1, "", "standard input (taken for a module): refused 17: is the module"),
    ("check -", BREAK, 1, "", "standard input: byte 7: refused 9: does each break"),
    ("check -", &[0, 0, 0, 3, 2, 0, 0], 1, "", "refused 4: is the tree's next byte"),
    ("lower -", b"x += 1\n", 1, "", "standard input:1:1: an augmented assignment"),
    ("lower -", b"x = (1\n", 1, "", "standard input:1:5: "),
    ("code loops.py 9", b"", 1, "", "loops.py: refused 22: does the function exist?"),
    ("run loops.py 0 12", b"", 1, "", "loops.py: refused 23: is each answer 0 or 1?"),
    ("check -", b"\xef\xbb\xbfx = 1\r\nbreak\r\n", 1, "", "standard input:2:1: refused 9: "),
    ("show -", b"\xff\xfe\xfd", 1, "", "standard input (taken for a module): refused 17"),
];

#[test]
fn calls() {
    let person = Person::new();
    for &(words, input, status, out, said) in CALLS {
        let words: Vec<&str> = words.split_whitespace().collect();
        let reply = person.types(&words, input);
        let shown = String::from_utf8_lossy(&reply.out);
        assert_eq!(reply.status, status, "{words:?}: {reply:?}");
        assert!(shown.contains(out), "{words:?}: {reply:?}");
        assert!(reply.said.contains(said), "{words:?}: {reply:?}");
        // what is done is said on standard output alone, what isn't on standard error alone
        assert_eq!(shown.is_empty(), status != 0, "{words:?}: {reply:?}");
        assert_eq!(reply.said.is_empty(), status == 0, "{words:?}: {reply:?}");
    }
}

#[test]
fn every_command_has_help_with_an_example() {
    let person = Person::new();
    let overview = String::from_utf8(person.types(&["--help"], b"").out).expect("text");
    let names = overview.lines().filter_map(|line| line.strip_prefix("  "));
    let names: Vec<&str> = names.filter_map(|line| line.split(' ').next()).collect();
    assert!(names.len() >= 6, "{overview}");
    for name in names {
        let help = person.types(&[name, "--help"], b"");
        let text = String::from_utf8(help.out).expect("text");
        assert!(
            text.starts_with(&format!("usage: rulketoos {name} ")),
            "{text}"
        );
        let example = text.split("    rulketoos ").nth(1).expect("an example");
        let words: Vec<&str> = example.split_whitespace().collect();
        assert_eq!(words[0], name);
        assert_eq!(person.types(&words, b"").status, 0, "{example}");
    }
}

#[test]
fn samples_are_lowered() {
    let person = Person::new();
    for name in SAMPLES {
        let module = person.file(&format!("{name}.module")).expect("a sample");
        for kind in ["py", "tree"] {
            let file = format!("{name}.{kind}");
            for words in [&["lower", &file][..], &["lower", "--console", &file]] {
                let reply = person.types(words, b"");
                assert_eq!((reply.status, reply.out), (0, module.clone()), "{file}");
            }
        }
    }
}

/// The listing and the sheet of each sample; `show` has the same lines, with names.
#[test]
fn samples_are_listed_and_shown() {
    let person = Person::new();
    for name in SAMPLES {
        let listing = person.file(&format!("{name}.listing")).expect("a sample");
        let sheet = person.file(&format!("{name}.sheet")).expect("a sample");
        for kind in ["py", "tree", "module"] {
            for (word, text) in [("list", &listing), ("sheet", &sheet)] {
                let reply = person.types(&[word, &format!("{name}.{kind}")], b"");
                assert_eq!((reply.status, &reply.out), (0, text), "{name}.{kind}");
            }
        }
        let reply = person.types(&["show", &format!("{name}.module")], b"");
        let shown = String::from_utf8(reply.out).expect("text");
        let listing = String::from_utf8(listing).expect("text");
        let is_code = |line: &&str| !line.starts_with("function ") && !line.starts_with("class ");
        let shown: Vec<&str> = shown.lines().filter(is_code).collect();
        assert_eq!(shown.len(), listing.lines().count(), "{name}");
        for (shown, line) in shown.into_iter().zip(listing.lines()) {
            let note = shown.strip_prefix(line.trim_end());
            assert!(
                note.is_some_and(|note| note.is_empty() || note.starts_with(' ')),
                "{shown}"
            );
        }
    }
}

#[test]
fn notes_are_in_the_scripts_characters() {
    let shown = Person::new().types(&["show", "papers.py"], b"");
    let shown = String::from_utf8(shown.out).expect("text");
    for word in [
        "\"Büttenpapier\"",
        "\"和紙\"",
        "\"🗞\"",
        "\"vélin d'Arches\"",
    ] {
        assert!(shown.contains(word), "{shown}");
    }
}

/// 64 defs and main are more functions than the console takes.
#[test]
fn office_and_console() {
    let person = Person::new();
    let defs = |count| "def f():\n    pass\n".repeat(count);
    person.has("most.py", defs(63)).has("more.py", defs(64));
    let office = person.types(&["lower", "most.py"], b"");
    let console = person.types(&["lower", "--console", "most.py"], b"");
    assert_eq!((office.status, console.status), (0, 0));
    assert_eq!(office.out, console.out);
    assert_eq!(person.types(&["lower", "more.py"], b"").status, 0);
    for words in [
        &["lower", "--console", "more.py"][..],
        &["lower", "more.py", "--console", "-o", "more.module"],
        &["show", "more.py", "--console"],
    ] {
        let reply = person.types(words, b"");
        assert_eq!((reply.status, reply.out.len()), (1, 0), "{words:?}");
        let said = "more.py: refused 15: are there at most 256 functions";
        assert!(reply.said.starts_with(said), "{}", reply.said);
        assert!(reply
            .said
            .contains("(at the console 64, 256, 512, 64, 2,048)?"));
    }
    assert_eq!(person.file("more.module"), None);
}

/// Both lowerings write the same module, and refuse by the same question at the same place.
#[test]
fn measured_lowers_the_same() {
    let person = Person::new();
    person.has("loose.py", "for x in y:\n    pass\nbreak\n");
    person.has("more.py", "def f():\n    pass\n".repeat(64));
    let samples = SAMPLES.map(|sample| format!("{sample}.py"));
    for file in samples
        .iter()
        .map(String::as_str)
        .chain(["loose.py", "more.py"])
    {
        for set in [&[][..], &["--console"]] {
            let plain = [&["lower", file][..], set].concat();
            let measured = [&["lower", "--measured", file][..], set].concat();
            let (one, other) = (person.types(&plain, b""), person.types(&measured, b""));
            assert_eq!(
                (one.status, one.out, one.said),
                (other.status, other.out, other.said),
                "{measured:?}"
            );
        }
    }
}

/// A script, and the lines of it that remain, with what stands before them.
const CUTS: [(&str, &str); 6] = [
    // comments and blank lines between statements are no part of one
    (
        "x = 1\n\n# why\nwhile a:\n    def f():\n\n        break  # out\n\n# end\nbreak\n",
        ":7:9: refused 9: \ntop statement 2 of 3:\n    4  while a:\n    5      def f():\n    6  \n    7          break  # out\n",
    ),
    // two statements in a line
    ("a = 1; break; b = 2\n", ":1:8: refused 9: \ntop statement 2 of 3:\n    1  a = 1; break; b = 2\n"),
    // a statement of several lines; an escape that a terminal would obey
    (
        "pass\r\nx = ('\x1b[2J',\r\n  __for_iter_2__\r\n)\r\npass\r\n",
        ":3:3: refused 33: \ntop statement 2 of 3:\n    2  x = ('\\u{1b}[2J',\n    3    __for_iter_2__\n    4  )\n",
    ),
    ("x = \"\"\"\n# \"\"\", [lambda a, a: a]\n# end\n", ":2:19: refused 11: \ntop statement 1 of 1:\n    1  x = \"\"\"\n    2  # \"\"\", [lambda a, a: a]\n"),
    // the earlier question, wherever it is
    ("break\nx = 'é'\né = 1\n", ":3:1: refused 7: \ntop statement 3 of 3:\n    3  é = 1\n"),
    ("\u{feff}() = t\n", ":1:1: refused 36: \ntop statement 1 of 1:\n    1  () = t\n"),
];

#[test]
fn lines_that_remain() {
    let person = Person::new();
    for (script, wanted) in CUTS {
        person.has("refused.py", script);
        let reply = person.types(&["cut", "refused.py"], b"");
        let text = String::from_utf8(reply.out).expect("text");
        let (told, lines) = text.split_once('\n').expect("lines");
        let place = told.split_inclusive(": ").take(2).collect::<String>();
        let shown = format!("{}\n{lines}", place.trim_start_matches("refused.py"));
        assert_eq!((reply.status, shown.as_str()), (0, wanted), "{text}");
    }
}

/// 70 defs are too many for the console, 64 of them are enough; `def f` makes the calls of `f` shorter.
#[test]
fn runs_that_remain() {
    let person = Person::new();
    let defs = "x = 1\n".to_string() + &"def g(): pass\n".repeat(70);
    let calls = format!("def f(): pass\n{}", "f(); f(); f(); f()\n".repeat(270));
    person.has("defs.py", defs).has("calls.py", calls);
    assert_eq!(person.types(&["cut", "defs.py"], b"").out, b"not refused\n");
    for (file, head, lines) in [
        (
            "defs.py",
            "\ntop statements 2 to 65 of 71:\n    2  def g(): pass\n",
            66,
        ),
        (
            "calls.py",
            "\ntop statements 2 to 684 of 1081:\n    2  f(); f(); f(); f()\n",
            173,
        ),
    ] {
        let reply = person.types(&["cut", "--console", file], b"");
        let text = String::from_utf8(reply.out).expect("text");
        assert_eq!(reply.status, 0, "{}", reply.said);
        assert!(text.starts_with(&format!("{file}: refused 15: ")), "{text}");
        assert!(text.contains(head), "{text}");
        assert_eq!(text.lines().count(), lines);
        let written = person.types(&["cut", "--console", file, "-o", "cut.tree"], b"");
        assert_eq!((written.status, written.out.len()), (0, 0));
        let again = person.types(&["cut", "--console", "cut.tree", "-o", "-"], b"");
        assert_eq!(Some(again.out), person.file("cut.tree"));
        let lowered = person.types(&["lower", "--console", "cut.tree"], b"");
        assert!(
            lowered.said.starts_with("cut.tree: refused 15: "),
            "{}",
            lowered.said
        );
    }
}

#[test]
fn code_is_a_part_of_the_module() {
    let person = Person::new();
    let module = person.file("spine.module").expect("a sample");
    for (function, number) in ["0", "1", "2"].into_iter().zip(0..) {
        let reply = person.types(&["code", "spine.py", function], b"");
        assert_eq!(
            (reply.status, &reply.out[..]),
            (0, rulketoos::code(&module, number).expect("a function"))
        );
    }
}

/// The places of a sample: `run` uses all the answers that `reach` gives. The end of an if isn't reached behind a continue or a break.
#[test]
fn places_of_a_sample() {
    let person = Person::new();
    let sheet = String::from_utf8(person.file("loops.sheet").expect("a sample")).expect("text");
    let length: u64 = sheet[6..12].trim_start().parse().expect("a number");
    let mut none = Vec::new();
    for place in 0..length {
        let reply = person.types(&["reach", "loops.module", "0", &place.to_string()], b"");
        let text = String::from_utf8(reply.out).expect("text");
        let Some(answers) = text.trim_end().strip_prefix("answers: ") else {
            assert_eq!(text, "none\n");
            none.push(place);
            continue;
        };
        let mut words = vec!["run", "loops.module", "0"];
        words.extend((answers != "-").then_some(answers));
        let run = String::from_utf8(person.types(&words, b"").out).expect("text");
        let used = if answers == "-" { 0 } else { answers.len() };
        assert!(
            run.contains(&format!("answers used: {used}\n")),
            "{place}: {run}"
        );
    }
    assert_eq!(none, [16, 33]);
}

#[test]
fn one_tool_reads_all_scripts() {
    let person = Person::new();
    let count = "#!/bin/sh\necho >>starts\nPATH=${PATH#.:}\nexec python3 \"$@\"\n";
    person.has("python3", count);
    let mode = fs::Permissions::from_mode(0o755);
    fs::set_permissions(person.folder.join("python3"), mode).expect("a mode");
    let names: Vec<String> = (0..40).map(|number| format!("{number}.py")).collect();
    for name in &names {
        person.has(name, format!("x = {}\n", name.len()));
    }
    let mut words = vec!["sort"];
    words.extend(names.iter().map(String::as_str));
    let path = format!(".:{}", env::var("PATH").expect("a PATH"));
    let sorted = |words: &[&str]| reply(person.command(COMMAND, words).env("PATH", &path), b"");
    let all = sorted(&words);
    assert_eq!((all.status, all.said.as_str()), (0, ""));
    assert_eq!(all.out.iter().filter(|&&byte| byte == b'=').count(), 38);
    assert_eq!(person.file("starts").expect("the starts"), b"\n");
    person.has("20.py", "x = (\n");
    let unfit = sorted(&words);
    assert_eq!((unfit.status, unfit.out.len()), (1, 0));
    assert!(unfit.said.starts_with("20.py:1:5: "), "{}", unfit.said);
}

#[test]
fn missing_tools_are_told() {
    let person = Person::new();
    let without = reply(
        person
            .command(COMMAND, &["show", "spine.py"])
            .env("PATH", "."),
        b"",
    );
    assert_eq!(without.status, 2);
    assert!(
        without.said.contains("python3 is missing"),
        "{}",
        without.said
    );
    let tree = reply(
        person
            .command(COMMAND, &["lower", "spine.tree"])
            .env("PATH", "."),
        b"",
    );
    assert_eq!(
        (tree.status, Some(tree.out)),
        (0, person.file("spine.module"))
    );
    let elsewhere = reply(
        person
            .command(COMMAND, &["show", "spine.py"])
            .env("RULKETOOS_TOOLS", "."),
        b"",
    );
    assert_eq!(elsewhere.status, 2);
    assert!(
        elsewhere
            .said
            .contains("RULKETOOS_TOOLS is ., which has no tree_of.py"),
        "{}",
        elsewhere.said
    );
}
