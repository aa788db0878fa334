//! Where a question is answered no: line and column of a script, the byte of a tree.

use crate::person::{root, Person};
use std::fs;

/// A script, the question that refuses it, and the first place.
#[rustfmt::skip] // a line a script
fn scripts() -> Vec<(String, u32, &'static str)> {
    let long = "a".repeat(65);
    let many = |what: &str| (0..256).map(|n| format!("{what}{n}")).collect::<Vec<_>>().join(", ");
    let few = |text: &str, question, place| (text.to_string(), question, place);
    vec![
        (format!("pass\nx = {long}\n"), 7, "2:5"),
        (format!("class C:\n    {long} = 1\n    def m(self):\n        {long}\n"), 7, "2:5"),
        (format!("def f(a, {long}): pass\n"), 7, "1:10"),
        (format!("if a:\n    class {long}: pass\n"), 7, "2:11"),
        (format!("x = 'é' + o.{long}\n"), 7, "1:13"),
        few("x = 1\né = 2\n", 7, "2:1"),
        few("x = 'é'\nx.__for_iter_2__ = 1\n", 33, "2:3"),
        few("class C:\n    __for_iter_2__ = 1\n", 33, "2:5"),
        few("x = 1\nprint('é', '\\ud800')\n", 8, "2:12"),
        few("class C:\n    x = ['é', '\\ud800']\n", 8, "2:15"),
        few("while a:\n    def f():\n        break\n", 9, "3:9"),
        few("while a:\n    break\ncontinue\nbreak\n", 9, "3:1"),
        few("if a:\n    pass\nelif b:\n    pass\nelse:\n    break\n", 9, "6:5"),
        few("class C:\n    def m(self):\n        for i in r:\n            pass\n        continue\n", 9, "5:9"),
        few("a, (b, c[0]) = t\n", 10, "1:8"),
        few("a.b = c\n[a] = t\n", 10, "2:1"),
        few("def f(a, b, a): pass\n", 11, "1:13"),
        few("x = [1, lambda b, b: 1]\n", 11, "1:19"),
        few("class C:\n    x = lambda a, a: 1\n", 11, "2:19"),
        few("def __init__(): pass\nclass C:\n    def __init__():\n        pass\n", 12, "3:9"),
        (format!("x = f({})\n", many("a")), 13, "1:5"),
        (format!("def f({}): pass\n", many("a")), 13, "1:5"),
        (format!("x = [lambda {}: 1]\n", many("a")), 13, "1:6"),
        // the first question, wherever it is
        few("def f(a, a):\n    pass\nbreak\n", 9, "3:1"),
    ]
}

#[test]
fn lines_and_columns() {
    let person = Person::new();
    for (script, question, place) in scripts() {
        person.has("refused.py", &script);
        for command in ["check", "lower", "show"] {
            let reply = person.types(&[command, "refused.py"], b"");
            assert_eq!((reply.status, reply.out.len()), (1, 0), "{script}");
            let said = format!("refused.py:{place}: refused {question}: ");
            assert!(reply.said.starts_with(&said), "{said}{}", reply.said);
        }
    }
}

fn bytes(hex: &str) -> Vec<u8> {
    let pairs = hex
        .as_bytes()
        .chunks_exact(2)
        .map(|pair| std::str::from_utf8(pair).expect("text"));
    pairs
        .map(|pair| u8::from_str_radix(pair, 16).expect("hexadecimal"))
        .collect()
}

/// Each tree among the vectors that is refused by 7 to 13 has a place, and of the kind that its question speaks of.
#[test]
fn bytes_of_trees() {
    let person = Person::new();
    let vectors = fs::read_to_string(root().join("tests/vectors/trees.txt")).expect("the vectors");
    let mut seen = [0; 34];
    for line in vectors.lines() {
        let [name, tree, answer] = line.split('\t').collect::<Vec<_>>()[..] else {
            panic!("a line of three fields: {line}");
        };
        let number = answer
            .strip_prefix("refused ")
            .and_then(|number| number.parse::<usize>().ok());
        let Some(number @ (7..=13 | 33)) = number else {
            continue;
        };
        let tree = bytes(tree);
        let reply = person.types(&["check", "-"], &tree);
        let rest = reply
            .said
            .strip_prefix("standard input: byte ")
            .expect("a byte");
        let (byte, said) = rest.split_once(": ").expect("a byte");
        let byte = tree[byte.parse::<usize>().expect("a number")];
        assert!(
            said.starts_with(&format!("refused {number}: ")),
            "{name}: {}",
            reply.said
        );
        assert!(number != 8 || byte == 5, "{name}: a string");
        assert!(number != 9 || byte < 2, "{name}: break or continue");
        assert!(number != 10 || byte != 6, "{name}: a target that is none");
        assert!(number != 12 || byte == 8, "{name}: the name __init__");
        seen[number] += 1;
    }
    assert!(
        seen[7..14]
            .iter()
            .chain([&seen[33]])
            .all(|&count| count > 0),
        "{seen:?}"
    );
}
