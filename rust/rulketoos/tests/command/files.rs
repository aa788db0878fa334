//! Files: outputs that are whole or aren't there, full disks, closed pipes, lengths at the limits.

use crate::person::{reply, Person, COMMAND};
use std::fs::{self, File};
use std::os::unix::fs::{symlink, PermissionsExt};
use std::process::{ChildStdin, Command, Stdio};

#[test]
fn an_output_is_whole() {
    let person = Person::new();
    let module = person.file("spine.module");
    let before = person.count();
    let reply = person.types(&["lower", "spine.py", "-o", "new.module"], b"");
    assert_eq!(
        (reply.status, reply.out.len(), reply.said),
        (0, 0, String::new())
    );
    assert_eq!(
        (person.file("new.module"), person.count()),
        (module.clone(), before + 1)
    );
    // over an old one, whose permissions stay; over its own input; to standard output
    let mode = |name: &str| {
        person
            .folder
            .join(name)
            .metadata()
            .expect("a file")
            .permissions()
            .mode()
            & 0o777
    };
    fs::set_permissions(
        person.folder.join("new.module"),
        PermissionsExt::from_mode(0o640),
    )
    .expect("a mode");
    person.types(&["lower", "-o=new.module", "loops.tree"], b"");
    assert_eq!(
        (person.file("new.module"), mode("new.module")),
        (person.file("loops.module"), 0o640)
    );
    person.types(&["lower", "spine.tree", "-o", "spine.tree"], b"");
    assert_eq!(
        (person.file("spine.tree"), person.count()),
        (module, before + 1)
    );
    assert_eq!(
        person.types(&["lower", "loops.tree", "-o", "-"], b"").out,
        person.file("loops.module").expect("a sample")
    );
    for (word, old, new) in [
        ("list", "loops.listing", "new.listing"),
        ("sheet", "loops.sheet", "new.sheet"),
    ] {
        let reply = person.types(&[word, "loops.py", "-o", new], b"");
        assert_eq!((reply.status, reply.out.len()), (0, 0));
        assert_eq!(person.file(new), person.file(old));
    }
}

#[test]
fn a_link_stays_one() {
    let person = Person::new();
    person.has("old.module", "as it was");
    symlink("old.module", person.folder.join("link.module")).expect("a link");
    let reply = person.types(&["lower", "spine.py", "-o", "link.module"], b"");
    assert_eq!(reply.status, 0, "{}", reply.said);
    assert_eq!(person.file("old.module"), person.file("spine.module"));
    assert!(person.folder.join("link.module").is_symlink());
}

#[test]
fn kinds_are_told_by_bytes_then_by_name() {
    let person = Person::new();
    let sample = |name| person.file(name).expect("a sample");
    person
        .has("tree.py", sample("spine.tree"))
        .has("module", sample("spine.module"));
    person
        .has("script.txt", "break\n")
        .has("script.tree", "break\n")
        .has("noise", [0, 1, 2]);
    for (words, status, told) in [
        (["check", "tree.py"], 0, ""),
        (["read", "module"], 0, ""),
        (["lower", "module"], 2, "module is a module"),
        (["check", "script.txt"], 1, "script.txt:1:1: refused 9"),
        (["check", "script.tree"], 1, "script.tree: refused 3"),
        (["check", "noise"], 1, "noise (taken for a tree): refused 3"),
        (
            ["read", "noise"],
            1,
            "noise (taken for a module): refused 17",
        ),
        (
            ["show", "noise"],
            1,
            "noise (taken for a module): refused 17",
        ),
    ] {
        let reply = person.types(&words, b"");
        assert_eq!(reply.status, status, "{words:?}: {}", reply.said);
        assert!(reply.said.contains(told), "{words:?}: {}", reply.said);
    }
}

#[test]
fn a_refusal_writes_nothing() {
    let person = Person::new();
    person
        .has("loose.py", "break\n")
        .has("old.module", "as it was");
    let before = person.count();
    for output in ["old.module", "new.module"] {
        let reply = person.types(&["lower", "loose.py", "-o", output], b"");
        assert_eq!((reply.status, reply.out.len()), (1, 0));
    }
    assert_eq!(
        (person.file("old.module"), person.count()),
        (Some(b"as it was".to_vec()), before)
    );
}

#[test]
fn full_disks() {
    let person = Person::new();
    person.has("old.module", "as it was");
    let before = person.count();
    for words in [
        &["lower", "spine.py"][..],
        &["show", "spine.py"],
        &["list", "spine.py"],
        &["check", "spine.py"],
        &["--help"],
    ] {
        let full = File::create("/dev/full").expect("/dev/full");
        let done = person
            .command(COMMAND, words)
            .stdout(full)
            .output()
            .expect("it ends");
        let said = String::from_utf8_lossy(&done.stderr);
        assert_eq!(done.status.code(), Some(2), "{words:?}");
        assert!(
            said.contains("standard output can't be written: No space left"),
            "{said}"
        );
    }
    let device = person.types(&["lower", "spine.py", "-o", "/dev/full"], b"");
    assert_eq!(device.status, 2);
    assert!(
        device
            .said
            .contains("/dev/full can't be written: No space left"),
        "{}",
        device.said
    );
    // a disk without a byte left, for this one process
    let script = "trap '' XFSZ; ulimit -f 0; exec \"$0\" \"$@\"";
    for output in ["old.module", "new.module"] {
        let words = ["-c", script, COMMAND, "lower", "spine.py", "-o", output];
        let limited = reply(&mut person.command("sh", &words), b"");
        assert_eq!(limited.status, 2, "{}", limited.said);
        assert!(
            limited.said.contains("can't be written"),
            "{}",
            limited.said
        );
    }
    assert_eq!(
        (person.file("old.module"), person.count()),
        (Some(b"as it was".to_vec()), before)
    );
}

/// A pipe that nobody reads any more.
fn closed() -> ChildStdin {
    let mut reader = Command::new("true")
        .stdin(Stdio::piped())
        .spawn()
        .expect("true");
    let pipe = reader.stdin.take().expect("its input");
    reader.wait().expect("it ends");
    pipe
}

#[test]
fn closed_pipes() {
    let person = Person::new();
    for words in [
        &["show", "spine.py"][..],
        &["list", "spine.py"],
        &["lower", "spine.py"],
        &["--help"],
    ] {
        let done = person
            .command(COMMAND, words)
            .stdout(closed())
            .output()
            .expect("it ends");
        assert_eq!(
            (done.status.code(), done.stderr.len()),
            (Some(2), 0),
            "{words:?}"
        );
    }
    // nobody reads what went wrong either
    let mut command = person.command(COMMAND, &["lower", "none.py"]);
    let done = command
        .stdin(Stdio::null())
        .stderr(closed())
        .output()
        .expect("it ends");
    assert_eq!(done.status.code(), Some(2));
}

#[test]
fn outputs_that_cannot_be() {
    let person = Person::new();
    for output in ["none/new.module", ".", "/"] {
        let reply = person.types(&["lower", "spine.py", "-o", output], b"");
        assert_eq!(reply.status, 2, "{output}: {}", reply.said);
        assert!(reply.said.contains("can't be written"), "{}", reply.said);
    }
}

/// A tree of so many bytes: a string statement, and `pass` to the end.
fn tree(length: usize) -> Vec<u8> {
    let passes = length - 7;
    let mut tree = u32::try_from(length - 4)
        .expect("small")
        .to_be_bytes()
        .to_vec();
    tree.push(1);
    tree.extend(u16::try_from(passes).expect("small").to_be_bytes());
    tree.extend(vec![2; passes]);
    tree
}

#[test]
fn lengths_at_the_limit() {
    let person = Person::new();
    person
        .has("most.tree", tree(32_768))
        .has("more.tree", tree(32_769));
    assert_eq!(person.types(&["check", "most.tree"], b"").status, 0);
    assert_eq!(person.types(&["check", "-"], &tree(32_768)).status, 0);
    let more = person.types(&["lower", "more.tree"], b"");
    assert_eq!((more.status, more.out.len()), (1, 0));
    assert!(
        more.said.starts_with("more.tree: refused 2: "),
        "{}",
        more.said
    );
    let more = person.types(&["lower", "-"], &tree(32_769));
    assert!(
        more.said
            .starts_with("standard input (taken for a tree): refused 2: "),
        "{}",
        more.said
    );
    // a script's text may be longer than its tree
    let commented = format!("#{}\n", "-".repeat(100_000));
    assert_eq!(
        person.types(&["check", "-"], commented.as_bytes()).status,
        0
    );
    let long = person.types(&["check", "-"], "pass\n".repeat(32_762).as_bytes());
    assert!(
        long.said.starts_with("standard input: refused 2: "),
        "{}",
        long.said
    );
    person
        .has("empty.py", "")
        .has("empty.tree", "")
        .has("empty.module", "");
    assert_eq!(person.types(&["check", "empty.py"], b"").status, 0);
    let empty = person.types(&["check", "empty.tree"], b"");
    assert!(
        empty.said.starts_with("empty.tree: refused 3: "),
        "{}",
        empty.said
    );
    let empty = person.types(&["read", "empty.module"], b"");
    assert!(
        empty.said.starts_with("empty.module: refused 17: "),
        "{}",
        empty.said
    );
}
