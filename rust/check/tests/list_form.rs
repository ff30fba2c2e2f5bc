//! The form of the lists of `tests/linux`. A line that is passed over, or half understood, would
//! look like one that held.

use shootspiral_check::compare::ROOM;
use shootspiral_check::model::Model;
use shootspiral_check::recorded::{Entry, Linux, List, Reply};
use shootspiral_check::replay::{mismatches, replay};
use shootspiral_check::{Call, Calls};

fn parse(line: &str) -> Option<Entry> {
    let list = List::parse(&format!("fresh 1\n{line}\n")).ok()?;
    list.cases.into_iter().next()?.entries.into_iter().next()
}

#[test]
fn calls_are_understood() {
    let (file, line) = (b"pids.max".to_vec(), b"7".to_vec());
    let rows = [
        ("make 1 2 3", Call::Make { user: 1, parent: 2, group: 3 }),
        ("remove 1 2", Call::Remove { user: 1, group: 2 }),
        ("handover 1 2 3", Call::HandOver { user: 1, group: 2, owner: 3 }),
        (r#"procs 1 2 "7""#, Call::WriteProcs { user: 1, group: 2, line: line.clone() }),
        (r#"control 1 2 "7""#, Call::WriteSubtreeControl { user: 1, group: 2, line: line.clone() }),
        (
            r#"set 1 2 pids.max "7""#,
            Call::WriteSetting { user: 1, group: 2, file: file.clone(), line },
        ),
        ("admit 1 2", Call::Admit { process: 1, user: 2 }),
        ("fork 1 2", Call::Fork { parent: 1, process: 2 }),
        ("exit 1", Call::Exit { process: 1 }),
        ("collect 1", Call::Collect { process: 1 }),
        ("charge 1 2", Call::Charge { process: 1, pages: 2 }),
        ("release 1 2", Call::Release { group: 1, pages: 2 }),
        ("read 1 pids.max", Call::Read { group: 1, file: file.clone(), room: ROOM }),
        ("read 1 pids.max 5", Call::Read { group: 1, file, room: 5 }),
        ("member 1", Call::Membership { process: 1, room: ROOM }),
        ("member 1 5", Call::Membership { process: 1, room: 5 }),
    ];
    for (text, call) in rows {
        let entry = parse(&format!("{text} = 3")).unwrap_or_else(|| panic!("{text}"));
        assert_eq!((entry.call, entry.reply.number, entry.line), (call, 3, 2));
    }
}

#[test]
fn replies_are_understood() {
    let reply = |number, group, text: Option<&[u8]>| Reply {
        number,
        group,
        text: text.map(<[u8]>::to_vec),
    };
    let rows = [
        ("make 0 0 1 = 11", reply(11, None, None)),
        ("fork 1 2 = 11 group 3", reply(11, Some(3), None)),
        ("charge 1 2 = 12 group 0", reply(12, Some(0), None)),
        ("charge 1 2 = 0", reply(0, None, None)),
        (r#"read 0 cgroup.procs = 0 "1\n""#, reply(0, None, Some(b"1\n"))),
        (r#"member 1 = 0 "\"\\\/\b\f\n\r\t""#, reply(0, None, Some(b"\"\\/\x08\x0c\n\r\t"))),
        (r#"member 1 = 0 "\u0000\u00a0é""#, reply(0, None, Some(b"\0\xa0\xe9"))),
    ];
    for (text, reply) in rows {
        assert_eq!(parse(text).unwrap_or_else(|| panic!("{text}")).reply, reply);
    }
    let differing = parse("exit 1 = 3 | Linux 0 | order 5").expect("of the form");
    let linux = Some(Linux::Replies(reply(0, None, None)));
    assert_eq!((differing.linux, differing.order), (linux, Some(5)));
    let differing = parse("exit 1 = 3 | Linux (does | this)").expect("of the form");
    let linux = Some(Linux::Does("does | this".into()));
    assert_eq!((differing.linux, differing.order), (linux, None));
}

/// A reply is printed as a list has it.
#[test]
fn replies_are_printed() {
    for text in ["3", "0"] {
        let entry = parse(&format!("exit 1 = {text}")).unwrap_or_else(|| panic!("{text}"));
        assert_eq!(entry.reply.to_string(), text);
    }
    for text in ["12 group 3", "0"] {
        let entry = parse(&format!("charge 1 2 = {text}")).unwrap_or_else(|| panic!("{text}"));
        assert_eq!(entry.reply.to_string(), text);
    }
    for text in [r#"0 "a b\n""#, r#"0 "\"\\\t\u0000\u00e9'""#, r#"0 """#, "28"] {
        let entry = parse(&format!("member 1 = {text}")).unwrap_or_else(|| panic!("{text}"));
        assert_eq!(entry.reply.to_string(), text);
    }
}

/// What is wrong with a file.
fn error(file: &str) -> String {
    List::parse(file).err().unwrap_or_else(|| panic!("accepted:\n{file}")).to_string()
}

#[test]
fn other_lines_are_refused() {
    let too_long = format!("a buffer has {ROOM} bytes at most");
    let rows = [
        ("mkae 0 0 1 = 0", "\"mkae\" is no call"),
        ("make 0 0 = 0", "expected a number, found ="),
        ("make 0 0 1 2 = 0", "expected =, found 2"),
        ("make 0 0 1", "expected =, found the end of the line"),
        ("make 0 0 1 =", "expected a number, found the end of the line"),
        ("make 0 0 1 = 0 0", "expected the end of the line, found 0"),
        ("make 0 0 1 = EINVAL", "expected a number, found EINVAL"),
        ("make +0 0 1 = 0", "expected a number, found +0"),
        ("make 4294967296 0 1 = 0", "4294967296 is too large"),
        ("make 0 0 1 = 11 group 0", "expected the end of the line, found group"),
        ("fork 1 2 = 11", "expected group, found the end of the line"),
        ("fork 1 2 = 11 group", "expected a number, found the end of the line"),
        ("fork 1 2 = 12 group 3", "expected the end of the line, found group"),
        ("fork 1 2 = 0 group 3", "expected the end of the line, found group"),
        ("charge 1 2 = 12", "expected group, found the end of the line"),
        ("read 0 cgroup.procs = 0", "expected a text in quotes, found the end of the line"),
        ("read 0 = 2", "expected the name of a file, without quotes, found ="),
        ("read 0 cgroup.procs large = 28", "expected a number, found large"),
        (&format!("read 0 cgroup.procs {} = 28", ROOM + 1), &too_long),
        (r#"read 0 cgroup.procs = 2 "1""#, r#"expected the end of the line, found "1""#),
        (r#"read 0 cgroup.procs = 0 "1"#, "a quote is open"),
        (r#"read 0 cgroup.procs = 0 "1"2"#, "expected a space before 2"),
        (r#"read 0 cgroup.procs = 0 "\x01""#, r"no escape: \x"),
        (r#"read 0 cgroup.procs = 0 "\u01""#, r#"\u01" is no byte"#),
        (r#"read 0 cgroup.procs = 0 "\u+0a1""#, r"\u+0a1 is no byte"),
        (r#"read 0 cgroup.procs = 0 "\ud800""#, r"\ud800 is no byte"),
        (r#"read 0 cgroup.procs = 0 "\u0100""#, "'Ā' is no byte"),
        ("read 0 cgroup.procs = 0 \"\t\"", r"write '\t' as an escape"),
        ("procs 0 1 10 = 0", "expected a text in quotes, found 10"),
        (r#"set 0 1 "a" "1" = 0"#, r#"expected the name of a file, without quotes, found "a""#),
        ("exit 1 = 3 | Linux 3", "Linux replies the same"),
        ("exit 1 = 3 | Linux", "expected a number, found the end of the line"),
        ("exit 1 = 3 | Linux ( )", "expected words in the brackets"),
        ("exit 1 = 3 | Linux (does this", "a bracket is open"),
        ("exit 1 = 3 | order 5", "expected Linux, found order"),
        ("exit 1 = 3 | Linux 0 | order 0", "document 02 has orders 1 to 14"),
        ("exit 1 = 3 | Linux 0 | order 15", "document 02 has orders 1 to 14"),
        ("exit 1 = 3 | Linux 0 | order 5 | order 6", "expected the end of the line, found |"),
        ("exit 1 = 3 | Linux 0 | Linux 2", "expected order, found Linux"),
        ("exit 1 = 3 # words", "expected the end of the line, found #"),
        ("fresh 2", "expected ## and a name before another case"),
    ];
    for (line, why) in rows {
        let error = error(&format!("fresh 1\nexit 1 = 3\n{line}\n"));
        assert_eq!(error, format!("line 3: {line}\n    {why}"));
    }
}

#[test]
fn cases_are_whole() {
    let good = "# words\n\n## one\nfresh 1\nexit 1 = 3\n## two\n# words\nfresh 2\nexit 1 = 3\n";
    let list = List::parse(good).unwrap_or_else(|error| panic!("{error}"));
    let cases: Vec<_> = list.cases.iter().map(|case| (case.name.as_str(), case.pages)).collect();
    assert_eq!(cases, [("one", 1), ("two", 2)]);
    let one = "## one\nfresh 1\nexit 1 = 3\n";
    let rows = [
        ("", "line 0: the end\n    there are no calls above"),
        ("# words\n", "line 1: the end\n    there are no calls above"),
        ("fresh 1\n", "line 1: the end\n    there are no calls above"),
        ("fresh\n", "line 1: fresh\n    expected a number, found the end of the line"),
        (
            "fresh 1 = 0\nexit 1 = 3\n",
            "line 1: fresh 1 = 0\n    expected the end of the line, found =",
        ),
        ("fresh 1 disk\n", "line 1: fresh 1 disk\n    expected the end of the line, found disk"),
        (
            "fresh 1 pids cpu\n",
            "line 1: fresh 1 pids cpu\n    expected the end of the line, found cpu",
        ),
        ("exit 1 = 3\n", "line 1: exit 1 = 3\n    expected a fresh tree first"),
        ("## one\nexit 1 = 3\n", "line 2: exit 1 = 3\n    expected a fresh tree first"),
        ("##one\n", "line 1: ##one\n    expected a space and a name after ##"),
        ("## \n", "line 1: ## \n    expected a space and a name after ##"),
        ("## one\n## two\n", "line 2: ## two\n    there are no calls above"),
        ("## one\nfresh 1\n## two\n", "line 3: ## two\n    there are no calls above"),
        ("fresh 1\nexit 1 = 3\n## two\n", "line 3: ## two\n    a case above has no name"),
        (&format!("{one}## two\n"), "line 4: the end\n    there are no calls above"),
        (
            &format!("{one}## two\nexit 1 = 3\n"),
            "line 5: exit 1 = 3\n    expected a fresh tree first",
        ),
        (&format!("{one}## one\n"), "line 4: ## one\n    a case above has this name"),
        (
            &format!("{one}fresh 1\n"),
            "line 4: fresh 1\n    expected ## and a name before another case",
        ),
    ];
    for (file, expected) in rows {
        assert_eq!(error(file), expected);
    }
}

/// Where controllers stand behind `fresh`, those of the root are told without others; no other text
/// is told otherwise.
#[test]
fn controllers_of_the_root_are_cut() {
    let list = |fresh: &str, names: &str| {
        let file = format!(
            r#"{fresh}
               make 0 0 1 = 0
               control 0 0 "+cpu +pids" = 0
               read 0 cgroup.subtree_control = 0 "cpu pids\n"
               read 1 cgroup.controllers = 0 "cpu pids\n"
               read 0 cgroup.controllers = 0 "{names}""#
        );
        List::parse(&file).unwrap_or_else(|error| panic!("{error}"))
    };
    let rows = [
        ("fresh 1 cpu memory pids", r"cpu memory pids\n"),
        ("fresh 1 cpu pids", r"cpu pids\n"),
        ("fresh 1 memory", r"memory\n"),
    ];
    let texts = rows.map(|(_, names)| names);
    for (fresh, names) in rows {
        assert!(replay(&list(fresh, names), Model::fresh).is_ok(), "{fresh}");
        for others in texts.into_iter().chain([r"pids cpu\n", "memory", r" memory\n", ""]) {
            let list = list(fresh, others);
            let expected = usize::from(others != names);
            assert_eq!(mismatches(&list, Model::fresh).len(), expected, "{fresh}: {others}");
        }
    }
}
