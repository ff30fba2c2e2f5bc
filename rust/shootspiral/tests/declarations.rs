//! `include/shootspiral.h` and `src/sys.rs` declare what `crates/shootspiral_c` exports: names,
//! arguments in order, types, results. From each exported function the declarations in C and in Rust
//! are written out, and compared as text with those of the two files. It calls the function of its
//! name in `crates/shootspiral` and states the same clauses. A number that the body there takes for
//! a group or a process, as in `GroupId(parent)`, has to be declared as one. The promise of each
//! call on a tree, which the theorem of `crates/demands` stands on, is written out and compared too.

use std::fs;
use std::path::PathBuf;

fn in_repository(path: &str) -> PathBuf {
    PathBuf::from(env!("CARGO_MANIFEST_DIR")).join("../..").join(path)
}

/// The same text on one line, without a comma after the last argument.
fn on_one_line(text: &str) -> String {
    let words: Vec<&str> = text.split_whitespace().collect();
    words.join(" ").replace("( ", "(").replace(", )", ")").replace(",)", ")")
}

/// A function of the interface: parameters with their types, the result, the clauses of the
/// contract, and the body.
#[derive(PartialEq)]
struct Function {
    name: String,
    parameters: Vec<(String, String)>,
    result: String,
    clauses: Vec<String>,
    body: String,
}

impl Function {
    /// Reads a function from its name up to its body, and takes the body as it is.
    fn read(written: &str, body: &str) -> Function {
        let parted = on_one_line(written).replace(" requires ", "\nrequires ");
        let parted = parted.replace(" ensures ", "\nensures ");
        let mut parts = parted.lines().map(str::to_string);
        let signature = parts.next().expect(written);
        let (name, rest) = signature.split_once('(').expect(written);
        let (arguments, result) = rest.split_once(')').expect(written);
        let arguments = arguments.split(", ").filter(|argument| !argument.is_empty());
        let pairs = arguments.map(|argument| argument.split_once(": ").expect(written));
        Function {
            name: name.to_string(),
            parameters: pairs.map(|(name, kind)| (name.to_string(), kind.to_string())).collect(),
            result: result.trim().to_string(),
            clauses: parts.collect(),
            body: body.to_string(),
        }
    }

    fn type_of(&self, parameter: &str) -> Option<&str> {
        let found = self.parameters.iter().find(|(name, _)| name == parameter);
        found.map(|(_, kind)| kind.as_str())
    }

    fn clauses_with(&self, text: &str) -> Vec<&str> {
        self.clauses.iter().map(String::as_str).filter(|clause| clause.contains(text)).collect()
    }
}

/// The functions of a crate that begin with some text, each from its name on. One whose name has
/// another beginning than is asked for is not read, whatever its form.
fn functions(folder: &str, begins: &str, name: &str) -> Vec<Function> {
    let mut all = Vec::new();
    for entry in fs::read_dir(in_repository(folder)).unwrap() {
        let text = fs::read_to_string(entry.unwrap().path()).unwrap();
        for item in text.split(begins).skip(1).filter(|item| item.starts_with(name)) {
            let (head, rest) = item.split_once("\n{\n").expect(item);
            let (body, _) = rest.split_once("\n}\n").expect(item);
            all.push(Function::read(head, body));
        }
    }
    all
}

/// What stands in for an exported function in the library: the function of its name.
fn library() -> Vec<Function> {
    functions("crates/shootspiral/src", "pub fn ", "ss_")
}

/// What is exported, whatever its name, as it stands.
fn exports() -> Vec<Function> {
    functions("crates/shootspiral_c/src", "#[unsafe(no_mangle)]\npub extern \"C\" fn ", "")
}

/// All that is exported, each with the body of the library's function.
fn exported() -> Vec<Function> {
    let mut bodies = library();
    let with_body = |function: Function| {
        let place = bodies.iter().position(|called| called.name == function.name);
        Function { body: bodies.swap_remove(place.expect(&function.name)).body, ..function }
    };
    exports().into_iter().map(with_body).collect()
}

/// What a number is in C and in Rust: a group or a process where the body makes it one, and a user
/// where it has 32 bits; else a plain number.
fn number(name: &str, kind: &str, body: &str) -> (&'static str, &'static str) {
    let is_taken_for = |made: &str| body.contains(&format!("{made}({name})"));
    match (kind, is_taken_for("GroupId"), is_taken_for("ProcessId")) {
        ("u64", true, false) => ("ss_group ", "GroupId"),
        ("u64", false, true) => ("ss_process ", "ProcessId"),
        ("u64", false, false) => ("uint64_t ", "u64"),
        ("u32", false, false) if name == "user" || name == "owner" => ("ss_user ", "User"),
        _ => panic!("what kind of number is {name}: {kind} in {body}"),
    }
}

/// What a parameter is in C and in Rust. A slice is two: a pointer, and a length with a name of its
/// own. The words of an array are counted in C alone.
fn parameters(name: &str, kind: &str, body: &str) -> Vec<(String, String)> {
    let length = match name {
        "line" => "length",
        "file" => "file_length",
        "reply" => "room",
        other => other,
    };
    let size = (format!("size_t {length}"), format!("{length}: usize"));
    let one = |c: &str, rust: &str| (format!("{c}{name}"), format!("{name}: {rust}"));
    match kind {
        "u32" | "u64" => {
            let (c, rust) = number(name, kind, body);
            vec![one(c, rust)]
        }
        "&Tree" => vec![one("const uint64_t *", "*const u64")],
        "&mut Tree" => vec![one("uint64_t *", "*mut u64")],
        "&[u8]" => vec![one("const uint8_t *", "*const u8"), size],
        "&mut [u8]" => vec![one("uint8_t *", "*mut u8"), size],
        array => {
            let count = array.strip_prefix("&mut [u64; ").and_then(|rest| rest.strip_suffix(']'));
            let (c, rust) = one("uint64_t ", "*mut u64");
            vec![(format!("{c}[{}]", count.expect(array)), rust)]
        }
    }
}

/// The declarations of a function in C and in Rust.
fn declarations(function: &Function) -> (String, String) {
    let name = &function.name;
    let both = |(name, kind): &(String, String)| parameters(name, kind, &function.body);
    let arguments = function.parameters.iter().flat_map(both);
    let (c, rust): (Vec<String>, Vec<String>) = arguments.unzip();
    let c = if c.is_empty() { "void".to_string() } else { c.join(", ") };
    let rust = rust.join(", ");
    match function.result.as_str() {
        "" => (format!("void {name}({c})"), format!("fn {name}({rust})")),
        "-> u32" => (format!("uint32_t {name}({c})"), format!("fn {name}({rust}) -> u32")),
        "-> u64" => (format!("uint64_t {name}({c})"), format!("fn {name}({rust}) -> u64")),
        other => panic!("{other}"),
    }
}

fn assert_same(mut declared: Vec<String>, mut exported: Vec<String>) {
    declared.sort();
    exported.sort();
    for (declared, exported) in declared.iter().zip(&exported) {
        assert_eq!(declared, exported);
    }
    assert_eq!(declared.len(), exported.len());
}

/// Each exported function has the signature and the clauses of the library's, and calls it with its
/// own parameters in order.
#[test]
fn an_export_is_the_function_of_its_name() {
    assert_eq!(exports().len(), library().len());
    for export in exports() {
        let names: Vec<&str> = export.parameters.iter().map(|(name, _)| name.as_str()).collect();
        let call = format!("{}({})", export.name, names.join(", "));
        let called = export.body.trim().trim_end_matches(';');
        let (_module, called) = called.split_once("::").expect(called);
        assert_eq!(called, call);
        let found = library().into_iter().find(|function| function.name == export.name);
        let found = found.expect(&export.name);
        assert!(Function { body: export.body.clone(), ..found } == export, "{}", export.name);
    }
}

#[test]
fn the_header_declares_what_is_exported() {
    let header = fs::read_to_string(in_repository("include/shootspiral.h")).unwrap();
    let (_sizes_and_types, functions) = header.split_once("extern \"C\" {\n").unwrap();
    let parts = functions.split("/*").map(|part| part.split_once("*/").map_or(part, |two| two.1));
    let code: String = parts.collect();
    let lines: Vec<&str> = code.lines().filter(|line| !line.starts_with('#')).collect();
    let code = lines.join(" ");
    let mut declared: Vec<String> = code.split(';').map(on_one_line).collect();
    assert_eq!(declared.pop().as_deref(), Some("}"));
    assert_same(declared, exported().iter().map(|function| declarations(function).0).collect());
}

/// A group, a process and a user are each passed as the exported number, and nothing else.
#[test]
fn the_three_kinds_are_the_numbers_that_are_exported() {
    let header = fs::read_to_string(in_repository("include/shootspiral.h")).unwrap();
    let rust = fs::read_to_string(in_repository("rust/shootspiral/src/number.rs")).unwrap();
    let kinds = [("group", "GroupId", 64), ("process", "ProcessId", 64), ("user", "User", 32)];
    for (c, name, bits) in kinds {
        let typedef = format!("typedef struct {{ uint{bits}_t number; }} ss_{c};");
        assert!(header.contains(&typedef), "{typedef}");
        let item = format!("#[repr(transparent)]\npub struct {name}(pub u{bits});");
        assert!(rust.contains(&item), "{item}");
    }
}

#[test]
fn the_rust_declarations_are_of_what_is_exported() {
    let text = fs::read_to_string(in_repository("rust/shootspiral/src/sys.rs")).unwrap();
    let lines: Vec<&str> = text.lines().filter(|line| !line.trim().starts_with("//")).collect();
    let code = lines.join(" ");
    let items = code.split("fn ").skip(1).map(|item| item.split(';').next().unwrap());
    let declared = items.map(|item| on_one_line(&format!("fn {item}"))).collect();
    assert_same(declared, exported().iter().map(|function| declarations(function).1).collect());
}

/// The exported functions that are calls on a tree.
fn calls() -> Vec<Function> {
    let mut calls = exported();
    let is_tree = |kind: &str| kind == "&Tree" || kind == "&mut Tree";
    calls.retain(|function| function.parameters.iter().any(|(_, kind)| is_tree(kind)));
    calls.retain(|function| function.name != "ss_fresh");
    calls
}

/// The constructor of `Call` that an exported function has the name of.
fn constructor(function: &Function) -> String {
    match function.name.strip_prefix("ss_").expect(&function.name) {
        "write_subtree_control" => "write_control".to_string(),
        name => name.to_string(),
    }
}

/// The call with its arguments as a contract names it, by the function's name and its parameters.
fn named(call: &Function) -> String {
    let arguments = call.parameters.iter().filter(|(name, _)| name != "tree" && name != "told");
    let written = arguments.map(|(name, kind)| match kind.as_str() {
        "&[u8]" => format!(" {name}.now"),
        "&mut [u8]" => format!(" {name}.old"),
        _ => format!(" {name}"),
    });
    constructor(call) + &written.collect::<String>()
}

/// The words before and after a call, which are the same where the tree is lent unchangeable.
fn words(call: &Function) -> (&'static str, &'static str) {
    match call.type_of("tree") {
        Some("&Tree") => ("tree.now", "tree.now"),
        _ => ("tree.old", "tree.new"),
    }
}

/// What a call ensures of the words: that the call which is named so has answered the result. The
/// clause has a name where the function has a second one.
fn answered(call: &Function) -> String {
    let (before, after) = words(call);
    let label = if call.type_of("told").is_some() { "answered " } else { "" };
    format!("ensures {label}{{ Answered {before} {after} ({}) result }}", named(call))
}

/// What a function ensures of the words that it tells and of the reply buffer, where it has them.
fn told(function: &Function) -> Option<String> {
    function.type_of("told")?;
    let before = words(function).0;
    let reply = |name: &str| format!("({name} (view {before}) ({}))", named(function));
    Some(if function.type_of("reply").is_some() {
        format!("ensures told {{ Told {} told.new reply.new }}", reply("reply_of"))
    } else if function.type_of("tree").is_some() {
        format!("ensures told_after {{ told.new ≡ room_words {} }}", reply("reply"))
    } else {
        "ensures { told.new ≡ part_words (first_bad_word line.now) }".to_string()
    })
}

#[test]
fn every_call_on_a_tree_ensures_answered() {
    for call in calls() {
        let name = &call.name;
        let kept = format!("requires {{ Kept {} }}", words(&call).0);
        assert_eq!(call.clauses_with("requires"), [kept], "{name}");
        assert_eq!(call.clauses_with("Answered"), [answered(&call)], "{name}");
    }
}

#[test]
fn every_call_of_the_definitions_is_exported() {
    let text = fs::read_to_string(in_repository("crates/model/specs/Calls.antt")).unwrap();
    let (_, after) = text.split_once("\npub data Call : Type 0 where\n").unwrap();
    let (constructors, _) = after.split_once("\n\n").unwrap();
    let names = constructors.lines().map(|line| line.trim().split_once(" : ").expect(line).0);
    assert_same(names.map(str::to_string).collect(), calls().iter().map(constructor).collect());
}

#[test]
fn what_is_told_and_replied_is_promised() {
    for function in exported() {
        let promised: Vec<String> = told(&function).into_iter().collect();
        assert_eq!(function.clauses_with("told.new"), promised, "{}", function.name);
        let buffered = function.clauses_with("reply.new");
        assert_eq!(buffered.is_empty(), function.type_of("reply").is_none(), "{}", function.name);
    }
}
