//! `docs/LINUX.md` held to the lists of `tests/linux` and to documents 01 and 02: how many calls
//! there are, a row for each case, and quotations. What a row says in its own words no test holds.

#[path = "common/lists.rs"]
mod lists;

use lists::{AGREED, DIFFERENCES, all, cases, file, replayed};
use shootspiral_check::recorded::{List, ORDERS};
use shootspiral_check::replay::Tally;

/// A part of the page, by its heading.
fn section(heading: &str) -> String {
    let page = file("docs/LINUX.md");
    let part = page.split("\n## ").find_map(|part| part.strip_prefix(heading));
    part.unwrap_or_else(|| panic!("no part of the page: {heading}")).to_string()
}

/// The rows of the tables of a part, without heads and rules.
fn rows(heading: &str) -> Vec<Vec<String>> {
    let section = section(heading);
    let lines: Vec<&str> = section.lines().filter(|line| line.starts_with('|')).collect();
    let is_rule = |line: &str| line.starts_with("|---");
    let is_head = |place: usize| lines.get(place + 1).is_some_and(|&next| is_rule(next));
    let cells = |line: &str| -> Vec<String> {
        line.trim_matches('|').split('|').map(|cell| cell.trim().to_string()).collect()
    };
    let is_row = |&(place, line): &(usize, &str)| !is_rule(line) && !is_head(place);
    let rows = lines.iter().copied().enumerate().filter(is_row);
    rows.map(|(_, line)| cells(line)).collect()
}

/// The table of the lists, and that of the rules where host and Linux agree.
fn lists_and_rules() -> (Vec<Vec<String>>, Vec<Vec<String>>) {
    let rows = rows("What is the same, and how it was tried");
    rows.into_iter().partition(|row| row[0].starts_with("`tests/linux/"))
}

/// The text of a cell that is code and nothing else.
fn code(cell: &str) -> String {
    let code = cell.strip_prefix('`').and_then(|cell| cell.strip_suffix('`'));
    code.unwrap_or_else(|| panic!("not a name in backticks: {cell}")).to_string()
}

/// The cases that rows of so many columns name in the last.
fn named(rows: &[Vec<String>], columns: usize) -> Vec<String> {
    let name = |row: &Vec<String>| {
        assert_eq!(row.len(), columns, "{row:?}");
        code(&row[columns - 1])
    };
    rows.iter().map(name).collect()
}

#[test]
fn every_agreement_has_its_case() {
    let (_, rules) = lists_and_rules();
    assert_eq!(named(&rules, 3), cases(AGREED));
}

const DIFFERENCES_HEADING: &str = "All differences, by file and call";

#[test]
fn every_difference_has_its_case() {
    assert_eq!(named(&rows(DIFFERENCES_HEADING), 4), cases(DIFFERENCES));
}

/// The paragraph of document 01 at a call, or below a heading.
fn paragraph(name: &str) -> String {
    let paper = file("docs/papers/01-scope.md");
    let below = paper.split("\n## ").find_map(|part| part.strip_prefix(&format!("{name}\n")));
    let is_at =
        |line: &&str| ["**", ".**"].iter().any(|end| line.contains(&format!("**{name}{end}")));
    let at = paper.lines().find(is_at);
    let found = below.or(at).unwrap_or_else(|| panic!("document 01 has no paragraph {name}"));
    found.replace("**", "")
}

/// The paragraph of an order of document 02.
fn order(name: &str) -> String {
    let paper = file("docs/papers/02-change-requests.md");
    let found = paper.lines().find(|line| line.starts_with(&format!("**{name}. ")));
    found.unwrap_or_else(|| panic!("document 02 has no {name}")).replace("**", "")
}

/// Each difference names paragraphs of document 01 or orders of document 02 with words that stand
/// there, and then perhaps an order that will change it.
#[test]
fn quotations_are_literal() {
    for row in rows(DIFFERENCES_HEADING) {
        let source = format!("; {}", row[2]);
        let parts: Vec<&str> = source.split('*').collect();
        let (quotations, rest) = parts.as_chunks();
        assert!(!quotations.is_empty() && rest.len() == 1, "{source}");
        for [place, words] in quotations {
            let place = place.strip_prefix("; ").and_then(|place| place.strip_suffix(": "));
            let (paper, name) = place.and_then(|place| place.split_once(", ")).expect(&source);
            let text = match paper {
                "01" => paragraph(name),
                "02" => order(name),
                _ => panic!("{source}"),
            };
            assert!(!words.is_empty() && text.contains(words), "{name}: {words}");
        }
        let order = rest[0].strip_prefix("; order ").and_then(|rest| rest.split(' ').next());
        let order = order.and_then(|order| order.parse().ok());
        assert!(rest[0].is_empty() || order.is_some_and(|n| ORDERS.contains(&n)), "{source}");
    }
}

/// Ten are met first, and each names cases.
#[test]
fn ten_are_met_first() {
    let ten = section("The ten differences that are met first");
    let items: Vec<&str> = ten.split(". **").collect();
    let cases = cases(DIFFERENCES);
    assert_eq!(items.len(), 11);
    for (place, pair) in (1..).zip(items.windows(2)) {
        assert!(pair[0].ends_with(&format!("\n{place}")), "{place} is out of order");
        let in_code = pair[1].split('`').skip(1).step_by(2);
        let named: Vec<&str> = in_code.filter(|name| !name.contains(' ')).collect();
        let is_case = |name: &&str| cases.iter().any(|case| case == name);
        assert!(!named.is_empty() && named.iter().all(is_case), "{place}: {named:?}");
    }
}

#[test]
fn calls_are_counted() {
    let (lists, _) = lists_and_rules();
    assert_eq!(lists.len(), all().count());
    for (name, row) in all().zip(lists) {
        let Tally { calls, refused, groups, texts, differences } = replayed(name);
        let counts = [calls, refused, groups, texts, differences].map(|count| count.to_string());
        assert_eq!(row[0], format!("`tests/linux/{name}`"));
        assert_eq!(row[1..6], counts, "{name}");
    }
}

/// The table of commands has every word that a list may have.
#[test]
fn commands_are_calls() {
    let calls: Vec<String> = rows("The lists").iter().map(|row| code(&row[0])).collect();
    for call in &calls {
        assert!(List::parse(&format!("fresh 1\n{call} = 3\n")).is_ok(), "{call}");
    }
    let has = |name: &str| calls.iter().any(|call| call.split(' ').next() == Some(name));
    for name in all() {
        for line in file(&format!("tests/linux/{name}")).lines() {
            let word = line.split(' ').next().unwrap_or_default();
            assert!(["", "#", "##", "fresh"].contains(&word) || has(word), "{word}");
        }
    }
}
