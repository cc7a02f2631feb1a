//! Holds the man page to the program: its commands, options, defaults, statuses, figures and version are those that the
//! help texts and `--version` print.

use std::collections::BTreeSet;
use std::io::Write;
use std::process::{Command, Stdio};

type Words = BTreeSet<String>;

const COMMON: &str = "Options of every command";

/// The page with roff's escapes taken out.
fn page() -> String {
    let escapes = [("\\-", "-"), ("\\(ha", "^"), ("\\(aq", "'"), ("\\fB", ""), ("\\fI", ""), ("\\fR", "")];
    let page = include_str!("../man/dhiirqobaal.1").to_string();
    escapes.iter().fold(page, |page, (escape, plain)| page.replace(escape, plain))
}

/// What the program prints under arguments that end with status 0.
fn printed(arguments: &[&str]) -> String {
    let output = Command::new(env!("CARGO_BIN_EXE_dhiirqobaal")).args(arguments).output().unwrap();
    assert!(output.status.success(), "{arguments:?}");
    String::from_utf8(output.stdout).unwrap()
}

fn help(command: &str) -> String {
    printed(&[command, "--help"])
}

/// The lines of a text behind the one that is `start`, up to one that begins with any of `ends`.
fn between<'a>(text: &'a str, start: &str, ends: &[&str]) -> Vec<&'a str> {
    let behind = text.lines().skip_while(|line| *line != start);
    let found: Vec<_> = behind.skip(1).take_while(|line| !ends.iter().any(|end| line.starts_with(end))).collect();
    assert!(!found.is_empty(), "nothing behind '{start}'");
    found
}

fn section<'a>(page: &'a str, name: &str) -> Vec<&'a str> {
    between(page, &format!(".SH {name}"), &[".SH "])
}

fn subsection<'a>(page: &'a str, name: &str) -> Vec<&'a str> {
    between(page, &format!(".SS {name}"), &[".SS ", ".SH "])
}

/// What the paragraphs of a section are headed by: the lines directly behind .TP.
fn tags<'a>(section: &[&'a str]) -> Vec<&'a str> {
    section.windows(2).filter(|pair| pair[0] == ".TP").map(|pair| pair[1]).collect()
}

/// The options that stand in a line: words of one or two dashes and a letter.
fn options(line: &str) -> Words {
    let words = line.split(|c: char| !(c.is_ascii_alphanumeric() || c == '-'));
    let is_option = |word: &&str| {
        let name = word.strip_prefix("--").or_else(|| word.strip_prefix('-'));
        name.is_some_and(|name| name.starts_with(|c: char| c.is_ascii_alphabetic()))
    };
    words.filter(is_option).map(str::to_string).collect()
}

/// The commands that the help lists, each at the beginning of an indented line.
fn commands() -> Words {
    let help = printed(&["--help"]);
    let lines = between(&help, "Commands:", &["Options:"]);
    let names = lines.iter().filter(|line| line.starts_with("  ") && !line.starts_with("   "));
    names.filter_map(|line| line.split_whitespace().next()).map(str::to_string).collect()
}

/// The options of a help text, each in front of what it does.
fn options_in_help(help: &str) -> Words {
    let lines = between(help, "Options:", &["Exit status:"]);
    let heads = lines.iter().filter(|line| line.trim_start().starts_with('-'));
    heads.flat_map(|line| options(line.trim().split("  ").next().unwrap_or_default())).collect()
}

fn options_in_page(page: &str, name: &str) -> Words {
    tags(&subsection(page, name)).into_iter().flat_map(options).collect()
}

#[test]
fn every_command_and_no_other() {
    let page = page();
    let titles = section(&page, "COMMANDS").into_iter().filter_map(|line| line.strip_prefix(".SS "));
    let found: Words = titles.filter(|title| *title != COMMON).map(str::to_string).collect();
    assert_eq!(found, commands());
}

#[test]
fn every_option_of_every_command_and_no_other() {
    let page = page();
    let common = options_in_page(&page, COMMON);
    assert_eq!(options_in_help(&printed(&["--help"])), common);
    for command in commands() {
        let own: Words = options_in_help(&help(&command)).difference(&common).cloned().collect();
        assert_eq!(options_in_page(&page, &command), own, "{command}");
    }
}

/// The words of two dashes in text and examples too; those of one dash may be other programs' options.
#[test]
fn no_option_that_no_help_has() {
    let known: Words = commands().iter().flat_map(|command| options_in_help(&help(command))).collect();
    let named: Words = page().lines().flat_map(options).filter(|option| option.starts_with("--")).collect();
    assert_eq!(named.difference(&known).collect::<Vec<_>>(), Vec::<&String>::new());
}

/// Defaults of one word, such as [default: 5/3], and the names that an option's value may have.
#[test]
fn every_default_and_every_possible_value() {
    let page = page();
    let text = page.replace(['\n', '(', ')'], " ").replace(".B ", "").replace(".BR ", "").replace(".IR ", "");
    for command in commands() {
        let help = help(&command);
        let defaults = help.split("[default: ").skip(1).filter_map(|rest| rest.split(']').next());
        for default in defaults.filter(|default| !default.contains(' ')) {
            let named = [format!("default {default} "), format!("default is {default}")];
            assert!(named.iter().any(|words| text.contains(words)), "{command}: {default}");
        }
        let values = help.lines().filter_map(|line| line.trim().strip_prefix("- ")?.split(':').next());
        let section = subsection(&page, &command);
        for value in values {
            assert!(section.iter().any(|line| line.split_whitespace().nth(1) == Some(value)), "{command}: {value}");
        }
    }
}

#[test]
fn every_status_and_no_other() {
    let help = printed(&["--help"]);
    let lines = between(&help, "Exit status:", &["$"]);
    let first = |line: &&str| line.strip_prefix("  ")?.split(' ').next()?.parse::<u8>().ok();
    let mut expected: BTreeSet<u8> = lines.iter().filter_map(first).collect();
    assert_eq!(expected, (0..=4).collect());
    // The sentence about an interrupted call has the one further status.
    let numbers = lines.iter().flat_map(|line| line.split(|c: char| !c.is_ascii_digit()));
    expected.extend(numbers.filter_map(|word| word.parse::<u8>().ok()).filter(|&number| number > 128));
    let page = page();
    let found: BTreeSet<u8> =
        tags(&section(&page, "EXIT STATUS")).iter().filter_map(|tag| tag.strip_prefix(".B ")?.parse().ok()).collect();
    assert_eq!(found, expected);
}

#[test]
fn every_refusal_in_its_order() {
    let page = page();
    let found: Vec<u8> =
        tags(&section(&page, "REFUSALS")).iter().filter_map(|tag| tag.strip_prefix(".B ")?.parse().ok()).collect();
    // There is no 18.
    assert_eq!(found, (1..=17).chain([19]).collect::<Vec<u8>>());
}

/// The names in front of a colon in the JSON object of a stream.
fn members() -> Words {
    let mut program = Command::new(env!("CARGO_BIN_EXE_dhiirqobaal"));
    let program = program.args(["info", "--json", "-"]).stdin(Stdio::piped()).stdout(Stdio::piped());
    let mut running = program.spawn().unwrap();
    // The worked stream of docs/FORMAT.md, with one rectangle.
    let stream = [0, 0, 0, 0x14, 1, 0, 1, 8, 0, 2, 0, 2, 1, 3, 0, 0, 0, 0, 0, 1, 0, 1, 0x92, 0x49];
    running.stdin.take().unwrap().write_all(&stream).unwrap();
    let text = String::from_utf8(running.wait_with_output().unwrap().stdout).unwrap();
    let parts: Vec<&str> = text.split('"').collect();
    parts.windows(2).filter(|pair| pair[1].starts_with(':')).map(|pair| pair[0].to_string()).collect()
}

#[test]
fn every_member_of_the_json_object_and_no_other() {
    let page = page();
    let described = subsection(&page, "info").into_iter().skip_while(|line| *line != ".B --json").skip(1);
    let lines = described.take_while(|line| *line != ".TP");
    let named = lines.filter_map(|line| line.strip_prefix(".I ").or_else(|| line.strip_prefix(".IR ")));
    let found: Words = named.filter_map(|name| name.split(' ').next()).map(str::to_string).collect();
    assert_eq!(found, members());
}

/// The rows of the table of kernels and levels end in three figures with a point.
#[test]
fn the_figures_are_those_of_the_help() {
    let page = page();
    let help = help("encode");
    let figures = |line: &&str| line.split_whitespace().filter(|word| word.parse::<f64>().is_ok()).count() >= 5;
    let rows: Vec<&str> = help.lines().map(str::trim).filter(figures).collect();
    assert!(rows.len() >= 4, "the help has no table of kernels");
    for row in rows {
        assert!(page.lines().any(|line| line == row), "{row}");
    }
}

#[test]
fn the_version_is_that_of_the_program() {
    let page = page();
    let version = printed(&["--version"]);
    let title = page.lines().next().unwrap();
    assert!(title.starts_with(".TH DHIIRQOBAAL 1 "), "{title}");
    assert!(title.contains(&format!("\"{}\"", version.trim())), "{title}");
}
