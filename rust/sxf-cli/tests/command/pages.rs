//! The pages show the command as it prints: each `$` line of README.md and of the command's own page is run as it stands, at the top of the
//! repository, and what follows it is what is printed.
use crate::run::{top, Folder};
use std::env;
use std::fs;
use std::os::unix::fs::symlink;
use std::path::Path;
use std::process::Command;

/// The commands of a page, each with the lines that stand under it up to an empty one.
fn shown(page: &str) -> Vec<(String, String)> {
    let mut shown: Vec<(String, String)> = Vec::new();
    let mut open = false;
    for line in page.lines() {
        let Some(line) = line.strip_prefix("    ") else {
            open = false;
            continue;
        };
        if let Some(command) = line.strip_prefix("$ ") {
            shown.push((command.to_string(), String::new()));
            open = true;
        } else if let Some((_, printed)) = shown.last_mut().filter(|_| open) {
            printed.push_str(line);
            printed.push('\n');
        }
    }
    shown
}

/// A folder as the top of the repository, in which commands may leave their files.
fn room(name: &str) -> Folder {
    let folder = Folder::new(name);
    symlink(top().join("samples"), folder.file("samples")).expect("a link");
    folder
}

fn is_as_printed(page: &str, least: usize) {
    let folder = room(&page.replace('/', "-"));
    let commands = shown(&fs::read_to_string(top().join(page)).expect(page));
    assert!(commands.len() >= least, "{page} has {} commands", commands.len());
    let built = Path::new(env!("CARGO_BIN_EXE_sxf")).parent().expect("a folder");
    let path = env::join_paths([built.to_path_buf()].into_iter().chain(env::split_paths(&env::var_os("PATH").unwrap_or_default())));
    for (command, stated) in commands {
        let mut shell = Command::new("sh");
        shell.args(["-c", &format!("exec 2>&1; {command}")]).current_dir(&folder.0).env("PATH", path.as_ref().expect("a path"));
        let printed = String::from_utf8(shell.output().expect("sh runs").stdout).expect("UTF-8");
        assert_eq!(printed, stated, "{page}: $ {command}");
    }
}

#[test]
fn readme_is_as_printed() {
    is_as_printed("README.md", 7);
}

#[test]
fn the_commands_page_is_as_printed() {
    is_as_printed("rust/sxf-cli/README.md", 60);
}
