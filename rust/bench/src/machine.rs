//! When and where a run was made.
use std::fs;
use std::process::Command;

/// The first line that a file has after a key and a colon.
fn value_of(file: &str, key: &str) -> Option<String> {
    let text = fs::read_to_string(file).ok()?;
    let line = text.lines().find(|line| line.starts_with(key))?;
    Some(line.split_once(':')?.1.trim().to_string())
}

fn printed(program: &str, arguments: &[&str]) -> String {
    let output = Command::new(program).args(arguments).output();
    output.map_or("unknown".to_string(), |output| String::from_utf8_lossy(&output.stdout).trim().to_string())
}

/// The day and the machine of this run, and what compiled the two implementations.
pub fn described() -> String {
    let processor = value_of("/proc/cpuinfo", "model name").unwrap_or("unknown".to_string());
    let cores = std::thread::available_parallelism().map_or(0, usize::from);
    let day = printed("date", &["-u", "+%F"]);
    let system = printed("uname", &["-sm"]);
    let compiler = printed("rustc", &["--version"]);
    let kit = printed("rt", &["version"]);
    format!("{day}, on {cores} cores of {processor} ({system}), {compiler}, {kit}")
}
