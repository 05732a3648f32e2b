//! What was measured with: the machine and the versions of the tools, as they name themselves.
use crate::cadical;
use std::process::Command;

/// The first line that a command prints, where it runs.
fn said(program: &str, arguments: &[&str]) -> Option<String> {
    let output = Command::new(program).args(arguments).output().ok()?;
    let text = String::from_utf8_lossy(&output.stdout).into_owned();
    let line = text.lines().next()?.trim().to_string();
    (output.status.success() && !line.is_empty()).then_some(line)
}

/// The processor's name and the number of its cores.
pub fn machine() -> String {
    let text = std::fs::read_to_string("/proc/cpuinfo").unwrap_or_default();
    let named = text.lines().find(|line| line.starts_with("model name"));
    let name = named.and_then(|line| line.split(": ").nth(1)).unwrap_or("unknown");
    let cores = std::thread::available_parallelism().map_or(1, usize::from);
    format!("{name}, {cores} cores")
}

/// The linked CaDiCaL: how it names itself, and its Debian package.
pub fn cadical() -> String {
    let signature = cadical::signature();
    match said("dpkg-query", &["-W", "-f", "${Version}", "libcadical-dev"]) {
        Some(package) => format!("{signature} (Debian's libcadical-dev {package})"),
        None => signature,
    }
}

/// Each tool with what it says of itself.
pub fn tools() -> String {
    let rt = said("rt", &["version"]).unwrap_or("of an unknown version".to_string());
    let valgrind = said("valgrind", &["--version"]).unwrap_or("valgrind".to_string());
    format!(
        "rt {rt}; {}; CaDiCaL as {}; {valgrind}",
        env!("RUSTC_VERSION"),
        cadical()
    )
}
