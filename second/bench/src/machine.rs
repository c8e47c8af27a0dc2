//! What the figures were taken on.

use std::fs;
use std::process::Command;

/// The processor, the compiler and how busy the machine is.
pub fn machine() -> String {
    format!(
        "Processor: {}. Compiler: {}. Load at the end: {}.",
        processor(),
        compiler(),
        load()
    )
}

fn processor() -> String {
    let text = fs::read_to_string("/proc/cpuinfo").unwrap_or_default();
    text.lines()
        .find(|line| line.starts_with("model name"))
        .and_then(|line| line.split_once(": "))
        .map_or("unknown".to_string(), |(_, name)| name.to_string())
}

fn compiler() -> String {
    match Command::new("rustc").arg("--version").output() {
        Ok(output) => String::from_utf8_lossy(&output.stdout).trim().to_string(),
        Err(_) => "unknown".to_string(),
    }
}

/// The load tells how far the figures can be trusted.
fn load() -> String {
    let text = fs::read_to_string("/proc/loadavg").unwrap_or_default();
    text.split(' ').next().unwrap_or("unknown").to_string()
}
