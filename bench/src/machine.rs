//! What the numbers were measured on.

use std::{env, fs, thread};

/// One line: the processor as the system names it, cores and compiler.
pub fn line() -> String {
    let arch = env::consts::ARCH;
    let cores = thread::available_parallelism().map_or(1, |count| count.get());
    let info = fs::read_to_string("/proc/cpuinfo").unwrap_or_default();
    let (model, compiler) = (model(&info), env!("BUILT_BY"));
    format!("{arch}, {model}, {cores} cores, {compiler}, release builds")
}

/// The model's name, or on Arm the numbers that stand for it.
fn model(info: &str) -> String {
    let field = |name: &str| {
        let line = info.lines().find(|line| line.starts_with(name))?;
        Some(line.split_once(':')?.1.trim().to_string())
    };
    if let Some(name) = field("model name") {
        return name;
    }
    match (field("CPU implementer"), field("CPU part")) {
        (Some(maker), Some(part)) => format!("CPU implementer {maker}, part {part}"),
        _ => "unknown processor".to_string(),
    }
}

#[cfg(test)]
mod tests {
    use super::model;

    #[test]
    fn the_processor_is_named_where_the_system_names_it() {
        assert_eq!(model("vendor_id\t: x\nmodel name\t: A 1\n"), "A 1");
        let arm = "processor\t: 0\nCPU implementer\t: 0x41\nCPU part\t: 0xd0c\n";
        assert_eq!(model(arm), "CPU implementer 0x41, part 0xd0c");
        assert_eq!(model(""), "unknown processor");
    }
}
