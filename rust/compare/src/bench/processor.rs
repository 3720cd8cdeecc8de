//! Which processor the figures are from.

use std::{env, fs};

/// The architecture, and what the system says of the model.
pub fn name() -> String {
    let cpuinfo = fs::read_to_string("/proc/cpuinfo").unwrap_or_default();
    named(env::consts::ARCH, &cpuinfo)
}

/// On Arm the system has no model's name, but two numbers that stand for it.
fn named(architecture: &str, cpuinfo: &str) -> String {
    let value = |key: &str| {
        let mut lines = cpuinfo.lines().filter_map(|line| line.split_once(':'));
        let (_, value) = lines.find(|(name, _)| name.trim() == key)?;
        Some(value.trim())
    };
    let numbers = value("CPU implementer").zip(value("CPU part"));
    match (value("model name"), numbers) {
        (Some(model), _) => format!("{architecture}, {model}"),
        (None, Some((implementer, part))) => {
            format!("{architecture}, CPU implementer {implementer}, part {part}")
        }
        (None, None) => architecture.to_string(),
    }
}

#[cfg(test)]
mod tests {
    use super::*;

    #[test]
    fn by_model_or_by_numbers() {
        let arm = "processor\t: 0\nCPU implementer\t: 0x41\nCPU part\t: 0xd40\n\nprocessor\t: 1\n";
        let said = named("aarch64", arm);
        assert_eq!(said, "aarch64, CPU implementer 0x41, part 0xd40");
        let model = "processor\t: 0\nmodel\t\t: 1\nmodel name\t: A Model @ 2.00GHz\n";
        assert_eq!(named("x86_64", model), "x86_64, A Model @ 2.00GHz");
        assert_eq!(named("x86_64", ""), "x86_64");
    }
}
