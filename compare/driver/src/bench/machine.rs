//! The machine that the benchmark runs on.

use std::fs;

/// The processor's model, how many cores there are, and the caches of the second and third level.
pub fn described() -> String {
    let info = fs::read_to_string("/proc/cpuinfo").unwrap_or_default();
    let models = values(&info, "model name");
    let model = models.first().unwrap_or(&"unknown");
    let cores = values(&info, "processor").len();
    format!("{model}, {cores} cores, L2 cache {}, L3 cache {}", cache("2"), cache("3"))
}

/// What a field of the processors' list has for each core.
fn values<'a>(info: &'a str, name: &str) -> Vec<&'a str> {
    let fields = info.lines().filter_map(|line| line.split_once(':'));
    fields.filter(|(field, _)| field.trim() == name).map(|(_, value)| value.trim()).collect()
}

/// The size of the first core's cache of this level.
fn cache(level: &str) -> String {
    let read = |i: usize, name: &str| {
        let text = fs::read_to_string(format!("/sys/devices/system/cpu/cpu0/cache/index{i}/{name}")).ok()?;
        Some(text.trim().to_string())
    };
    let index = (0..8).find(|i| read(*i, "level").is_some_and(|found| found == level));
    index.and_then(|i| read(i, "size")).unwrap_or("unknown".into())
}
