//! When and on what the figures were measured.

use std::time::{SystemTime, UNIX_EPOCH};

/// Date, machine and compiler in one line.
pub fn line() -> String {
    format!("{}; {}; {}", date(), processor(), env!("RUSTC_VERSION"))
}

/// Today's date (UTC).
fn date() -> String {
    let since = SystemTime::now()
        .duration_since(UNIX_EPOCH)
        .map_or(0, |t| t.as_secs());
    let (year, month, day) = civil(since / 86_400);
    format!("{year}-{month:02}-{day:02}")
}

/// Year, month and day, from days since 1970-01-01. Years are counted from March, so that a leap day ends one.
fn civil(days: u64) -> (u64, u64, u64) {
    let days = days + 719_468;
    let (era, day) = (days / 146_097, days % 146_097);
    let year = (day - day / 1_460 + day / 36_524 - day / 146_096) / 365;
    let day = day - (365 * year + year / 4 - year / 100);
    let month = (5 * day + 2) / 153;
    let (day, month) = (day - (153 * month + 2) / 5 + 1, (month + 2) % 12 + 1);
    (era * 400 + year + (month <= 2) as u64, month, day)
}

fn processor() -> String {
    let cpus = std::fs::read_to_string("/proc/cpuinfo").unwrap_or_default();
    let names = cpus
        .lines()
        .filter_map(|line| line.strip_prefix("model name"));
    let names: Vec<&str> = names
        .map(|name| name.trim_start_matches([' ', '\t', ':']))
        .collect();
    match names.first() {
        Some(name) => format!("{name}, cores: {}", names.len()),
        None => "processor unknown".into(),
    }
}

#[cfg(test)]
mod tests {
    #[test]
    fn days_become_dates() {
        assert_eq!(super::civil(0), (1970, 1, 1));
        assert_eq!(super::civil(11_016), (2000, 2, 29));
        assert_eq!(super::civil(20_089), (2025, 1, 1));
    }
}
