//! A sheet in words, for reports.

use std::fmt::Write;

use crate::sheet::Sheet;

fn double(value: f64) -> String {
    format!("{value:?}")
}

fn opt<T: std::fmt::Debug>(value: &Option<T>) -> String {
    value.as_ref().map_or("-".into(), |v| format!("{v:?}"))
}

fn mask(mask: u64, stops: usize) -> String {
    (0..stops)
        .map(|i| if mask >> (63 - i) & 1 == 1 { '1' } else { '0' })
        .collect()
}

pub fn describe(sheet: &Sheet) -> String {
    let mut out = String::new();
    if sheet.edition != 1 {
        let _ = writeln!(out, "edition {}", sheet.edition);
    }
    let across = |value: f64| match sheet.edition {
        2 => format!(" across {}", double(value)),
        _ => String::new(),
    };
    let p = &sheet.policy;
    let strategy = ["ETD", "RSR", "SCAN", "3"][usize::from(p.strategy)];
    let weights: Vec<_> = p.weights.iter().map(|w| double(*w)).collect();
    let _ = writeln!(
        out,
        "policy {strategy} limit {} tick rate {} traffic {} weights {}",
        p.limit,
        double(p.tick_rate),
        p.traffic,
        weights.join(" ")
    );
    for s in &sheet.stops {
        let beside = across(s.across);
        let _ = writeln!(out, "stop {} at {}{beside}", s.id, double(s.position));
    }
    let n = sheet.stops.len();
    for l in &sheet.lines {
        let _ = writeln!(out, "line {} serves {}", l.id, mask(l.mask, n));
    }
    for c in &sheet.cars {
        let _ = writeln!(
            out,
            "car {} line {} phase {} stop {} target {}{}{}{} sweep {} {} at {}{} speed {} capacity {} load {} \
             thresholds {} {} ticks {} {} restricted {} calls {}",
            c.id,
            c.line,
            c.phase,
            c.stop,
            opt(&c.target),
            if c.idle { " idle" } else { "" },
            if c.going_up { " up-lamp" } else { "" },
            if c.going_down { " down-lamp" } else { "" },
            if c.sweep_down { "down" } else { "up" },
            if c.lenient { "lenient" } else { "strict" },
            double(c.position),
            across(c.across),
            double(c.speed),
            double(c.capacity),
            double(c.load),
            opt(&c.up_threshold),
            opt(&c.down_threshold),
            c.transition,
            c.open,
            mask(c.restricted, n),
            mask(c.calls, n)
        );
    }
    for a in &sheet.aboard {
        let _ = writeln!(out, "aboard {} to {}", a.car, opt(&a.destination));
    }
    for r in &sheet.waiting {
        let _ = writeln!(
            out,
            "waiting at {} line {} to {} weight {} wait {}",
            r.stop,
            opt(&r.line),
            opt(&r.destination),
            double(r.weight),
            r.wait
        );
    }
    for d in &sheet.demands {
        let _ = writeln!(
            out,
            "demand {} riding {} call {}",
            d.stop,
            d.riding,
            u8::from(d.call)
        );
    }
    for stop in &sheet.closed {
        let _ = match sheet.bound_aboard(*stop) {
            0 => writeln!(out, "closed {stop}"),
            many => writeln!(out, "closed {stop} bound-for {many}"),
        };
    }
    out
}

/// Bytes as lines of hexadecimal digits.
pub fn hex(bytes: &[u8]) -> String {
    let mut out = String::new();
    for row in bytes.chunks(32) {
        for byte in row {
            let _ = write!(out, "{byte:02x}");
        }
        out.push('\n');
    }
    out
}
