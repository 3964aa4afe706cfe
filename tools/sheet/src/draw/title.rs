//! What the drawing is of, above it: the file, the policy, what was chosen, and what must be known of it.

use dispatch_bench::SENTINEL;
use sheetgen::Sheet;
use sheetgen::sheet::NO_LIMIT;

use super::svg::{self, Anchor, Svg};
use super::{About, Chosen, EDGE, exact};
use crate::fields::{Absence, Form, STRATEGIES, WEIGHTS, policy_fields};
use crate::show::number_of;
use crate::value::show_double;

/// Draws in lines of this width; answers the lower edge.
pub fn draw(svg: &mut Svg, sheet: &Sheet, chosen: &Chosen, about: &About, width: f64) -> f64 {
    about.name_file(svg, width);
    let mut y = 30.0;
    for line in svg::wrapped("title", &title(sheet, chosen), width) {
        svg.text("title", EDGE, y, Anchor::Start, &line);
        y += 18.0;
    }
    for words in [policy(sheet), total(chosen), notes(sheet, chosen, about)] {
        for line in svg::wrapped("", &words, width) {
            svg.text("", EDGE, y, Anchor::Start, &line);
            y += 14.0;
        }
    }
    y - 14.0
}

/// `RSR, limit 2`.
pub fn strategy(sheet: &Sheet) -> String {
    let strategy = STRATEGIES.get(usize::from(sheet.policy.strategy));
    let limit = match sheet.policy.limit {
        NO_LIMIT => "none".into(),
        limit => limit.to_string(),
    };
    format!("{}, limit {limit}", strategy.unwrap_or(&"?"))
}

fn title(sheet: &Sheet, chosen: &Chosen) -> String {
    let pass = &chosen.pass;
    let cars = number_of(pass.cars, "idle car");
    let stops = number_of(pass.stops, "pending stop");
    let (sent, costs) = chosen.sent();
    let mut parts = vec![format!("{cars}, {stops}")];
    if sent > 0 {
        let than = if chosen.sends_held() { "above" } else { "of" };
        parts.push(format!("{sent} sent at a cost {than} {}", exact(costs)));
    }
    match pass.cars - sent {
        0 => {}
        1 => parts.push("1 stays idle".into()),
        idle => parts.push(format!("{idle} stay idle")),
    }
    format!("{}: {}", strategy(sheet), parts.join("; "))
}

/// The policy's fields behind the limit, by their names in a text; unused weights are left out.
fn policy(sheet: &Sheet) -> String {
    let policy = &sheet.policy;
    let fields = policy_fields(policy.strategy.into());
    let traffic = fields.iter().find_map(|field| match field.form {
        Form::Code(names, _) if field.name == "traffic" => names.get(usize::from(policy.traffic)),
        _ => None,
    });
    let traffic = traffic.unwrap_or(&"?").replace('_', " ");
    let used = |(field, _): &(&crate::fields::Field, &f64)| field.absence == Absence::Never;
    let weights = fields[WEIGHTS..].iter().zip(&policy.weights).filter(used);
    let weights: Vec<String> = weights
        .map(|(field, value)| format!("{} {}", field.name, show_double(value.to_bits())))
        .collect();
    let weights = match weights.is_empty() {
        true => "none".into(),
        false => weights.join(", "),
    };
    let rate = show_double(policy.tick_rate.to_bits());
    format!("Traffic {traffic}, {rate} ticks a second. Weights: {weights}.")
}

/// The answered total and what it holds, to the last digit.
fn total(chosen: &Chosen) -> String {
    let (sent, costs) = chosen.sent();
    let pass = &chosen.pass;
    let of_costs = format!("{costs} for the cost (1,000,000 for 1)");
    let of_idle = match pass.cars - sent {
        1 => format!("{SENTINEL} for the car that stays idle"),
        idle => format!("{idle} × {SENTINEL} for the cars that stay idle"),
    };
    let holds = match (sent, pass.cars - sent) {
        (0, 0) => "there is no idle car".into(),
        (_, 0) => of_costs,
        (0, _) => of_idle,
        _ => format!("{of_costs} + {of_idle}"),
    };
    format!("Answered total {}: {holds}.", pass.total)
}

/// Held cells, pending stops without a car, decisions by the rule of ties.
fn notes(sheet: &Sheet, chosen: &Chosen, about: &About) -> String {
    let pending = chosen.pending.iter();
    let left: Vec<String> = pending
        .filter(|stop| !chosen.is_sent_to(**stop))
        .map(|stop| about.stop_label(*stop))
        .collect();
    let left = match left.len() {
        0 => "none".into(),
        1 => format!("stop {}", left[0]),
        many => format!("{many}, the stops {}", left.join(", ")),
    };
    let idle = sheet.cars.iter().filter(|car| car.idle).zip(&chosen.ties);
    let tied: Vec<String> = idle
        .filter(|(_, tied)| **tied)
        .map(|(car, _)| about.car_label(car.id))
        .collect();
    let tied = match tied.len() {
        0 => "none".into(),
        _ => format!("{} of {}, {}", tied.len(), chosen.sent().0, tied.join(", ")),
    };
    format!(
        "Held cells: {}. Pending stops that no car is sent to: {left}. Decided by the rule of ties: {tied}.",
        match chosen.pass.held {
            0 => "none".into(),
            held => held.to_string(),
        }
    )
}
