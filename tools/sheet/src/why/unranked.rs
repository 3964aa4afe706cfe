//! Why a pair has no rank: the library's reason, the records that it is about, and what a planner can do.

use dispatch_bench::Reason;
use sheetgen::Sheet;
use sheetgen::sheet::SCAN;

use crate::cut::{Cut, Record};
use crate::fields::KINDS;
use crate::numbers::grouped;
use crate::show::number_of;
use crate::source::Source;
use crate::value;

pub struct Unranked {
    pub reason: Reason,
    /// What the records tell beside the reason, a sentence; or nothing.
    pub more: String,
    pub looks: Vec<Look>,
    /// What a planner can do.
    pub to_do: String,
}

/// A record to look at.
#[derive(Clone)]
pub struct Look {
    /// Its line in the text, where there is one: `lobby.txt:9: `.
    pub before: String,
    /// Some of its fields, as in a text: `car id=8 idle_listed=no`.
    pub says: String,
}

/// The most records of one kind to look at.
const FEW: usize = 3;

/// The phases in which a car covers its target.
const SERVING: [u64; 4] = [1, 3, 4, 5];

pub fn of(source: &Source, sheet: &Sheet, pair: (u32, u32), reason: Reason) -> Unranked {
    let records = Records {
        source,
        cut: Cut::new(&source.bytes),
        sheet,
        car: pair.0,
        stop: pair.1,
    };
    let (more, looks, to_do) = match reason {
        Reason::NoCar => records.no_record(4),
        Reason::NoStop => records.no_record(2),
        Reason::NotListed => records.not_listed(),
        Reason::NotPending => records.not_pending(),
        Reason::OffLine => records.off_line(),
        Reason::Barred => records.barred(),
        Reason::Cut => records.cut_off(),
        Reason::PassedBy => records.passed_by(),
        Reason::Full => records.full(),
        Reason::Nobody => records.nobody(),
        Reason::OffPath => records.off_path(),
        Reason::NoRank => records.no_rank(),
    };
    Unranked {
        reason,
        more,
        looks,
        to_do,
    }
}

/// What is added to the reason, where to look, what to do.
type Said = (String, Vec<Look>, String);

struct Records<'a> {
    source: &'a Source,
    cut: Cut<'a>,
    sheet: &'a Sheet,
    car: u32,
    stop: u32,
}

impl Records<'_> {
    /// Fields of a record, in the text's form.
    fn look(&self, record: &Record, names: &[&str]) -> Look {
        let stops = self.cut.stops();
        let fields = self.cut.fields(record).iter();
        let fields = fields.filter(|field| names.contains(&field.name));
        let fields = fields.map(|field| {
            let held = self.cut.value(record, field);
            format!(" {}={}", field.name, value::show(field, held, &stops))
        });
        Look {
            before: self.source.before(Some(record.at)),
            says: KINDS[record.kind].to_string() + &fields.collect::<String>(),
        }
    }

    /// The records of a kind whose field holds an id.
    fn looks(&self, kind: usize, field: &str, id: u32, names: &[&str]) -> Vec<Look> {
        let is_it = |record: &Record| self.cut.named(record, field) == Some(id.into());
        self.few(kind, is_it, names)
    }

    /// The first few of the records that are meant, and how many there are more.
    fn few(&self, kind: usize, is_it: impl Fn(&Record) -> bool, names: &[&str]) -> Vec<Look> {
        let records: Vec<&Record> = self.cut.of_kind(kind).filter(|r| is_it(r)).collect();
        let first = records.iter().take(FEW);
        let mut looks: Vec<Look> = first.map(|record| self.look(record, names)).collect();
        if records.len() > FEW {
            let more = grouped((records.len() - FEW) as u64);
            looks.push(Look {
                before: String::new(),
                says: format!("{more} more of kind {}", KINDS[kind]),
            });
        }
        looks
    }

    fn car_look(&self, names: &[&str]) -> Vec<Look> {
        self.looks(4, "id", self.car, &[&["id"], names].concat())
    }

    fn stop_look(&self) -> Vec<Look> {
        self.looks(2, "id", self.stop, &["id", "position", "across"])
    }

    /// 1 and 2: the ids that there are.
    fn no_record(&self, kind: usize) -> Said {
        let ids = self.cut.ids(kind);
        let noun = KINDS[kind];
        let more = match ids.as_slice() {
            [] => format!("It has no {noun} at all."),
            [one] => format!("Its one {noun} is {one}."),
            [others @ .., last] => {
                let others: Vec<String> = others.iter().map(u64::to_string).collect();
                format!("Its {noun}s are {} and {last}.", others.join(", "))
            }
        };
        (more, Vec::new(), format!("Name a {noun} that it has."))
    }

    fn not_listed(&self) -> Said {
        let to_do = "Set idle_listed=yes if this pass may send the car.";
        (
            String::new(),
            self.car_look(&["phase", "idle_listed"]),
            to_do.into(),
        )
    }

    /// 4: closed, without demand, on no line; else covered, since nothing else keeps a stop from being pending.
    fn not_pending(&self) -> Said {
        let (sheet, stop) = (self.sheet, self.stop);
        let closed = (
            "Its landing is closed.",
            self.looks(8, "stop", stop, &["stop"]),
            "Take the closed record out once the landing is open.",
        );
        let asked_for = (
            "It has no demand: nobody waits there, nobody rides there, and no hall call is without a rider.",
            self.demand_look(),
            "Nothing, unless a rider or a call is missing: a waiting or a demand record makes demand.",
        );
        let no_line = (
            "No line serves it.",
            Vec::new(),
            "Put the stop into serves of a line.",
        );
        let covered = (
            "It is covered: cars that are on their way to it or at it take everybody who waits there.",
            self.covering(),
            "Nothing, if these cars do go there; else put their target or phase right.",
        );
        let mut holds = vec![
            (sheet.closed.contains(&stop), closed),
            (!sheet.has_demand(stop), asked_for),
            (!sheet.is_served(stop), no_line),
        ];
        holds.retain(|(holds, _)| *holds);
        if holds.is_empty() {
            holds.push((true, covered));
        }
        let says: Vec<&str> = holds.iter().map(|(_, said)| said.0).collect();
        let does: Vec<&str> = holds.iter().map(|(_, said)| said.2).collect();
        let (says, does) = (says.join(" "), does.join(" "));
        let looks = holds.into_iter().flat_map(|(_, said)| said.1).collect();
        (says, looks, does)
    }

    fn demand_look(&self) -> Vec<Look> {
        let names = ["stop", "riding_count", "riderless_call"];
        self.looks(7, "stop", self.stop, &names)
    }

    /// The cars that may cover the stop.
    fn covering(&self) -> Vec<Look> {
        let is_serving = |record: &Record| {
            let phase = self.cut.named(record, "phase");
            let target = self.cut.named(record, "target");
            target == Some(self.stop.into()) && phase.is_some_and(|phase| SERVING.contains(&phase))
        };
        let names = ["id", "line", "phase", "target", "capacity", "load"];
        self.few(4, is_serving, &names)
    }

    fn off_line(&self) -> Said {
        let line = self.sheet.cars.iter().find(|car| car.id == self.car);
        let line = line.map_or(0, |car| car.line);
        let looks = self.looks(3, "id", line, &["id", "serves"]);
        let to_do = format!(
            "Put stop {} into serves of line {line} if its cars do halt there; else ask for a car of another line.",
            self.stop
        );
        (String::new(), looks, to_do)
    }

    fn barred(&self) -> Said {
        let to_do = format!(
            "Take stop {} out of restricted if the car may halt there.",
            self.stop
        );
        (String::new(), self.car_look(&["restricted"]), to_do)
    }

    fn cut_off(&self) -> Said {
        let limit = number_of(self.sheet.policy.limit.into(), "stop");
        let more = format!(
            "The car is looked at for the {limit} nearest to it that it may go to; of equally near ones the lower id comes first."
        );
        let policies = self.cut.of_kind(1).take(1);
        let looks = policies
            .map(|policy| self.look(policy, &["strategy", "limit"]))
            .collect();
        (
            more,
            looks,
            "Raise the limit, or set limit=none, to have the pair ranked.".into(),
        )
    }

    fn passed_by(&self) -> Said {
        let names = [
            "phase",
            "stop",
            "position",
            "capacity",
            "load",
            "up_threshold",
            "down_threshold",
        ];
        let looks = [self.car_look(&names), self.stop_look()].concat();
        let to_do =
            "Raise the threshold, or leave it out, if the car does halt on its way with this load.";
        (String::new(), looks, to_do.into())
    }

    fn full(&self) -> Said {
        let to_do = "Nothing, if load and capacity are right: the car has no room, and nobody aboard is bound for the stop.";
        (
            String::new(),
            self.car_look(&["capacity", "load"]),
            to_do.into(),
        )
    }

    /// 10: the car's room and lamps, and who waits.
    fn nobody(&self) -> Said {
        let waiting = self
            .sheet
            .waiting
            .iter()
            .filter(|rider| rider.stop == self.stop);
        let waiting = waiting.count();
        if waiting == 0 {
            let more = "Nobody waits there, and no hall call is without a rider.";
            let looks = self.demand_look();
            let to_do = "Nothing, unless a rider or a call is missing: a waiting record, or riderless_call=yes.";
            return (more.into(), looks, to_do.into());
        }
        let more = match waiting {
            1 => "The one who waits there is too heavy for the room that is left, or goes where the lamp is dark.".into(),
            _ => format!("{waiting} wait there, and each is too heavy for the room that is left, or goes where the lamp is dark."),
        };
        let riders = self.looks(6, "stop", self.stop, &["stop", "destination", "weight"]);
        let looks = [
            self.car_look(&["going_up", "going_down", "capacity", "load"]),
            riders,
        ]
        .concat();
        (
            more,
            looks,
            "Look whether the car's lamps and load are right; another car may take them.".into(),
        )
    }

    fn off_path(&self) -> Said {
        let riders = self.looks(5, "car", self.car, &["car", "destination"]);
        let looks = [self.car_look(&["position"]), self.stop_look(), riders].concat();
        (
            String::new(),
            looks,
            "Nothing, if the destinations are right: RSR makes no detour with riders aboard."
                .into(),
        )
    }

    fn no_rank(&self) -> Said {
        if self.sheet.policy.strategy != SCAN {
            let more = "The car's max speed is 0.";
            return (
                more.into(),
                self.car_look(&["max_speed"]),
                "Give the car its max_speed.".into(),
            );
        }
        let more = "The stop is behind the car's sweep.";
        let looks = [
            self.car_look(&["sweep", "mode", "position"]),
            self.stop_look(),
        ]
        .concat();
        let to_do = "Nothing, if the sweep is right: SCAN goes on with it, and turns where no demand is left ahead.";
        (more.into(), looks, to_do.into())
    }
}
