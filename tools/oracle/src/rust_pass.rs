//! One group pass by the published Rust: a sheet becomes a world, a group and a manifest, then
//! `pre_dispatch` and `assign_with_scratch` run.

use std::collections::{HashMap, HashSet};
use std::sync::Mutex;
use std::sync::atomic::{AtomicU64, Ordering};
use std::time::{Duration, Instant};

use sheetgen::Sheet;
use sheetgen::sheet::{ETD, NO_LIMIT, RSR, SCAN, mask_bit};

use crate::components::units::{Accel, Speed, Weight};
use crate::components::{
    CallDirection, CarCall, Elevator, ElevatorPhase, HallCall, Position, Route, RouteLeg, Stop,
    TransportMode,
};
use crate::dispatch::{
    AssignmentResult, DispatchDecision, DispatchManifest, DispatchScratch, DispatchStrategy,
    ElevatorGroup, EtdDispatch, LineInfo, RankContext, RiderInfo, RsrDispatch, ScanDispatch,
    assign_with_scratch,
};
use crate::door::DoorState;
use crate::entity::EntityId;
use crate::ids::GroupId;
use crate::time::TickRate;
use crate::traffic_detector::TrafficDetector;
use crate::world::World;

/// What the Rust answers. Cells are `None` where it builds no matrix.
pub struct RustPass {
    /// Ids of the idle cars and of the pending stops.
    pub idle: Vec<u32>,
    pub pending: Vec<u32>,
    /// Rows of max(idle, pending) cells.
    pub cells: Option<Vec<i64>>,
    /// A stop id, or 0 for idle.
    pub decisions: Vec<u32>,
    /// 2 × sweep + mode of every car record.
    pub sweeps: Vec<u8>,
    /// How often `rank` was called.
    pub ranked: u64,
    /// The ranks of the pass itself: those that were scaled for the cells.
    pub scaled: Vec<f64>,
    /// Every idle car with every pending stop, before scaling; empty unless asked for.
    pub ranks: Vec<(u32, u32, Option<f64>)>,
}

/// A strategy under the sheet's candidate limit. Everything else is the strategy's own.
struct Limited {
    inner: Box<dyn DispatchStrategy>,
    limit: Option<usize>,
    ranked: AtomicU64,
    /// The ranks handed out, where they are kept.
    ranks: Option<Mutex<Vec<f64>>>,
}

impl DispatchStrategy for Limited {
    fn pre_dispatch(
        &mut self,
        group: &ElevatorGroup,
        manifest: &DispatchManifest,
        world: &mut World,
    ) {
        self.inner.pre_dispatch(group, manifest, world);
    }

    fn prepare_car(
        &mut self,
        car: EntityId,
        car_position: f64,
        group: &ElevatorGroup,
        manifest: &DispatchManifest,
        world: &World,
    ) {
        self.inner
            .prepare_car(car, car_position, group, manifest, world);
    }

    fn rank(&self, ctx: &RankContext<'_>) -> Option<f64> {
        self.ranked.fetch_add(1, Ordering::Relaxed);
        let rank = self.inner.rank(ctx);
        if let Some(ranks) = &self.ranks {
            ranks.lock().unwrap().extend(rank);
        }
        rank
    }

    fn fallback(
        &mut self,
        car: EntityId,
        car_position: f64,
        group: &ElevatorGroup,
        manifest: &DispatchManifest,
        world: &World,
    ) -> DispatchDecision {
        self.inner
            .fallback(car, car_position, group, manifest, world)
    }

    fn candidate_limit(&self) -> Option<usize> {
        self.limit
    }
}

/// Entities of stops, by id; ids without a record get entities without components.
struct Ids {
    of: HashMap<u32, EntityId>,
}

impl Ids {
    fn get(&mut self, world: &mut World, id: u32) -> EntityId {
        *self.of.entry(id).or_insert_with(|| world.spawn())
    }
}

struct Built {
    world: World,
    group: ElevatorGroup,
    manifest: DispatchManifest,
    stops: Vec<EntityId>,
    cars: Vec<EntityId>,
    idle: Vec<(EntityId, f64)>,
}

fn phase_of(code: u8, stop: EntityId) -> ElevatorPhase {
    match code {
        0 => ElevatorPhase::Idle,
        1 => ElevatorPhase::MovingToStop(stop),
        2 => ElevatorPhase::Repositioning(stop),
        3 => ElevatorPhase::DoorOpening,
        4 => ElevatorPhase::Loading,
        5 => ElevatorPhase::DoorClosing,
        _ => ElevatorPhase::Stopped,
    }
}

/// A car with nothing aboard, at rest. The fields below that no sheet states are read by no part of the
/// pass.
fn plain_car(line: EntityId) -> Elevator {
    Elevator {
        phase: ElevatorPhase::Idle,
        door: DoorState::Closed,
        max_speed: Speed::from(1.0),
        acceleration: Accel::from(1.0),
        deceleration: Accel::from(1.0),
        weight_capacity: Weight::from(1.0),
        current_load: Weight::from(0.0),
        riders: Vec::new(),
        target_stop: None,
        door_transition_ticks: 0,
        door_open_ticks: 0,
        line,
        repositioning: false,
        restricted_stops: HashSet::new(),
        inspection_speed_factor: 0.25,
        going_up: true,
        going_down: true,
        going_forward: false,
        move_count: 0,
        door_command_queue: Vec::new(),
        manual_target_velocity: None,
        bypass_load_up_pct: None,
        bypass_load_down_pct: None,
        home_stop: None,
    }
}

/// Stops, lines and cars are made first and in record order, so that entities order as ids do.
fn build(sheet: &Sheet, traffic: &[TrafficDetector; 4]) -> Built {
    let mut world = World::new();
    let group_id = GroupId(0);
    let mut stop_ids = Ids { of: HashMap::new() };
    let mut stops = Vec::new();
    for s in &sheet.stops {
        let entity = stop_ids.get(&mut world, s.id);
        world.set_stop(
            entity,
            Stop {
                name: String::new(),
                position: s.position,
            },
        );
        stops.push(entity);
    }
    // A mask has a bit for each of the first 64.
    let masked = |mask: u64| {
        let stops = &stops;
        (0..stops.len().min(64))
            .filter(move |i| mask & mask_bit(*i) != 0)
            .map(move |i| stops[i])
    };
    let mut line_ids = Ids { of: HashMap::new() };
    for l in &sheet.lines {
        line_ids.get(&mut world, l.id);
    }
    let mut car_ids = HashMap::new();
    let mut cars = Vec::new();
    for c in &sheet.cars {
        let entity = world.spawn();
        car_ids.insert(c.id, entity);
        cars.push(entity);
    }
    let mut manifest = DispatchManifest::default();
    let mut idle = Vec::new();
    for (c, entity) in sheet.cars.iter().zip(&cars) {
        let bound = c.phase == 1 || c.phase == 2;
        let at = if bound {
            stop_ids.get(&mut world, c.stop)
        } else {
            EntityId::default()
        };
        let target_stop = c.target.map(|id| stop_ids.get(&mut world, id));
        world.set_elevator(
            *entity,
            Elevator {
                phase: phase_of(c.phase, at),
                max_speed: Speed::from(c.speed),
                weight_capacity: Weight::from(c.capacity),
                current_load: Weight::from(c.load),
                target_stop,
                door_transition_ticks: c.transition,
                door_open_ticks: c.open,
                repositioning: c.phase == 2,
                restricted_stops: masked(c.restricted).collect(),
                going_up: c.going_up,
                going_down: c.going_down,
                bypass_load_up_pct: c.up_threshold,
                bypass_load_down_pct: c.down_threshold,
                ..plain_car(line_ids.of[&c.line])
            },
        );
        world.set_position(*entity, Position::from(c.position));
        let calls: Vec<CarCall> = masked(c.calls)
            .map(|floor| CarCall::new(*entity, floor, 0))
            .collect();
        if !calls.is_empty() {
            manifest.car_calls_by_car.insert(*entity, calls);
        }
        if c.idle {
            idle.push((*entity, c.position));
        }
    }
    for a in &sheet.aboard {
        let rider = world.spawn();
        if let Some(id) = a.destination {
            let to = stop_ids.get(&mut world, id);
            world.set_route(rider, Route::direct(to, to, group_id));
        }
        world
            .elevator_mut(car_ids[&a.car])
            .unwrap()
            .riders
            .push(rider);
    }
    for w in &sheet.waiting {
        let rider = world.spawn();
        let stop = stop_ids.of[&w.stop];
        let destination = w.destination.map(|id| stop_ids.get(&mut world, id));
        let via = match w.line {
            Some(id) => Some(TransportMode::Line(line_ids.get(&mut world, id))),
            None => destination.map(|_| TransportMode::Group(group_id)),
        };
        if let Some(via) = via {
            // Of a waiting rider's route only `via` is read.
            let leg = RouteLeg {
                from: stop,
                to: destination.unwrap_or(stop),
                via,
            };
            world.set_route(
                rider,
                Route {
                    legs: vec![leg],
                    current_leg: 0,
                },
            );
        }
        let info = RiderInfo {
            id: rider,
            destination,
            weight: Weight::from(w.weight),
            wait_ticks: w.wait,
        };
        manifest.waiting_at_stop.entry(stop).or_default().push(info);
    }
    for d in &sheet.demands {
        let stop = stop_ids.of[&d.stop];
        // The carried files ask only whether the count is above 0, so two riders stand for more.
        for _ in 0..d.riding.min(2) {
            let info = RiderInfo {
                id: EntityId::default(),
                destination: Some(stop),
                weight: Weight::from(1.0),
                wait_ticks: 0,
            };
            manifest.riding_to_stop.entry(stop).or_default().push(info);
        }
        if d.call {
            let call = HallCall::new(stop, CallDirection::Up, 0);
            manifest.hall_calls_at_stop.insert(stop, vec![call]);
        }
    }
    let lines = sheet
        .lines
        .iter()
        .map(|l| {
            let entity = line_ids.of[&l.id];
            let on_line = (0..cars.len())
                .filter(|i| sheet.cars[*i].line == l.id)
                .map(|i| cars[i]);
            LineInfo::new(entity, on_line.collect(), masked(l.mask).collect())
        })
        .collect();
    world.insert_resource(TickRate(sheet.policy.tick_rate));
    world.insert_resource(traffic[usize::from(sheet.policy.traffic)].clone());
    let group = ElevatorGroup::new(group_id, String::new(), lines);
    Built {
        world,
        group,
        manifest,
        stops,
        cars,
        idle,
    }
}

/// Sets and reads a ScanDispatch's private sweep and mode through its published functions: a world with
/// a stop below, at and above a car at 0.
struct Probe {
    world: World,
    group: ElevatorGroup,
    at: EntityId,
    above: EntityId,
    none: DispatchManifest,
    only_below: DispatchManifest,
    all: DispatchManifest,
}

impl Probe {
    fn new() -> Self {
        let mut world = World::new();
        // Room for every entity of a sheet's stops, lines and cars, and of those that cover closed landings.
        let entities: Vec<EntityId> = (0..2048).map(|_| world.spawn()).collect();
        for entity in &entities {
            world.set_elevator(*entity, plain_car(entities[0]));
            world.set_position(*entity, Position::from(0.0));
        }
        let [below, at, above] = [-1.0, 0.0, 1.0].map(|position| {
            let entity = world.spawn();
            world.set_stop(
                entity,
                Stop {
                    name: String::new(),
                    position,
                },
            );
            entity
        });
        let called = |stops: &[EntityId]| {
            let mut manifest = DispatchManifest::default();
            for stop in stops {
                let call = HallCall::new(*stop, CallDirection::Up, 0);
                manifest.hall_calls_at_stop.insert(*stop, vec![call]);
            }
            manifest
        };
        let line = LineInfo::new(entities[0], entities.clone(), vec![below, at, above]);
        let group = ElevatorGroup::new(GroupId(0), String::new(), vec![line]);
        let (none, only_below, all) = (called(&[]), called(&[below]), called(&[below, at, above]));
        Self {
            world,
            group,
            at,
            above,
            none,
            only_below,
            all,
        }
    }

    /// From up and strict, the state of a car never seen: with no demand the sweep turns and is lenient;
    /// with demand ahead it keeps its direction and is strict.
    fn set(&self, scan: &mut dyn DispatchStrategy, car: EntityId, down: bool, lenient: bool) {
        let mut prepare = |manifest| scan.prepare_car(car, 0.0, &self.group, manifest, &self.world);
        match (down, lenient) {
            (false, false) => {}
            (true, true) => prepare(&self.none),
            (true, false) => {
                prepare(&self.none);
                prepare(&self.only_below);
            }
            (false, true) => {
                prepare(&self.none);
                prepare(&self.none);
            }
        }
    }

    /// A lenient car accepts a stop where it stands, one going up a stop above.
    fn read(&self, scan: &dyn DispatchStrategy, car: EntityId) -> u8 {
        assert!(
            self.world.elevator(car).is_some(),
            "a car beyond the probe's entities"
        );
        let accepts = |stop| {
            let ctx = RankContext {
                car,
                stop,
                group: &self.group,
                manifest: &self.all,
                world: &self.world,
            };
            scan.rank(&ctx).is_some()
        };
        2 * u8::from(!accepts(self.above)) + u8::from(accepts(self.at))
    }
}

/// The published Rust, ready to run passes one after the other.
pub struct Rust {
    traffic: [TrafficDetector; 4],
    probe: Probe,
    scratch: DispatchScratch,
}

impl Rust {
    pub fn new() -> Self {
        // The detector's mode is private; its own serialised form sets it.
        let traffic = ["Idle", "UpPeak", "InterFloor", "DownPeak"].map(|mode| {
            let text = ron::to_string(&TrafficDetector::new())
                .unwrap()
                .replace("current:Idle", &format!("current:{mode}"));
            let detector: TrafficDetector = ron::from_str(&text).unwrap();
            assert_eq!(format!("{:?}", detector.current_mode()), mode);
            detector
        });
        Self {
            traffic,
            probe: Probe::new(),
            scratch: DispatchScratch::default(),
        }
    }

    /// The sheet's strategy, with its weights, its limit and, of SCAN, the sweeps of its cars.
    fn strategy(&mut self, sheet: &Sheet, cars: &[EntityId]) -> Limited {
        let p = &sheet.policy;
        let inner: Box<dyn DispatchStrategy> = match p.strategy {
            ETD => {
                let mut etd = EtdDispatch::new();
                etd.wait_weight = p.weights[0];
                etd.delay_weight = p.weights[1];
                etd.door_weight = p.weights[2];
                etd.wait_squared_weight = p.weights[3];
                etd.age_linear_weight = p.weights[4];
                Box::new(etd)
            }
            RSR => {
                let mut rsr = RsrDispatch::new();
                rsr.eta_weight = p.weights[0];
                rsr.wrong_direction_penalty = p.weights[1];
                rsr.coincident_car_call_bonus = p.weights[2];
                rsr.load_penalty_coeff = p.weights[3];
                rsr.age_linear_weight = p.weights[4];
                rsr.peak_direction_multiplier = p.weights[5];
                Box::new(rsr)
            }
            _ => {
                let mut scan = ScanDispatch::new();
                for (c, entity) in sheet.cars.iter().zip(cars) {
                    self.probe.set(&mut scan, *entity, c.sweep_down, c.lenient);
                }
                Box::new(scan)
            }
        };
        let limit = (p.limit != NO_LIMIT).then_some(usize::from(p.limit));
        Limited {
            inner,
            limit,
            ranked: AtomicU64::new(0),
            ranks: None,
        }
    }

    /// The published functions of a group pass, one after the other.
    fn group_pass(&mut self, strategy: &mut Limited, built: &mut Built) -> AssignmentResult {
        strategy.pre_dispatch(&built.group, &built.manifest, &mut built.world);
        self.scratch.clear_all();
        assign_with_scratch(
            strategy,
            &built.idle,
            &built.group,
            &built.manifest,
            &built.world,
            &mut self.scratch,
        )
    }

    /// How long it takes from bytes to decisions: reading and building the Rust's world, and the group pass alone.
    pub fn timed(&mut self, bytes: &[u8]) -> (Duration, Duration) {
        let began = Instant::now();
        assert!(sheetgen::reader::read(bytes).is_none());
        let sheet = Sheet::of_accepted(bytes);
        let mut built = build(&sheet, &self.traffic);
        let mut strategy = self.strategy(&sheet, &built.cars);
        let ready = Instant::now();
        let result = self.group_pass(&mut strategy, &mut built);
        std::hint::black_box(&result);
        (ready - began, ready.elapsed())
    }

    /// The pass over an accepted sheet.
    pub fn pass(&mut self, sheet: &Sheet, with_ranks: bool) -> RustPass {
        let mut built = build(sheet, &self.traffic);
        let p = &sheet.policy;
        let mut strategy = self.strategy(sheet, &built.cars);
        strategy.ranks = Some(Mutex::default());
        let result = self.group_pass(&mut strategy, &mut built);
        let ranked = strategy.ranked.load(Ordering::Relaxed);
        let scaled = strategy.ranks.take().unwrap().into_inner().unwrap();
        let id_of: HashMap<EntityId, u32> = built
            .stops
            .iter()
            .zip(&sheet.stops)
            .map(|(e, s)| (*e, s.id))
            .collect();
        let idle: Vec<u32> = sheet.cars.iter().filter(|c| c.idle).map(|c| c.id).collect();
        let pending_stops = &self.scratch.pending_stops;
        let pending: Vec<u32> = pending_stops.iter().map(|(e, _)| id_of[e]).collect();
        let decisions = result
            .decisions
            .iter()
            .map(|(_, decision)| match decision {
                DispatchDecision::GoToStop(stop) => id_of[stop],
                _ => 0,
            })
            .collect();
        let cells = (!idle.is_empty() && !pending.is_empty()).then(|| {
            self.scratch
                .cost_matrix_mx
                .as_ref()
                .unwrap()
                .cells()
                .to_vec()
        });
        let sweeps = sheet
            .cars
            .iter()
            .zip(&built.cars)
            .map(|(c, entity)| {
                if p.strategy == SCAN {
                    self.probe.read(&*strategy.inner, *entity)
                } else {
                    2 * u8::from(c.sweep_down) + u8::from(c.lenient)
                }
            })
            .collect();
        let mut ranks = Vec::new();
        if with_ranks {
            let idle_cars = sheet.cars.iter().zip(&built.cars).filter(|(c, _)| c.idle);
            for (c, car) in idle_cars {
                for (stop, _) in pending_stops {
                    let ctx = RankContext {
                        car: *car,
                        stop: *stop,
                        group: &built.group,
                        manifest: &built.manifest,
                        world: &built.world,
                    };
                    ranks.push((c.id, id_of[stop], strategy.inner.rank(&ctx)));
                }
            }
        }
        RustPass {
            idle,
            pending,
            cells,
            decisions,
            sweeps,
            ranked,
            scaled,
            ranks,
        }
    }
}
