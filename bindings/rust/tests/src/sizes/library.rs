//! The calls of the library.
use super::{DEPTH, DEVICES, ENTRIES, LONG, SHORT, device, devices, exchanges, list, try_each, uid, uids};
use crate::rig::{AskNote, Note, controller, request};
use wurstlinen::agent::Kind;
use wurstlinen::client::Desk;
use wurstlinen::explain::{
    explain_known, explain_run, first_breaches, first_garbled, first_misreported, first_not_muted_first,
    first_other_data, first_uncovered, first_unread, first_untried, judge, push_exchange,
};
use wurstlinen::join::LineEvent;
use wurstlinen::lanes::views::{BlankHistory, Publisher, ViewHistory};
use wurstlinen::lanes::{Body, Gate, RingClient, open_lanes, run_session};
use wurstlinen::line::{Parameters, Scene, SceneDevice, SceneDevices, SimLine, TapeLine};
use wurstlinen::locked::{Blank, Port};
use wurstlinen::log::{Answer, ClientId, Config, Event, Log, MOST_CLIENTS, MOST_PLACES};
use wurstlinen::queue::Session;
use wurstlinen::rattle::alloc::Global;
use wurstlinen::rattle::marker::Brand;
use wurstlinen::rattle::prelude::*;
use wurstlinen::wire::encode_mute;

const CLIENTS: u64 = MOST_CLIENTS as u64;
const PLACES: u64 = MOST_PLACES as u64;

fn config(places: u16, budget: u64) -> Config {
    Config { source: controller(), places, budget: budget.max(1) }
}

fn roomy() -> Config {
    config(MOST_PLACES, 1000)
}

fn log(free: usize) -> Log {
    Log::new(Global, free).expect("memory for a log")
}

fn blank() -> Blank {
    Blank::new(17)
}

#[test]
fn logs_sessions_and_desks() {
    try_each(&[
        ("a log's entries", ENTRIES, |n| Log::new(Global, n).is_ok()),
        ("a session's events", LONG, answers),
        ("a desk's depth", DEPTH, |n| Desk::<Note, AskNote>::new(Global, n as u8).is_ok()),
    ]);
}

// A session that answers this many events.
fn answers(count: usize) -> bool {
    let Ok(mut session) = Session::new(Global, roomy(), log(0)) else {
        return false;
    };
    let events = list(count, |_| Event::Collect(ClientId(0)));
    let Ok(answers) = session.run(Global, &events) else {
        return false;
    };
    answers.len() == count && answers.iter().all(|answer| matches!(answer, Answer::Collect(Ok(None))))
}

#[test]
fn ports() {
    try_each(&[
        ("a port's places", PLACES, |n| opens_port(config(n as u16, 1000), 10)),
        ("a port's budget", u64::MAX, |n| opens_port(config(1, n as u64), 10)),
        ("a port's entries", ENTRIES, |n| opens_port(roomy(), n)),
        ("the depth of a port's clients", DEPTH, |n| joins_port(n as u8)),
        ("a port's exchanges", SHORT, works),
    ]);
}

fn opens_port(config: Config, free: usize) -> bool {
    Port::<Brand>::new(Global, blank(), config, log(free)).is_ok()
}

// As many clients as may join a port, with this queue depth.
fn joins_port(places: u8) -> bool {
    let Ok(port) = Port::<Brand>::new(Global, blank(), roomy(), log(100)) else {
        return false;
    };
    let clients = list(MOST_CLIENTS, |_| port.client::<Note, AskNote, _>(&HostRuntime, Global, places));
    clients.iter().all(Result::is_ok)
}

// A port's worker that makes this many exchanges, one in each turn.
fn works(count: usize) -> bool {
    let log = Log::nothing(Global).expect("memory for a log");
    let Ok(port) = Port::<Brand>::new(Global, blank(), roomy(), log) else {
        return false;
    };
    let Ok(mut client) = port.client::<Note, AskNote, _>(&HostRuntime, Global, 1) else {
        return false;
    };
    let mut line = TapeLine::new(Vec::new(Global));
    let mut exchanges = Vec::new(Global);
    for _ in 0..count {
        assert!(client.submit(&HostRuntime, request(0), Note(0)).is_ok());
        port.work(&HostRuntime, Global, &mut line, 1, &mut exchanges);
        assert!(client.collect_request(&HostRuntime).is_some());
    }
    exchanges.len() == count
}

#[test]
fn lanes() {
    try_each(&[
        ("the places of lanes", PLACES, |n| opens_lanes(config(n as u16, 1000), 10, 1, &[])),
        ("the budget of lanes", u64::MAX, |n| opens_lanes(config(1, n as u64), 10, 1, &[])),
        ("the entries of lanes", ENTRIES, |n| opens_lanes(roomy(), n, 1, &[])),
        ("the clients of lanes", CLIENTS, |n| opens_lanes(roomy(), 100, 1, &[1; MOST_CLIENTS][..n])),
        ("the depth of lanes", DEPTH, |n| opens_lanes(roomy(), 100, 1, &[n as u8; MOST_CLIENTS])),
        ("the rings of lanes", DEPTH, |n| opens_lanes(roomy(), 100, (n as u8).max(1), &[1, 2])),
        ("a session's bodies", CLIENTS, |n| runs(&[1; MOST_CLIENTS][..n], 1)),
        ("the depth of a session's bodies", DEPTH, |n| runs(&[n as u8], 1)),
        ("the rings of a session's bodies", DEPTH, |n| runs(&[1], (n as u8).max(1))),
        ("a publisher's readers", SHORT, publishes),
    ]);
}

fn opens_lanes(config: Config, free: usize, ring: u8, places: &[u8]) -> bool {
    let history = BlankHistory::new();
    open_lanes::<Brand, Note, AskNote, _, _>(HostRuntime, Global, history, config, log(free), ring, places).is_ok()
}

struct Leaves;

impl Body<Note, AskNote> for Leaves {
    fn run<J: ViewHistory, G: Gate>(&mut self, client: &mut RingClient<J, Note, AskNote>, _gate: &G) {
        assert!(client.leave().is_ok());
    }
}

struct Open;

impl Gate for Open {
    fn arrive(&self, _point: u8) {}

    fn passed(&self, _point: u8) -> bool {
        true
    }
}

// A session in threads whose clients leave.
fn runs(places: &[u8], ring: u8) -> bool {
    let bodies = list(places.len(), |_| Leaves);
    let line = TapeLine::new(Vec::new(Global));
    let history = BlankHistory::new();
    run_session::<Brand, _, Note, AskNote, _, _, _>(
        &HostRuntime, Global, history, roomy(), log(100), ring, places, bodies, &Open, line, u64::MAX,
    )
    .is_ok()
}

// A publisher that has this many readers.
fn publishes(readers: usize) -> bool {
    let Ok(publisher) = Publisher::<Brand, _, _>::new(Global, HostRuntime, BlankHistory::new(), readers.max(1)) else {
        return false;
    };
    list(readers, |_| publisher.reader()).iter().all(Result::is_ok)
}

#[test]
fn lines() {
    try_each(&[
        ("a scene's devices", DEVICES, |n| opens_line(n, 0, 0)),
        ("a scene's losses", LONG, |n| opens_line(1, n, 0)),
        ("a scene's failures", LONG, |n| opens_line(1, 0, n)),
    ]);
}

// A line with this many devices, losses and failures.
fn opens_line(count: usize, losses: usize, fails: usize) -> bool {
    let mut devices = SceneDevices::new(Global);
    for at in 0..count {
        let params = Parameters::new(Vec::new(Global));
        let device = SceneDevice { device: device(at), preamble: 7, params, from: 0, until: None };
        if devices.add(device).is_err() {
            return false;
        }
    }
    let numbers = |count| list(count, |at| at as u64);
    let (losses, fails) = (numbers(losses), numbers(fails));
    SimLine::new(Global, Scene { source: controller(), devices, collisions: Vec::new(Global), losses, fails }).is_ok()
}

#[test]
fn explanations() {
    try_each(&[
        ("exchanges that are read", LONG, pushes),
        ("a run's exchanges", SHORT, |n| explain_run(Global, &devices(10), &exchanges(n)).is_ok()),
        ("a run's devices", DEVICES, |n| explain_run(Global, &devices(n), &exchanges(30)).is_ok()),
        ("an incremental run's exchanges", SHORT, |n| explains_known(10, n)),
        ("known UIDs", SHORT, |n| explains_known(n, 30)),
        ("exchanges that are judged", SHORT, |n| judges(10, n)),
        ("listed UIDs", SHORT, |n| judges(n, 30)),
        ("each part of a certificate", SHORT, explains_parts),
    ]);
}

fn pushes(count: usize) -> bool {
    let mut exchanges = Vec::new(Global);
    let frame = encode_mute(uid(0), controller(), 0);
    (0..count).all(|_| push_exchange(&mut exchanges, &frame, &LineEvent::Failed).is_ok())
}

fn explains_known(known: usize, count: usize) -> bool {
    explain_known(Global, Kind::Incremental, &uids(known), &exchanges(count)).is_ok()
}

fn judges(listed: usize, count: usize) -> bool {
    let (uids, exchanges) = (uids(listed), exchanges(count));
    judge(Global, &uids, listed, &[], &exchanges).is_ok()
        && judge(Global, &[], 0, &uids, &exchanges).is_ok()
        && first_breaches(Global, &uids, &exchanges).is_ok()
}

fn explains_parts(count: usize) -> bool {
    let (exchanges, set, known) = (exchanges(count), devices(count.min(10)), uids(count));
    first_uncovered(Global, &exchanges).is_ok()
        && first_untried(Global, &exchanges).is_ok()
        && first_garbled(Global, &exchanges).is_ok()
        && first_misreported(Global, &set, &exchanges).is_ok()
        && first_other_data(Global, &set, &exchanges).is_ok()
        && first_not_muted_first(Global, &known, &exchanges).is_ok()
        && first_unread(Global, &known, &exchanges).is_ok()
}
