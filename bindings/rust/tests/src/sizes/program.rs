//! The calls of the program's own crates.
use super::{DEPTH, DEVICES, ENTRIES, LONG, SHORT, device, devices, exchanges, known, list, try_each, uid, uids};
use crate::rig::controller;
use arrayvec::ArrayVec;
use std::fmt::Write;
use std::iter::repeat_n;
use wurstlinen::agent::{Kind, Search};
use wurstlinen::client::{AskTold, BoxedAsk, Told};
use wurstlinen::join::{LineEvent, LineReply, ReplyHead, Status};
use wurstlinen::line::{Scene, SceneDevices, TapeLine};
use wurstlinen::locked::Blank;
use wurstlinen::log::{ClientId, Completion, Entry, Log};
use wurstlinen::rattle::alloc::Global;
use wurstlinen::rattle::marker::Brand;
use wurstlinen::rattle::prelude::*;
use wurstlinen::wire::{AckType, MOST_FRAME_BYTES, MOST_PARAMETER_BYTES, ReqClass, Request, RespClass, encode_unmute};
use wurstlinen_program::arguments::{PortKind, parse_words};
use wurstlinen_program::files::{MOST_BYTES, SessionFile, five_losses, read_file, read_rig, read_scene, read_session};
use wurstlinen_program::findings::{
    Form, LogFault, RunHead, Start, document_start, document_stop, explain, explain_log, read_line,
};
use wurstlinen_program::json::{Value, from_slice};
use wurstlinen_program::port::Silent;
use wurstlinen_program::reports::{
    Discovered, Discovery, LogOutput, Outcomes, device_lines, discover_in, discovery_opening, entry_line,
    exchange_line, report, session_opening, session_text,
};
use wurstlinen_program::serving::serve;

const BUDGET: u64 = 1_000_000_000;

fn value(text: &str) -> Value {
    from_slice(Global, text.as_bytes()).expect("JSON")
}

// A list of JSON with this many values.
fn values(count: usize, item: impl Fn(usize) -> String) -> String {
    let mut text = String::from("[");
    for at in 0..count {
        let _ = write!(text, "{}{}", if at > 0 { "," } else { "" }, item(at));
    }
    text + "]"
}

fn quoted(at: usize) -> String {
    format!("\"1234:{at:08x}\"")
}

fn digits(bytes: usize) -> String {
    format!("\"{}\"", "5a".repeat(bytes))
}

#[test]
fn files() {
    try_each(&[
        ("a file's bytes", MOST_BYTES as u64, |n| read_file(Global, &mut &list(n, |_| b' ')[..]).is_ok()),
        ("losses", LONG, |n| five_losses(Global, &list(n, |at| at as u64)).is_ok()),
        ("a scene's devices", DEVICES, |n| reads_scene("devices", &values(n, |at| described(at, "[]")))),
        ("a scene's losses", LONG, |n| reads_scene("losses", &values(n, |at| at.to_string()))),
        ("a scene's failures", LONG, |n| reads_scene("fails", &values(n, |at| at.to_string()))),
        ("a scene's collisions", SHORT, |n| reads_scene("collisions", &values(n, |_| "\"or\"".into()))),
        ("a collision's bytes", MOST_FRAME_BYTES as u64, |n| {
            reads_scene("collisions", &format!("[{{\"bytes\":{}}}]", digits(n.max(1))))
        }),
        ("a scene's known devices", DEVICES, |n| reads_scene("known", &values(n, quoted))),
        ("a scene's budget", BUDGET, |n| reads_scene("budget", &n.max(1).to_string())),
        ("a device's parameters", SHORT, |n| reads_params(&values(n, |_| parameter(1, 1)))),
        ("a parameter's parts", 512, |n| reads_params(&format!("[{}]", parameter(n.max(1), 1)))),
        ("a part's bytes", MOST_PARAMETER_BYTES as u64, |n| reads_params(&format!("[{}]", parameter(1, n)))),
    ]);
}

fn described(at: usize, params: &str) -> String {
    format!("{{\"uid\":{},\"params\":{params}}}", quoted(at))
}

fn parameter(parts: usize, bytes: usize) -> String {
    format!("{{\"pid\":\"8001\",\"parts\":{}}}", values(parts, |_| digits(bytes)))
}

fn reads_params(params: &str) -> bool {
    reads_scene("devices", &format!("[{}]", described(1, params)))
}

// Reads a scene with this key, as a scene and as a rig.
fn reads_scene(key: &str, of: &str) -> bool {
    let value = value(&format!("{{\"source\":\"7a70:00000100\",\"{key}\":{of}}}"));
    read_scene(Global, &value).is_ok() && read_rig(Global, &value).is_ok()
}

#[test]
fn sessions() {
    try_each(&[
        ("a session's clients", 16, |n| serves(n.max(1), 1, 1, 1, 100)),
        ("a client's calls", SHORT, |n| serves(1, 1, n, 1, 10_000)),
        ("a client's depth", DEPTH, |n| serves(1, n.max(1), 1, 1, 100)),
        ("a session's rings", DEPTH, |n| serves(1, 1, 1, n.max(1), 100)),
        ("a session's entries", ENTRIES, |n| serves(1, 1, 1, 1, n.max(10))),
    ]);
}

// Reads a session's file with so many clients, each of this depth and with this many calls, and serves it by both
// ports.
fn serves(clients: usize, places: usize, calls: usize, ring: usize, log: usize) -> bool {
    let calls = values(calls, |_| "{\"get\":\"1234:00000001\",\"pid\":\"0060\"}".into());
    let clients = values(clients, |_| format!("{{\"places\":{places},\"calls\":{calls}}}"));
    let value = value(&format!(
        "{{\"source\":\"7a70:00000100\",\"clients\":{clients},\"ring\":{ring},\"log\":{log}}}"
    ));
    [PortKind::Locked, PortKind::Rings].into_iter().all(|port| match read_session(Global, &value, true) {
        Ok(file) => serves_by(port, file),
        Err(_) => false,
    })
}

fn serves_by(port: PortKind, file: SessionFile) -> bool {
    let line = TapeLine::new(Vec::new(Global));
    let served = serve::<Brand, _, _, _>(&HostRuntime, Global, Blank::new(17), port, file, line, &mut Silent);
    match served {
        Ok(served) => session_text(Global, &served.outcomes).is_ok(),
        Err(_) => false,
    }
}

#[test]
fn reports() {
    try_each(&[
        ("a discovery's losses", LONG, |n| discovers(n, 0, 1)),
        ("a discovery's known devices", DEVICES, |n| discovers(0, n, 1)),
        ("a discovery's budget", u64::MAX, |n| discovers(0, 0, n as u64)),
        ("devices that are reported", DEVICES, reports_devices),
        ("outcomes that are printed", LONG, prints),
        ("a reply's data that are printed", LONG, |n| session_text(Global, &[answered(1, n)]).is_ok()),
        ("a request's data in a log", MOST_PARAMETER_BYTES as u64, logs_request),
        ("a reply in a log", MOST_FRAME_BYTES as u64, logs_reply),
        ("an opening's number", u64::MAX, |n| {
            session_opening(Global, Log::new(Global, 0).expect("a log").opening(), n as u64).is_ok()
        }),
        ("an opening's known devices", DEVICES, |n| opens(n, 1)),
        ("an opening's budget", u64::MAX, |n| opens(1, n as u64)),
    ]);
}

fn discovers(losses: usize, count: usize, budget: u64) -> bool {
    let (devices, losses) = (SceneDevices::new(Global), list(losses, |at| at as u64));
    let (collisions, fails) = (Vec::new(Global), Vec::new(Global));
    let scene = Scene { source: controller(), devices, collisions, losses, fails };
    let mut log = LogOutput::new(Vec::new(Global));
    let kind = Kind::Incremental;
    discover_in(Global, scene, Search::Quick, kind, &known(count), budget, &mut Silent, &mut log).is_ok()
}

fn reports_devices(count: usize) -> bool {
    let set = Box::new(devices(count));
    let told = AskTold { tag: 0, done: BoxedAsk::new(1, None, Some(set)) };
    let Ok(discovered) = Discovered::new(Global, &told) else {
        return false;
    };
    let mut outcomes = Outcomes::new(Global);
    device_lines(Global, &devices(count)).is_ok()
        && report(Global, &Discovery { found: Ok(devices(count)), frames: 8 }).is_ok()
        && outcomes.discoveries.push(discovered).is_ok()
        && session_text(Global, &[outcomes]).is_ok()
}

// The outcomes of this many requests, each answered by this many bytes.
fn answered(count: usize, bytes: usize) -> Outcomes {
    let mut outcomes = Outcomes::new(Global);
    let head = ReplyHead { ack: AckType::Ack, class: RespClass::Get, pid: 0x60, sub_device: 0 };
    outcomes.requests = list(count, |_| {
        let bytes = list(bytes, |_| 0x5a);
        Told { tag: 0, done: Completion { status: Status::Completed, reply: Some(head), bytes } }
    });
    outcomes
}

fn prints(count: usize) -> bool {
    session_text(Global, &[answered(count, 1)]).is_ok()
}

fn logs_request(bytes: usize) -> bool {
    let param: ArrayVec<u8, MOST_PARAMETER_BYTES> = repeat_n(0x5a, bytes).collect();
    let request = Request { target: uid(1), sub_device: 0, class: ReqClass::Set, pid: 0x1000, param };
    entry_line(Global, &Entry::Accept { client: ClientId(0), number: 0, request }).is_ok()
}

fn logs_reply(bytes: usize) -> bool {
    let reply = || LineEvent::Reply(repeat_n(0x5a, bytes).collect::<LineReply>());
    entry_line(Global, &Entry::Came { event: reply() }).is_ok()
        && exchange_line(Global, 0, &encode_unmute(controller(), 0), &reply()).is_ok()
}

fn opens(count: usize, budget: u64) -> bool {
    discovery_opening(Global, controller(), Search::Quick, Kind::Incremental, &uids(count), budget).is_ok()
}

#[test]
fn findings() {
    try_each(&[
        ("a document's passing devices", LONG, begins),
        ("a line's number", u64::MAX, |n| document_stop(Global, Form::Json, LogFault::Line(n as u64)).is_ok()),
        ("exchanges that are explained", SHORT, |n| explains(10, 10, 10, n)),
        ("known devices that are explained", SHORT, |n| explains(n, 1, 1, 30)),
        ("present devices that are explained", SHORT, |n| explains(1, n, 1, 30)),
        ("passing devices that are explained", SHORT, |n| explains(1, 1, n, 30)),
        ("a line's bytes", LONG, |n| read_line(Global, &list(n, |_| b' ')).is_ok()),
        ("a log's known devices", DEVICES, |n| explains_log(n, 1, 1)),
        ("a log's exchanges", SHORT, |n| explains_log(0, n, 1)),
        ("the present devices of a log", SHORT, |n| explains_log(0, 1, n)),
    ]);
}

fn begins(passing: usize) -> bool {
    let passing = uids(passing);
    [Form::Lines, Form::Json].into_iter().all(|form| document_start(Global, form, &passing).is_ok())
}

fn explains(count: usize, present: usize, passing: usize, made: usize) -> bool {
    let (known, present, passing, exchanges) = (uids(count), uids(present), uids(passing), exchanges(made));
    let (kind, search) = (Some(Kind::Incremental), Some(Search::Steady));
    let head = RunHead { number: None, kind, search, start: Start::At(0), budget: None, fault: None, flaw: None };
    [Form::Lines, Form::Json].into_iter().all(|form| {
        explain(Global, form, false, &head, Some(&known), &present, &passing, &exchanges).is_ok()
    })
}

// Explains a discovery's log with this many known devices and silent exchanges.
fn explains_log(count: usize, made: usize, present: usize) -> bool {
    let opening = discovery_opening(Global, controller(), Search::Steady, Kind::Incremental, &uids(count), 9);
    let mut text = opening.expect("an opening");
    for at in 0..made {
        let silence = LineEvent::Reply(LineReply::new());
        let line = exchange_line(Global, at as u64, &encode_unmute(controller(), at as u8), &silence);
        assert!(text.extend_from_slice(&line.expect("a line")).is_ok());
    }
    let present = uids(present);
    explain_log(Global, Form::Lines, &mut &text[..], &present, &[], &mut Vec::new(Global)).is_ok()
}

#[test]
fn arguments() {
    try_each(&[
        ("repeated arguments", DEVICES, |n| gives("--present", n)),
        ("an argument's length", LONG, |n| parse_words(Global, &["decode", &"5a".repeat(n)]).is_ok()),
    ]);
}

fn gives(name: &str, times: usize) -> bool {
    let mut words = std::vec::Vec::from(["explain", "a.log"]);
    words.extend(repeat_n([name, "1234:00000001"], times).flatten());
    parse_words(Global, &words).is_ok()
}
