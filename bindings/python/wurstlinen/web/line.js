// The line: which programs use it, what waits, the last requests with their results, and an operator's pause.
import { act, say } from "/app.js";
import { button, make, plural } from "/dom.js";
import { mayUse, parts, partsOf } from "/server.js";

// Rows of texts, by the titles and the classes of their columns.
function table(title, columns, rows) {
    return make("table", { class: "list" }, make("caption", {}, title),
        make("thead", {}, make("tr", {}, Object.keys(columns).map((each) => make("th", { scope: "col" }, each)))),
        make("tbody", {}, rows.map(({ key, texts, isBad = false }) => make("tr", { key, class: isBad ? "bad" : "" },
            Object.values(columns).map((name, at) => make("td", { class: name }, texts[at]))))));
}

// A program that has gone keeps its name here.
const names = new Map();
function nameOf(client) {
    const { process, is_page: isPage, name } = parts.get("clients")?.find((each) => each.client === client) ?? {};
    process && names.set(client, isPage ? "this page" : name || `process ${process}`);
    return names.get(client) ?? "a program that has gone";
}

// The page has several clients, which are shown as one program.
function programsOf(clients) {
    const own = clients.filter((each) => each.is_page);
    const one = own.slice(0, 1).map((each) => ({ ...each, paused: own.some(({ paused }) => paused),
        outstanding: own.reduce((sum, { outstanding }) => sum + outstanding, 0) }));
    return [...one, ...clients.filter((each) => !each.is_page)];
}

const waits = (count) => (count ? `${plural(count, "request")} wait${count > 1 ? "" : "s"}` : "nothing waits");
const waitingText = (isPaused, count) => (isPaused ? "Paused, until whoever paused resumes, also when this page is "
    + "closed: " : "") + `${waits(count)}. A pause holds all RDM requests, this page's own, too; it stops no DMX.${
    isPaused ? "" : " Resume, here, ends it."}`;

// The pause, which is asked for once more if it is one for other programs, too; or who has paused.
function pauser(isPaused, clients, disabled) {
    const namesOf = (some) => some.map((each) => nameOf(each.client)).join(", ");
    const others = clients.filter((each) => !each.is_page), paused = clients.filter((each) => each.paused);
    const change = () => act("pause", { on: !isPaused });
    const ask = () => say(`This holds the RDM requests of other programs, too: ${namesOf(others)}.`,
        { actions: [{ text: "Pause them, too", act: change }] });
    return isPaused && paused.length && !paused[0].is_page
        ? button(`paused by ${namesOf(paused)}`, null, { disabled: true })
        : button(isPaused ? "Resume" : "Pause RDM", !isPaused && others.length ? ask : change, { disabled });
}

export function view() {
    const now = parts.get("line"), paused = Boolean(now?.paused), clients = programsOf(parts.get("clients") ?? []);
    const count = clients.reduce((sum, each) => sum + each.outstanding, 0);
    const last = partsOf("request/").sort((one, other) => other.at - one.at);
    return [make("p", {}, now?.served ? `${now.name}: process ${now.process} sends for all programs, with the UID ${
        now.source}.` : "No program sends for the others now."),
        make("div", { class: "tools" }, pauser(paused, clients, !mayUse() || !now?.served),
            make("p", { role: "status" }, waitingText(paused, count))),
        table("Programs", { Program: "name", Process: "process", Waiting: "waits", Pause: "paused" },
            clients.map((each) => ({ key: each.client, texts: [nameOf(each.client), String(each.process ?? "gone"),
                waits(each.outstanding), each.paused ? "has paused" : ""] }))),
        table("The last hundred requests: GET asks, SET changes, ACK is yes, NACK is no", { Program: "name",
            Request: "command", Result: "answer" }, last.map((each) => ({ key: each.at, isBad: !each.is_good,
            texts: [nameOf(each.client), each.command.replace(/(queued_message|status_messages) (\w+)$/,
                "$1 (status type $2)"), `${each.answer}${each.frames > 1 ? ` · ${each.frames} messages` : ""}`] })))];
}
