// Discovery: how far it is, what it found, who broke the rules, what is missing and why, and its picture.
import { act, addressOf } from "/app.js";
import { button, classes, make, plural } from "/dom.js";
import { DETAIL, UID, advised, linked, nameOf, named, withoutAdvice } from "/fixtures.js";
import { fixtureOf, maySend, parts, partsOf } from "/server.js";

const listed = (all) => [all.slice(0, 3).map(({ uid }, at) => [at > 0 && ", ", linked(uid)]),
    all.length > 3 && ` and ${all.length - 3} more`];
// Who did something wrong: what was seen, which isn't known at once, or else whom the fault names.
function wrongOf(last) {
    const { devices = [], fault, picture = null } = last ?? {}, uids = picture !== null && fault?.match(UID);
    return devices.length ? devices : (uids || []).map((uid) => ({ uid, text: fault }));
}

// What is to be done about them. Only those of the list can be told from others.
const TAKE = "off the line, and discover again";
const FIND = "discover again. If it still does, unplug half of the line, and discover again, to find it";
function resultText(last) {
    const found = `${plural(last.found, "fixture")} found with ${plural(last.frames, "message")}`;
    const isOld = isUnderWay(last), wrong = wrongOf(last), why = last.fault && !wrong.length
        ? `: ${named(withoutAdvice(last.fault))}` : "";
    const known = wrong.filter(({ uid }) => fixtureOf(uid)), strange = wrong.filter((each) => !known.includes(each));
    // While another one is under way nothing is advised.
    return [isOld ? ["Before this discovery: ", wrong.length > 0 && [listed(wrong), " did something wrong. "]]
        : [known.length > 0 && ["Take ", listed(known), ` ${TAKE}. `], strange.length > 0
            && ["Something that isn't in the list answers wrongly, as ", listed(strange), `: ${FIND}. `]],
    last.fault ? `${isOld ? "The one before was" : "The discovery is"} incomplete${why}. ${found}.`
        : last.missing ? `${found}. ${last.missing}`
            : last.is_broken ? `${found}; a rule was broken, so others may be missing.` : last.found
                ? `${found}; nothing else can be on this line if it is honest: if all on it keep RDM's rules.`
                : `${found}${isOld ? "" : ": check the adapter and the first cable"}.`];
}

const isBad = (last) => Boolean(last?.fault || last?.is_broken);
// Those that are missing: of the list, and then those of the file that is loaded which aren't in the list.
export function absent() {
    const wrong = wrongOf(parts.get("discovery")).map(({ uid }) => uid), planned = parts.get("file")?.differences ?? [];
    return [...partsOf("fixture/").filter((found) => found.missing).map((found) => ({ ...found, text: found.missing })),
        ...planned.filter(({ kind, uid }) => kind === "missing" && !fixtureOf(uid) && !wrong.includes(uid))];
}

// What other views say of a discovery that is incomplete.
export function alarm() {
    const last = parts.get("discovery"), names = absent().map((each, at) => [at > 0 && ", ", "“", linked(each.uid)[0],
        "”", each.kind && " (in the file, not in the list)"]);
    return isBad(last) && make("p", { class: "result bad" }, resultText(last), " ", names.length > 0 && ["Missing: ",
        names, ". "], make("a", { href: addressOf("discovery") }, "Discovery"), " says more.");
}

// Whether one is under way, of this page or of another program. Once its result is shown it has ended.
export const isUnderWay = (last = parts.get("discovery"), now = parts.get("progress")) => Boolean(last?.runs
    || (now && !now.is_over && last?.frames !== now.frames));

// How far a run is, or was if the result isn't shown.
function progressText(now, last) {
    const names = (now && !now.is_over ? now.found : []).map((uid) => nameOf(fixtureOf(uid)) || uid).join(", ");
    return !now ? "No discovery was seen so far." : last?.frames === now.frames ? "" : `Discovery ${now.run}: `
        + `${plural(now.frames, "message")}${now.is_over ? "" : " so far"}${now.found.length
            ? `, ${plural(now.found.length, "fixture")} found` : ""}${names && `: ${names}`}`;
}

// What is said of devices, or without a UID of the line; and small what only those understand who know RDM.
function section(title, items) {
    return items.length > 0 && make("section", {}, make("h3", {}, title + (isUnderWay() ? " before this discovery"
        : "")), make("ul", {}, items.map(({ uid = "", text = "", detail = "" }) => make("li", {}, uid && linked(uid),
        text && ` ${advised(text).replace(DETAIL, "")}`, " ",
        make("small", {}, withoutAdvice(detail) || DETAIL.exec(text)?.[0])))));
}

export function view() {
    const last = parts.get("discovery"), address = last?.picture && `/picture/${last.picture}`;
    const begin = button(last?.runs ? "Discovering …" : "Discover", () => act("discover", {}), { class: "main",
        disabled: !maySend() || Boolean(last?.runs) });
    return [make("div", { class: "tools" }, begin,
        make("p", { class: "sending" }, "Once it has begun, nothing stops it: it ends by itself.")),
        make("p", { role: "status" }, progressText(parts.get("progress"), last)),
        make("p", { class: classes("result", isBad(last) && "bad") }, last && "found" in last && resultText(last)),
        section("Fixtures that did something wrong", wrongOf(last).map(({ uid, text: detail }) => ({ uid, detail,
            text: isUnderWay() ? "" : fixtureOf(uid) ? `take it ${TAKE}` : `isn't in the list: ${FIND}` }))),
        section("Missing", absent()), section("Also seen", (last?.others ?? []).map((detail) => ({ detail }))),
        address && make("div", { key: address }, make("p", {}, make("a", { href: address, target: "_blank",
            rel: "noopener" }, "The picture in a tab of its own")), make("iframe", { sandbox: "allow-scripts",
            title: "The picture of the last discovery", src: address }))];
}
