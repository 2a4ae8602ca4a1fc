"use strict";
// The picture of a log. What is shown of an exchange is unpacked when someone looks. No finding is made here.
const SCHEME = window.matchMedia("(prefers-color-scheme: dark)");
const ASKED = ["branch", "mute", "unmute", "GET", "SET", "another frame"];
const CAME = [
    {text: "silence", colour: SCHEME.matches ? "#55606c" : "#b4bec9"},
    {text: "one UID", colour: "#0072b2"},
    {text: "collision", colour: "#e69f00", stripes: [[-1, 9], [9, -1]]},
    {text: "acknowledged", colour: "#009e73"},
    {text: "another response", colour: "#56b4e9", stripes: [[0, 0], [8, 8]]},
    {text: "damaged", colour: "#cc79a7", stripes: [[0, 4], [8, 4]]},
    {text: "the line failed", colour: "#d55e00", stripes: [[0, 0], [8, 8], [8, 0], [0, 8]]},
];
const BLACK = "#1b1f24";
const [INK, PAPER, STRIPE, UNMUTE, OUTLINE] = SCHEME.matches ? ["#eef1f4", "#14181d", "#1f262d", "#37414b", "#96a2ae"]
    : [BLACK, "#fff", "#f4f6f9", "#e6eaef", "#6b7682"];
const LETTERS = ["", "M", "", "G", "S", "?"];
const [BRANCH, MUTE, UNMUTES] = [0, 1, 2];
const [SILENCE, ONE, COLLISION, , , DAMAGED] = [0, 1, 2, 3, 4, 5];
const UIDS = 2 ** 48;
// What is left of the picture: UIDs, with labels if there is room for them.
const LABELS = 130;
const LANE = 12;
const STRIP = 16;
const MOST_WIDTH = 24;
const MOST_DRAWN = 20000;
const MOST_LANES_DRAWN = 4000;
const MOST_EXTENT = 16000000;
// Lines of findings that are closer would hide what is below.
const MARK_DISTANCE = 6;
const FIRST_LINES = 1000;
const LONG_LIST = 60;
const FIELDS = [["start", 1], ["sub start", 1], ["length", 1], ["destination", 6], ["source", 6], ["transaction", 1],
    ["port or type", 1], ["messages", 1], ["sub-device", 2], ["class", 1], ["PID", 2], ["PDL", 1]];
const HEAD_BYTES = 24;

const get = (id) => document.getElementById(id);
const log = JSON.parse(get("head").textContent);
const view = get("view");
const canvas = get("picture");
const pen = canvas.getContext("2d");
const labels = new Map(log.rows.map((uid, at) => [uid, log.labels[at]]));
const GUTTER = 118 + (window.innerWidth > 700 && log.labels.some(Boolean) ? LABELS : 0);
const rows = log.rows.map((text) => parseInt(text.slice(0, 4), 16) * 2 ** 32 + parseInt(text.slice(5), 16));
const marks = log.findings.filter((finding) => finding.place !== null).sort((one, other) => one.place - other.place);
const header = STRIP * 3 + LANE * log.clients.length;
const pieces = new Map();
// How wide an exchange is, how high a row and what is between two, and which exchange is shown.
const size = {width: 1, row: 16, gap: 16};
let columns = null;
let selected = null;
let isDue = false;

function make(tag, text, name) {
    const made = document.createElement(tag);
    made.textContent = text ?? "";
    if (name) {
        made.className = name;
    }
    return made;
}

function counted(count, thing) {
    return `${count} ${thing}${count === 1 ? "" : "s"}`;
}

async function unpacked(id) {
    const text = atob(get(id).textContent);
    const packed = new Uint8Array(text.length);
    for (let at = 0; at < text.length; at++) {
        packed[at] = text.charCodeAt(at);
    }
    const stream = new Blob([packed]).stream().pipeThrough(new DecompressionStream("deflate"));
    return new Response(stream).arrayBuffer();
}

function uidsIn(data, at) {
    const bytes = new DataView(data, at, 6 * log.count);
    const found = new Float64Array(log.count);
    for (let each = 0; each < log.count; each++) {
        found[each] = bytes.getUint16(6 * each) * 2 ** 32 + bytes.getUint32(6 * each + 2);
    }
    return found;
}

function masksIn(data, at) {
    const bytes = new DataView(data, at, 2 * log.count);
    return Uint16Array.from({length: log.count}, (_, each) => bytes.getUint16(2 * each, true));
}

async function readColumns() {
    const data = await unpacked("columns");
    const count = log.count;
    return {
        low: uidsIn(data, 0), high: uidsIn(data, 6 * count), spelled: uidsIn(data, 12 * count),
        served: masksIn(data, 18 * count), waiting: masksIn(data, 20 * count),
        asked: new Uint8Array(data, 22 * count, count), came: new Uint8Array(data, 23 * count, count),
    };
}

// Where UIDs are. Each device has a row, and the UIDs between two devices share what is between their rows: the closer
// to a device, the more of it.

function rowFrom(uid) {
    let low = 0;
    let high = rows.length;
    while (low < high) {
        const middle = (low + high) >> 1;
        if (rows[middle] < uid) {
            low = middle + 1;
        } else {
            high = middle;
        }
    }
    return low;
}

function isRow(uid) {
    return rows[rowFrom(uid)] === uid;
}

function topOfRow(at) {
    return header + size.gap + at * (size.row + size.gap);
}

function topOf(uid) {
    const at = rowFrom(uid);
    if (rows[at] === uid) {
        return topOfRow(at);
    }
    const above = Math.log2(uid - (at ? rows[at - 1] : -1));
    const below = Math.log2((at < rows.length ? rows[at] : UIDS) - uid);
    const share = above + below ? above / (above + below) : 0.5;
    return topOfRow(at) - size.gap + share * size.gap;
}

function bottomOf(uid) {
    return topOf(uid) + (isRow(uid) ? size.row : 0);
}

function height() {
    return topOfRow(rows.length);
}

// One exchange.

function pattern(stripes, colour) {
    const tile = document.createElement("canvas");
    tile.width = tile.height = 8;
    const ink = tile.getContext("2d");
    ink.fillStyle = colour;
    ink.fillRect(0, 0, 8, 8);
    ink.strokeStyle = "#fff";
    ink.lineWidth = 1.6;
    for (let at = 0; at < stripes.length; at += 2) {
        ink.beginPath();
        ink.moveTo(...stripes[at]);
        ink.lineTo(...stripes[at + 1]);
        ink.stroke();
    }
    return pen.createPattern(tile, "repeat");
}

function fillOf(came, width) {
    const kind = CAME[came];
    if (!kind.stripes || width < 4) {
        return kind.colour;
    }
    kind.pattern ??= pattern(kind.stripes, kind.colour);
    return kind.pattern;
}

function drawBar(ink, came, x, top, width, tall) {
    ink.fillStyle = fillOf(came, width);
    ink.fillRect(x, top, width, tall);
}

function drawBlock(ink, asked, came, x, top, width, tall) {
    drawBar(ink, came, x, top, width, tall);
    if (width < 4) {
        return;
    }
    ink.strokeStyle = came === SILENCE ? OUTLINE : INK;
    ink.lineWidth = 1;
    ink.strokeRect(x + 0.5, top + 0.5, width - 1, tall - 1);
    if (width >= 10 && tall >= 10) {
        ink.fillStyle = came === SILENCE ? INK : came > 3 ? BLACK : "#fff";
        ink.font = "bold 10px sans-serif";
        ink.textAlign = "center";
        ink.textBaseline = "middle";
        ink.fillText(LETTERS[asked], x + width / 2, top + tall / 2 + 0.5);
    }
}

function drawUnmute(ink, x, top, width, tall) {
    ink.fillStyle = UNMUTE;
    ink.fillRect(x, top, width, tall);
    if (width >= 3) {
        ink.strokeStyle = OUTLINE;
        ink.setLineDash([2, 3]);
        ink.strokeRect(x + 0.5, top + 0.5, Math.max(width - 1, 0.5), tall - 1);
        ink.setLineDash([]);
    }
}

function drawExchange(at, x, width) {
    const [asked, came] = [columns.asked[at], columns.came[at]];
    const wide = width >= 3 ? width - 1 : Math.max(width, 1);
    if (asked === UNMUTES) {
        // Nobody answers an unmute, so what came is a failure, or shouldn't have come.
        const draws = came === SILENCE ? drawUnmute : (...place) => drawBar(place[0], came, ...place.slice(1));
        draws(pen, x, header, wide, height() - header);
        return;
    }
    const top = topOf(columns.low[at]);
    if (asked !== BRANCH) {
        const tall = isRow(columns.low[at]) ? size.row : 7;
        drawBlock(pen, asked, came, x, isRow(columns.low[at]) ? top : top - 3, wide, tall);
        return;
    }
    drawBar(pen, came, x, top, wide, Math.max(bottomOf(columns.high[at]) - top, 2));
    if (came === ONE && width >= 4) {
        drawSpelled(pen, x, (topOf(columns.spelled[at]) + bottomOf(columns.spelled[at])) / 2, wide);
    }
}

// Where the UID is that a reply spells.
function drawSpelled(ink, x, middle, width) {
    ink.fillStyle = "#fff";
    ink.fillRect(x + 1, middle - 1.5, width - 2, 3);
}

// The whole.

function shown() {
    const first = Math.max(0, Math.floor(view.scrollLeft / size.width));
    const wide = view.clientWidth - GUTTER;
    return [first, Math.min(log.count - 1, Math.ceil((view.scrollLeft + wide) / size.width))];
}

function xOf(at) {
    return GUTTER + at * size.width - view.scrollLeft;
}

function draw() {
    isDue = false;
    const scale = window.devicePixelRatio || 1;
    const [wide, tall] = [view.clientWidth, view.clientHeight];
    if (canvas.width !== Math.round(wide * scale) || canvas.height !== Math.round(tall * scale)) {
        canvas.width = Math.round(wide * scale);
        canvas.height = Math.round(tall * scale);
        canvas.style.width = `${wide}px`;
        canvas.style.height = `${tall}px`;
    }
    pen.setTransform(scale, 0, 0, scale, 0, 0);
    pen.fillStyle = PAPER;
    pen.fillRect(0, 0, wide, tall);
    const step = drawField(wide, tall);
    pen.setTransform(scale, 0, 0, scale, 0, 0);
    drawHeader(wide);
    drawLabels(wide, tall);
    get("note").textContent = step > 1 ? `At this width one of ${step} exchanges is drawn.` : "";
}

function drawField(wide, tall) {
    const [first, last] = shown();
    const step = Math.max(1, Math.ceil((last - first + 1) / MOST_DRAWN));
    pen.save();
    pen.translate(0, -view.scrollTop);
    drawRows(wide);
    const from = Math.ceil(first / step) * step;
    // Silence first, since it is the most of all, and the rest matters more.
    for (const isSilent of [true, false]) {
        for (let at = from; at <= last; at += step) {
            if ((columns.came[at] === SILENCE) === isSilent) {
                drawExchange(at, xOf(at), size.width * step);
            }
        }
    }
    drawMarks(tall);
    pen.restore();
    return step;
}

function drawRows(wide) {
    pen.fillStyle = STRIPE;
    for (let at = 0; at < rows.length; at++) {
        pen.fillRect(GUTTER, topOfRow(at), wide, size.row);
    }
}

function drawMarks() {
    let last = -Infinity;
    for (const mark of marks) {
        const x = xOf(mark.place) + size.width / 2;
        if (x !== last && x < last + MARK_DISTANCE) {
            continue;
        }
        last = x;
        pen.strokeStyle = INK;
        pen.lineWidth = 1;
        pen.setLineDash([5, 3]);
        line(x, header, x, height());
        pen.setLineDash([]);
        if (mark.uid !== null) {
            const uid = parseInt(mark.uid.replace(":", ""), 16);
            ring(x, (topOf(uid) + bottomOf(uid)) / 2);
        }
    }
    if (selected !== null) {
        pen.strokeStyle = INK;
        pen.lineWidth = 2;
        pen.strokeRect(xOf(selected) - 1.5, header + 1, Math.max(size.width, 2) + 2, height() - header - 2);
    }
}

function line(x, y, otherX, otherY) {
    pen.beginPath();
    pen.moveTo(x, y);
    pen.lineTo(otherX, otherY);
    pen.stroke();
}

function ring(x, y) {
    for (const [colour, width] of [[PAPER, 5], [INK, 2.2]]) {
        pen.strokeStyle = colour;
        pen.lineWidth = width;
        pen.beginPath();
        pen.arc(x, y, 7, 0, 2 * Math.PI);
        pen.stroke();
    }
}

function write(text, x, y, font = "11px sans-serif") {
    pen.fillStyle = INK;
    pen.font = font;
    pen.textAlign = "left";
    pen.textBaseline = "middle";
    pen.fillText(text, x, y);
}

function drawHeader(wide) {
    pen.fillStyle = PAPER;
    pen.fillRect(0, 0, wide, header);
    drawRuns();
    drawTicks(wide);
    drawLanes();
    const y = header - STRIP / 2;
    for (const mark of marks) {
        drawTriangle(xOf(mark.place) + size.width / 2, y);
    }
    pen.strokeStyle = OUTLINE;
    pen.lineWidth = 1;
    line(0, header - 0.5, wide, header - 0.5);
}

function drawTriangle(x, y) {
    pen.fillStyle = INK;
    pen.beginPath();
    pen.moveTo(x - 6, y - 5);
    pen.lineTo(x + 6, y - 5);
    pen.lineTo(x, y + 6);
    pen.fill();
}

// Where each run begins. A name is left out if the one before it is in its place.
function drawRuns() {
    let end = 0;
    for (const run of log.runs) {
        const x = Math.max(xOf(run.first), GUTTER);
        const isGone = xOf(run.first) < GUTTER && end > 0;
        if (x >= end && x < view.clientWidth && !isGone) {
            pen.strokeStyle = OUTLINE;
            line(x + 0.5, 1, x + 0.5, STRIP * 2);
            const text = `${run.name}: ${counted(run.count, "exchange")}`;
            write(text, x + 4, STRIP / 2, "bold 11px sans-serif");
            end = x + 10 + pen.measureText(text).width;
        }
    }
}

function drawTicks(wide) {
    const least = 70 / size.width;
    const power = 10 ** Math.floor(Math.log10(Math.max(least, 1)));
    const every = Math.max(1, [1, 2, 5, 10].map((each) => each * power).find((each) => each >= least) ?? 1);
    const [first, last] = shown();
    pen.strokeStyle = OUTLINE;
    pen.lineWidth = 1;
    for (let at = Math.ceil(first / every) * every; at <= last; at += every) {
        const x = xOf(at) + size.width / 2;
        line(x, STRIP * 2 - 4, x, STRIP * 2);
        if (x < wide - 20) {
            write(String(at), x + 3, STRIP * 1.5);
        }
    }
}

function drawLanes() {
    const [first, last] = shown();
    const step = Math.max(1, Math.ceil((last - first + 1) / MOST_LANES_DRAWN));
    log.clients.forEach((client, lane) => {
        const top = STRIP * 2 + lane * LANE + 1;
        for (let at = Math.ceil(first / step) * step; at <= last; at += step) {
            const isServed = columns.served[at] >> client & 1;
            if (isServed || columns.waiting[at] >> client & 1) {
                pen.fillStyle = isServed ? "#33527a" : "#c9d9ea";
                pen.fillRect(xOf(at), top, Math.max(size.width * step, 1), LANE - 3);
            }
        }
    });
}

function drawLabels(wide, tall) {
    pen.fillStyle = PAPER;
    pen.fillRect(0, 0, GUTTER - 4, tall);
    write("exchange", 6, STRIP * 1.5);
    log.clients.forEach((client, lane) => write(`client ${client}`, 6, STRIP * 2 + (lane + 0.5) * LANE));
    if (marks.length) {
        write("findings", 6, header - STRIP / 2, "bold 11px sans-serif");
    }
    pen.save();
    pen.beginPath();
    pen.rect(0, header, GUTTER - 6, tall - header);
    pen.clip();
    drawUids(tall);
    pen.restore();
    pen.strokeStyle = OUTLINE;
    line(GUTTER - 3.5, 0, GUTTER - 3.5, tall);
}

// The UIDs of the rows, and those at both ends. A label that has no room is left out, unless it is of a finding.
function drawUids(tall) {
    const found = new Set(marks.map((mark) => mark.uid));
    const names = rows.map((uid, at) => [log.rows[at], topOfRow(at) + size.row / 2]);
    const lowest = ["0000:00000000", header + 8];
    const highest = ["ffff:ffffffff", height() - 8];
    const isFound = ([name]) => found.has(name);
    const taken = [];
    for (const name of [...names.filter(isFound), ...names.filter((each) => !isFound(each)), lowest, highest]) {
        const y = name[1] - view.scrollTop;
        const slot = Math.round(y / 4);
        if (y > header - 8 && y < tall + 8 && [-2, -1, 0, 1, 2].every((near) => !taken[slot + near])) {
            const font = `${isFound(name) ? "bold " : ""}11.5px`, label = labels.get(name[0]);
            write(GUTTER > LABELS || !label ? name[0] : label, 6, y, `${font} monospace`);
            write(GUTTER > LABELS ? label ?? "" : "", 112, y, `${font} sans-serif`);
            taken[slot] = true;
        }
    }
}

function redraw() {
    if (!isDue) {
        isDue = true;
        requestAnimationFrame(draw);
    }
}

// How large it is.

function fits() {
    return Math.min(MOST_WIDTH, (view.clientWidth - GUTTER - 12) / Math.max(log.count, 1));
}

function setWidth(width, x = view.clientWidth / 2) {
    const at = (view.scrollLeft + x - GUTTER) / size.width;
    const most = Math.min(MOST_WIDTH, Math.max(MOST_EXTENT / Math.max(log.count, 1), fits()));
    size.width = Math.min(most, Math.max(fits(), width));
    setExtent();
    view.scrollLeft = at * size.width - x + GUTTER;
    redraw();
}

function setExtent() {
    get("extent").style.width = `${Math.ceil(GUTTER + log.count * size.width + 6)}px`;
    get("extent").style.height = `${Math.ceil(height())}px`;
}

function fitRows() {
    const room = view.clientHeight - header - 2;
    const count = rows.length;
    size.row = Math.min(20, Math.max(3, Math.floor(room / (2 * count + 1))));
    size.gap = Math.min(Math.max(room, 40), Math.max(3, (room - count * size.row) / (count + 1)));
}

function setRows(factor) {
    size.row = Math.min(60, Math.max(2, size.row * factor));
    size.gap = Math.min(800, Math.max(2, size.gap * factor));
    setExtent();
    redraw();
}
