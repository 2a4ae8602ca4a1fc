"use strict";
// What is shown of an exchange.

async function detailOf(at) {
    const number = Math.floor(at / log.piece);
    if (!pieces.has(number)) {
        pieces.set(number, unpacked(`piece${number}`).then((data) => JSON.parse(new TextDecoder().decode(data))));
    }
    return (await pieces.get(number))[at % log.piece];
}

async function select(at) {
    selected = Math.min(Math.max(at, 0), log.count - 1);
    const wanted = selected;
    const x = xOf(wanted);
    if (x < GUTTER || x + size.width > view.clientWidth) {
        view.scrollLeft = wanted * size.width - (view.clientWidth - GUTTER) / 2;
    }
    redraw();
    const detail = await detailOf(wanted);
    if (wanted === selected) {
        showDetail(wanted, detail);
    }
}

function showDetail(at, [name, frame, reply, command, answer]) {
    const title = name === `exchange ${at}` ? name : `${name} (exchange ${at} of the log)`;
    const found = log.findings.filter((finding) => finding.place === at);
    const list = make("dl");
    list.append(make("dt", "frame"), make("dd", command, "command"), make("dt"), fieldsOf(frame, true));
    list.append(make("dt", "reply"), make("dd", answer, "answer"));
    if (reply) {
        list.append(make("dt"), fieldsOf(reply, columns.came[at] !== DAMAGED && columns.came[at] !== COLLISION));
    }
    get("detail").replaceChildren(make("h2", title), ...found.map((each) => make("p", `\u25bc ${each.text}`, "found")),
        list);
    get("detail").dataset.exchange = String(at);
}

function fieldsOf(hex, isWhole) {
    const shown = make("dd", "", "bytes");
    let at = 0;
    for (const [name, count] of isWhole ? fieldLengths(hex) : [["bytes", hex.length / 2]]) {
        if (count > 0) {
            const field = make("span");
            field.append(make("small", name), make("code", hex.slice(2 * at, 2 * (at + count))));
            shown.append(field);
        }
        at += count;
    }
    return shown;
}

function fieldLengths(hex) {
    const total = hex.length / 2;
    if (hex.startsWith("cc01") && total >= HEAD_BYTES + 2) {
        const length = parseInt(hex.slice(4, 6), 16);
        return [...FIELDS, ["data", length - HEAD_BYTES], ["checksum", 2], ["after it", total - length - 2]];
    }
    const start = hex.search(/^(fe)*aa/) < 0 ? 0 : hex.match(/^(fe)*/)[0].length / 2;
    return [["preamble", start], ["separator", 1], ["UID", 12], ["checksum", 4], ["after it", total - start - 17]];
}

// The list of findings, and the legend.

function lineOf(finding) {
    const label = labels.get(finding.uid), text = label ? `${label}: ${finding.text}` : finding.text;
    const item = make("li", "", finding.isHead ? "head" : "");
    if (finding.place === null) {
        item.append(make("span", "", finding.isHead ? "" : "mark"), make("span", text));
        return item;
    }
    const button = make("button", text);
    button.addEventListener("click", () => showPlace(finding));
    item.append(make("span", "\u25bc", "mark"), button);
    return item;
}

function showPlace(finding) {
    if (size.width < 12) {
        setWidth(12);
    }
    if (finding.uid !== null) {
        view.scrollTop = topOf(parseInt(finding.uid.replace(":", ""), 16)) - view.clientHeight / 2;
    }
    select(finding.place);
}

function listFindings(isAll) {
    const isShort = get("only").checked;
    const wanted = log.findings.filter((finding) => !isShort || finding.place !== null || finding.isHead);
    const first = isAll ? wanted : wanted.slice(0, FIRST_LINES);
    get("findings").replaceChildren(...first.map(lineOf));
    if (first.length < wanted.length) {
        const more = make("button", `show all ${wanted.length} lines`);
        more.addEventListener("click", () => listFindings(true));
        get("findings").append(more);
    }
}

function legend(text, paint) {
    const item = make("li");
    const sample = make("canvas");
    sample.width = 44;
    sample.height = 28;
    const ink = sample.getContext("2d");
    ink.scale(2, 2);
    paint(ink);
    item.append(sample, make("span", text));
    get("legend").append(item);
}

function listLegend() {
    const heard = columns.came;
    const counts = CAME.map(() => 0);
    for (let at = 0; at < log.count; at++) {
        counts[heard[at]] += columns.asked[at] === UNMUTES && heard[at] === SILENCE ? 0 : 1;
    }
    CAME.forEach((kind, came) => {
        if (counts[came]) {
            legend(`${kind.text} ${counts[came]}`, (ink) => {
                drawBar(ink, came, 0, 0, 22, 14);
                if (came === ONE) {
                    drawSpelled(ink, 0, 7, 22);
                }
            });
        }
    });
    if (log.asked[UNMUTES]) {
        legend(`unmute ${log.asked[UNMUTES]}`, (ink) => drawUnmute(ink, 0, 0, 22, 14));
    }
    for (const [asked, name] of ASKED.entries()) {
        if (log.asked[asked] && LETTERS[asked]) {
            legend(`${name} ${log.asked[asked]}`, (ink) => drawBlock(ink, asked, SILENCE, 4, 0, 14, 14));
        }
    }
    if (log.clients.length) {
        legend("a client waits, or is served", (ink) => {
            ink.fillStyle = "#c9d9ea";
            ink.fillRect(0, 2, 11, 9);
            ink.fillStyle = "#33527a";
            ink.fillRect(11, 2, 11, 9);
        });
    }
}

// What people do.

function clicked(event) {
    const box = view.getBoundingClientRect();
    const [x, y] = [event.clientX - box.left - view.clientLeft, event.clientY - box.top - view.clientTop];
    if (x < GUTTER) {
        return;
    }
    const mark = marks.find((each) => Math.abs(xOf(each.place) + size.width / 2 - x) <= 6);
    const at = Math.floor((view.scrollLeft + x - GUTTER) / size.width);
    if (mark && (y < header || size.width < 3)) {
        select(mark.place);
    } else if (at < log.count) {
        select(at);
    }
}

function pressed(event) {
    const keys = {
        ArrowRight: () => select((selected ?? -1) + 1), ArrowLeft: () => select((selected ?? 1) - 1),
        Home: () => select(0), End: () => select(log.count - 1),
        "+": () => setWidth(size.width * 2), "-": () => setWidth(size.width / 2), 0: () => setWidth(0),
    };
    if (keys[event.key] && log.count && !event.ctrlKey && !event.metaKey) {
        event.preventDefault();
        keys[event.key]();
    }
}

function zoomed(event) {
    if (event.ctrlKey) {
        event.preventDefault();
        const x = event.clientX - view.getBoundingClientRect().left;
        setWidth(size.width * (event.deltaY < 0 ? 1.25 : 0.8), x);
    }
}

function listen() {
    get("in").addEventListener("click", () => setWidth(size.width * 2));
    get("out").addEventListener("click", () => setWidth(size.width / 2));
    get("all").addEventListener("click", () => setWidth(0));
    get("higher").addEventListener("click", () => setRows(1.5));
    get("lower").addEventListener("click", () => setRows(1 / 1.5));
    get("only").addEventListener("change", () => listFindings(false));
    canvas.addEventListener("click", clicked);
    view.addEventListener("keydown", pressed);
    view.addEventListener("wheel", zoomed, {passive: false});
    view.addEventListener("scroll", redraw);
    new ResizeObserver(() => setWidth(size.width)).observe(view);
    SCHEME.addEventListener("change", () => location.reload());
}

async function open() {
    get("title").textContent = `explain: ${log.name}`;
    const [worst, ...others] = log.verdict;
    const counts = `${counted(log.count, "exchange")}, ${counted(log.runs.length, "run")}.`;
    get("verdict").replaceChildren(make("b", worst), ` ${[...others, counts].join(" ")}`);
    get("filter").hidden = log.findings.length <= LONG_LIST;
    get("only").checked = log.findings.length > LONG_LIST;
    listFindings(false);
    columns = await readColumns();
    listLegend();
    fitRows();
    size.width = fits();
    setExtent();
    listen();
    draw();
    document.documentElement.dataset.ready = "yes";
}

open().catch((fault) => {
    get("note").textContent = `The picture can't be drawn: ${fault}`;
    throw fault;
});
