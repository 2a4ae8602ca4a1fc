"""The rules that matter most for people who see, point or read otherwise, as JavaScript: each gives what breaks it."""
from __future__ import annotations

# What rules need: elements that are seen, their colours, and the names that a reader of screens says.
PRELUDE = """
const seen = (what) => [...document.querySelectorAll(what)].filter((each) => each.checkVisibility()
    && each.getBoundingClientRect().width > 1);
const said = (each) => each.outerHTML.slice(0, 160);
const nameOf = (each) => (each.getAttribute("aria-label") || (each.getAttribute("aria-labelledby") ?? "").split(" ")
    .map((id) => document.getElementById(id)?.textContent ?? "").join(" ").trim()
    || [...(each.labels ?? [])].map((label) => label.textContent).join(" ").trim() || each.title
    || (each.matches("input, select") ? "" : each.textContent.trim()));
const numbers = (text) => (text.match(/[\\d.]+/g) ?? []).map(Number);
const linear = (value) => (value /= 255, value <= 0.04045 ? value / 12.92 : ((value + 0.055) / 1.055) ** 2.4);
const light = ([red, green, blue]) => 0.2126 * linear(red) + 0.7152 * linear(green) + 0.0722 * linear(blue);
const behind = (each) => {
    for (let at = each; at; at = at.parentElement) {
        const colour = numbers(getComputedStyle(at).backgroundColor);
        if (colour.length === 3 || colour[3] > 0.99) { return colour.slice(0, 3); }
    }
    return numbers(getComputedStyle(document.documentElement).getPropertyValue("color-scheme")).concat([255, 255, 255]);
};
const contrast = (one, other) => { const [low, high] = [light(one), light(other)].sort((a, b) => a - b);
    return (high + 0.05) / (low + 0.05); };
const controls = "a[href], button, input, select, summary, iframe";
"""


def rule(text: str) -> str:
    """A rule as an expression."""
    return f"(() => {{ {PRELUDE} {text} }})()"


RULES = {
    "a control has a name": rule("return seen(controls).filter((each) => !nameOf(each)).map(said);"),
    "texts stand out": rule("""return seen("body *").filter((each) => [...each.childNodes].some((node) =>
        node.nodeType === 3 && node.textContent.trim())).filter((each) => {
        const style = getComputedStyle(each), large = parseFloat(style.fontSize) >= 24;
        return contrast(numbers(style.color).slice(0, 3), behind(each)) < (large ? 3 : 4.5); }).map(said);"""),
    "what is typed stands out": rule("""return seen("input, select").filter((each) => contrast(
        numbers(getComputedStyle(each).color).slice(0, 3), behind(each)) < 4.5).map(said);"""),
    "the page has a language and a title": rule(
        "return document.documentElement.lang === 'en' && document.title.includes('Wurstlinen') ? [] : ['none'];"),
    "there is one main part, and one heading of the first level": rule(
        "return ['main', 'h1', 'nav'].filter((each) => document.querySelectorAll(each).length !== 1);"),
    "headings leave out no level": rule("""const levels = [...document.querySelectorAll("h1, h2, h3, h4")].map((each) =>
        Number(each.tagName[1])); return levels.filter((level, at) => level > (levels[at - 1] ?? 0) + 1);"""),
    "names of elements are unique": rule("""const all = [...document.querySelectorAll("[id]")].map((each) => each.id);
        return all.filter((each, at) => all.indexOf(each) !== at);"""),
    "keys come in the order of the page": rule(
        "return seen('[tabindex]').filter((each) => each.tabIndex > 0).map(said);"),
    "a finger or a mouse hits it": rule("""const least = innerWidth < 700 ? 44 : 24;
        return seen("button, input, select, nav a, .more, .back, summary").filter((each) => {
        const box = each.getBoundingClientRect(), isPiece = each.matches(".piece");
        return box.height < (isPiece ? Math.max(32, least) : least) || box.width < (isPiece ? least : 24);
        }).map(said);"""),
    "nothing is wider than the screen": rule(
        "return document.documentElement.scrollWidth > innerWidth ? [document.documentElement.scrollWidth] : [];"),
    "changes are said to who doesn't see them": rule(
        "return ['[role=status]', '[role=alert]'].filter((each) => !document.querySelector(each));"),
}
