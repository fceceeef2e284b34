"""What headless Chromium says of a page: what is cut, what meets, and what people who do not see or use no mouse cannot use."""

from __future__ import annotations

import importlib
import shutil
from pathlib import Path
from typing import Any

HEIGHT = 900

# Words of a picture that meet, or lie beyond its frame, or are small; tables without headings, or with headings and labels; and
# what is wider than its place.
_LOOK = """
const faults = [];
for (const picture of document.querySelectorAll("svg")) {
  const frame = picture.getBoundingClientRect();
  const boxes = [...picture.querySelectorAll("text")].map((text) => [text.textContent, text.getBoundingClientRect()]);
  boxes.forEach(([words, box], at) => {
    if (box.left < frame.left - 1 || box.right > frame.right + 1 || box.top < frame.top - 1 || box.bottom > frame.bottom + 1)
      faults.push("beyond its picture: " + words);
    for (const [others, other] of boxes.slice(at + 1)) {
      const across = Math.min(box.right, other.right) - Math.max(box.left, other.left);
      const down = Math.min(box.bottom, other.bottom) - Math.max(box.top, other.top);
      if (across > 1 && down > box.height * 0.3) faults.push("meet: " + words + " / " + others);
    }
  });
}
for (const text of document.querySelectorAll("svg text")) {
  const size = parseFloat(getComputedStyle(text).fontSize) * text.getScreenCTM().a;
  if (size < 11) faults.push("letters of " + size + ": " + text.textContent);
}
for (const table of document.querySelectorAll("table")) {
  const cell = table.querySelector("td");
  if (!cell || table.getClientRects().length === 0) continue;
  const isLabeled = getComputedStyle(cell, "::before").content !== "none";
  if (isLabeled === table.tHead.getClientRects().length > 0)
    faults.push((isLabeled ? "headings above labels: " : "no headings: ") + table.outerHTML.slice(0, 80));
}
const wide = document.documentElement.scrollWidth - window.innerWidth;
if (wide > 0) faults.push("wider than the screen by " + wide);
for (const element of document.querySelectorAll("body *")) {
  const scrolls = ["auto", "scroll"].includes(getComputedStyle(element).overflowX);
  if (scrolls && element.scrollWidth > element.clientWidth) faults.push("scrolls sideways: " + element.outerHTML.slice(0, 80));
}
return faults;
"""

# What axe-core finds by its rules; each line below names those that it stands for.
_RULES = """
const faults = [];
const all = (selector) => [...document.querySelectorAll(selector)];
const shown = (element) => element.outerHTML.slice(0, 80);
const expect = (is_good, what, element) => { if (!is_good) faults.push(what + (element ? ": " + shown(element) : "")); };
const words_of = (ids) => ids.split(/\\s+/).map((id) => document.getElementById(id)?.textContent ?? "").join(" ");
const name_of = (element) =>
  (element.hasAttribute("aria-labelledby") ? words_of(element.getAttribute("aria-labelledby")) : "") ||
  element.getAttribute("aria-label") ||
  (element.labels?.length ? element.labels[0].textContent : "") ||
  element.textContent;

// html-has-lang, html-lang-valid, document-title, meta-viewport, meta-refresh
const root = document.documentElement;
expect(/^[a-z]{2,3}$/.test(root.lang), "a page without a language");
expect(document.title.trim(), "a page without a title");
expect(!/user-scalable\\s*=\\s*(no|0)|maximum-scale/.test(document.querySelector("meta[name=viewport]").content), "no zoom");
expect(!document.querySelector("meta[http-equiv=refresh]"), "a page that loads itself anew");

// duplicate-id, duplicate-id-active, duplicate-id-aria, aria-valid-attr-value
const ids = new Set();
for (const element of all("[id]")) {
  expect(element.id && !ids.has(element.id), "an id that is not its own", element);
  ids.add(element.id);
}
for (const attribute of ["aria-labelledby", "aria-describedby", "aria-controls", "for", "headers"])
  for (const element of all(`[${attribute}]`))
    for (const id of element.getAttribute(attribute).split(/\\s+/)) expect(ids.has(id), "names no id " + id, element);
for (const element of all("[aria-sort]"))
  expect(["ascending", "descending", "none", "other"].includes(element.getAttribute("aria-sort")), "aria-sort", element);

// button-name, link-name, summary-name, label, select-name, input-button-name, aria-command-name, aria-input-field-name
for (const element of all("button, summary, a, input, select, textarea, [role=button], [role=link]"))
  expect(name_of(element).trim(), "a control without a name", element);
// label-title-only, form-field-multiple-labels
for (const element of all("input, select, textarea")) expect(element.labels.length === 1, "not one label", element);
// link-in-text-block: a link is told by more than its color
for (const element of all("a[href]"))
  expect(getComputedStyle(element).textDecorationLine.includes("underline"), "a link without a line", element);
// skip-link, and each link to a part of the page
for (const element of all('a[href^="#"]'))
  expect(ids.has(element.getAttribute("href").slice(1)), "a link that leads nowhere", element);
// nested-interactive, tabindex, accesskeys, scrollable-region-focusable
for (const element of all("button, summary, a, label"))
  expect(!element.querySelector("button, summary, a, input"), "a control in a control", element);
expect(all("[tabindex], [accesskey]").length === 0, "an order of its own");
// frame-title, object-alt, area-alt, video-caption, blink, marquee: there are none of these
expect(all("iframe, object, area, video, audio, embed, blink, marquee, img").length === 0, "an element that has no place here");

// heading-order, empty-heading, page-has-heading-one
let level = 0;
for (const heading of all("h1, h2, h3, h4, h5, h6")) {
  const next = Number(heading.tagName[1]);
  expect(next <= level + 1 && (next > 1 || level === 0), "a heading out of order", heading);
  expect(heading.textContent.trim(), "a heading without a word", heading);
  level = next;
}
expect(all("h1").length === 1, "not one heading of the page");

// landmark-one-main, landmark-main-is-top-level, landmark-no-duplicate-banner, landmark-no-duplicate-contentinfo, landmark-unique
const main = document.querySelector("main");
expect(all("main").length === 1 && main.parentElement === document.body, "not one main");
for (const kind of ["header", "footer"]) expect(all(`body > ${kind}`).length === 1, `not one ${kind} of the page`);
const navigations = all("nav").map((part) => part.getAttribute("aria-label") ?? "");
const are_named = navigations.every((name) => name.trim()) && new Set(navigations).size === navigations.length;
expect(are_named, "parts without a name of their own");
// region: all that is shown is in a landmark
for (const element of document.body.children)
  expect(["HEADER", "MAIN", "NAV", "FOOTER", "SCRIPT"].includes(element.tagName), "outside the parts of the page", element);

// th-has-data-cells, scope-attr-valid, td-has-header, table-fake-caption, table-duplicate-name, empty-table-header
const names = [];
for (const table of all("table")) {
  const heads = [...table.querySelectorAll("thead th")];
  names.push(name_of(table).trim());
  expect(table.hasAttribute("aria-label") || table.caption, "a table without a name", table);
  expect(heads.every((head) => head.scope === "col" && head.textContent.trim()), "a column without a heading", table);
  for (const row of table.tBodies[0].rows) expect(row.cells.length === heads.length, "cells without a heading", row);
}
expect(new Set(names).size === names.length, "two tables of one name");

// list, listitem, definition-list, dlitem
for (const list of all("ul, ol")) for (const item of list.children) expect(item.tagName === "LI", "no item of a list", item);
for (const item of all("li")) expect(["UL", "OL"].includes(item.parentElement.tagName), "an item without a list", item);
for (const list of all("dl"))
  for (const group of list.children) {
    const are_words = [...group.children].map((one) => one.tagName).join() === "DT,DD";
    expect(group.tagName === "DIV" && are_words, "no term and words", group);
  }

// svg-img-alt, role-img-alt, aria-hidden-focus, aria-hidden-body, aria-roles
for (const picture of all("svg")) {
  const is_hidden = picture.getAttribute("aria-hidden") === "true";
  expect(is_hidden || (picture.getAttribute("role") === "img" && name_of(picture).trim()), "a picture without words", picture);
}
for (const element of all("[role]")) expect(element.getAttribute("role") === "img", "a role of its own", element);
for (const element of all("[aria-hidden]"))
  expect(!element.querySelector("a, button, input, summary"), "a hidden control", element);
return faults;
"""

# Words that are hard to read on their ground: with a contrast below 4.5 (color-contrast). All that is folded is opened first.
_CONTRAST = """
for (const element of document.querySelectorAll("details")) element.open = true;
const parts = (color) => (color.match(/[\\d.]+/g) ?? []).map(Number);
const light = (color) => {
  const [red, green, blue] = parts(color).slice(0, 3).map((part) => {
    const value = part / 255;
    return value <= 0.04045 ? value / 12.92 : ((value + 0.055) / 1.055) ** 2.4;
  });
  return 0.2126 * red + 0.7152 * green + 0.0722 * blue;
};
const ground = (element) => {
  for (let at = element; at; at = at.parentElement) {
    const color = at instanceof SVGElement ? "" : getComputedStyle(at).backgroundColor;
    if (color && parts(color)[3] !== 0) return color;
  }
  return "rgb(255, 255, 255)";
};
const found = new Set();
const compare = (color, element, words) => {
  const [one, other] = [light(color), light(ground(element))];
  const contrast = (Math.max(one, other) + 0.05) / (Math.min(one, other) + 0.05);
  if (!(contrast >= 4.5)) found.add(`a contrast of ${contrast.toFixed(1)}: ${words.slice(0, 40)}`);
};
for (const element of document.querySelectorAll("body *")) {
  if (element.getClientRects().length === 0 || element.closest("defs, title, desc, script, style")) continue;
  const style = getComputedStyle(element);
  const own = [...element.childNodes].some((node) => node.nodeType === Node.TEXT_NODE && node.textContent.trim());
  if (own) compare(element instanceof SVGElement ? style.fill : style.color, element, element.textContent);
  for (const side of ["::before", "::after"]) {
    const made = getComputedStyle(element, side);
    if (!["none", "normal", '""'].includes(made.content)) compare(made.color, element, made.content);
  }
}
return [...found];
"""

# A page without a fault.
_GOOD = """<!DOCTYPE html>
<html lang="en"><head><meta charset="utf-8"><meta name="viewport" content="width=device-width, initial-scale=1">
<title>A page</title></head><body><header><h1>One</h1></header><main><h2 id="two">Two</h2>
<nav aria-label="Parts"><ul><li><a href="#two">to two</a></li></ul></nav>
<table aria-label="Rows"><thead><tr><th scope="col"><button>Name</button></th></tr></thead>
<tbody><tr><td>cell</td></tr></tbody></table><dl><div><dt>term</dt><dd>words</dd></div></dl>
<input type="checkbox" id="all"><label for="all">Show all</label><details><summary>More</summary><p>more</p></details>
<svg viewBox="0 0 360 20" width="360" role="img" aria-labelledby="picture"><title id="picture">Picture</title>
<text x="0" y="15" font-size="12">words</text></svg></main><footer><p>end</p></footer></body></html>
"""
# What is changed of it, and the fault that this is.
_BROKEN = [
    (' lang="en"', "", "a page without a language"),
    ("<title>A page</title>", "<title></title>", "a page without a title"),
    ("initial-scale=1", "user-scalable=no", "no zoom"),
    ('id="two"', 'id="all"', "an id that is not its own"),
    ('aria-labelledby="picture"', 'aria-labelledby="none"', "names no id none"),
    ("<th ", '<th aria-sort="up" ', "aria-sort"),
    ("<button>Name</button>", "Name<button></button>", "a control without a name"),
    ("<summary>More</summary>", "<summary></summary>", "a control without a name"),
    ("to two</a>", "</a>", "a control without a name"),
    ('<label for="all">Show all</label>', "Show all", "not one label"),
    ('<a href="#two"', '<a href="#two" style="text-decoration: none"', "a link without a line"),
    ('<a href="#two"', '<a href="#three"', "a link that leads nowhere"),
    ("<summary>More", "<summary>More <a href='#two'>two</a>", "a control in a control"),
    ("<p>more</p>", "<p tabindex='1'>more</p>", "an order of its own"),
    ("<p>more</p>", "<p><img alt='x'></p>", "an element that has no place here"),
    ('<h2 id="two">Two</h2>', '<h3 id="two">Two</h3>', "a heading out of order"),
    ('<h2 id="two">Two</h2>', '<h1 id="two">Two</h1>', "not one heading of the page"),
    ("Two</h2>", "</h2>", "a heading without a word"),
    ("</main>", "</main><main></main>", "not one main"),
    ("<footer>", "<footer></footer><footer>", "not one footer"),
    (' aria-label="Parts"', "", "parts without a name of their own"),
    ("<footer>", "<p>end</p><footer>", "outside the parts of the page"),
    (' aria-label="Rows"', "", "a table without a name"),
    (' scope="col"', "", "a column without a heading"),
    ("<td>cell</td>", "<td>cell</td><td>cell</td>", "cells without a heading"),
    ("</table>", '</table><table aria-label="Rows"><tbody></tbody></table>', "two tables of one name"),
    ("<ul>", "<ul><p>two</p>", "no item of a list"),
    ("<ul><li>", "<li>", "an item without a list"),
    ("<dt>term</dt>", "", "no term and words"),
    (' role="img"', "", "a picture without words"),
    ("<dl>", '<dl role="list">', "a role of its own"),
    ("<dl>", '<div aria-hidden="true"><button>x</button></div><dl>', "a hidden control"),
    ('font-size="12"', 'font-size="10"', "letters of 10"),
    ('x="0"', 'x="350"', "beyond its picture"),
    ("<thead>", '<thead style="display: none">', "no headings"),
    ("</head>", "<style>td::before { content: 'Name'; }</style></head>", "headings above labels"),
    ("</text>", '</text><text x="5" y="15" font-size="12">again</text>', "meet"),
    ("<p>end</p>", '<p style="width: 3000px">end</p>', "wider than the screen"),
    ("<p>end</p>", '<p style="overflow-x: auto"><span style="margin-left: 3000px">end</span></p>', "scrolls sideways"),
    ("<td>", '<td style="color: #888888">', "a contrast of"),
    ("<p>more</p>", '<p style="color: #888888">more</p>', "a contrast of"),
    ("</head>", '<style>td::before { content: "a"; color: #888888; }</style></head>', "a contrast of"),
]


def browser() -> Any:
    """Chromium without a window."""
    # Here, so that tests without a browser need no package; and by name, because its types differ between versions.
    webdriver: Any = importlib.import_module("selenium.webdriver")
    service: Any = importlib.import_module("selenium.webdriver.chrome.service")
    options = webdriver.ChromeOptions()
    for word in ("--headless=new", "--no-sandbox", "--disable-gpu", "--disable-dev-shm-usage", "--hide-scrollbars"):
        options.add_argument(word)
    options.binary_location = shutil.which("chromium") or ""
    return webdriver.Chrome(service=service.Service(shutil.which("chromedriver")), options=options)


def open_page(driver: Any, page: Path, width: int) -> None:
    """Opens a page on a screen of this width."""
    screen = {"width": width, "height": HEIGHT, "deviceScaleFactor": 1, "mobile": False}
    driver.execute_cdp_cmd("Emulation.setDeviceMetricsOverride", screen)
    driver.get(page.as_uri())


def set_colors(driver: Any, scheme: str) -> None:
    """Asks for "dark" or "light" colors."""
    wanted = {"name": "prefers-color-scheme", "value": scheme}
    driver.execute_cdp_cmd("Emulation.setEmulatedMedia", {"features": [wanted]})


def faults_at(driver: Any, page: Path, width: int) -> list[str]:
    """What is wrong with how a page looks at a width, as it opens and with all that is folded opened, in both colors, and what is
    wrong with it for people who do not see it."""
    open_page(driver, page, width)
    faults: list[str] = driver.execute_script(_LOOK) + driver.execute_script(_RULES)
    for scheme in ("dark", "light"):
        set_colors(driver, scheme)
        faults += [f"{fault}, in {scheme} colors" for fault in driver.execute_script(_CONTRAST)]
    return faults + [f"{fault}, unfolded" for fault in driver.execute_script(_LOOK)]


def unseen_fault(driver: Any, folder: Path) -> str:
    """The first fault that is not found in a page that has it, or that is found in a page that has none."""
    page = folder / "broken.html"
    for old, new, wanted in [("", "", ""), *_BROKEN]:
        page.write_text(_GOOD.replace(old, new) if old else _GOOD, "utf-8")
        found = faults_at(driver, page, 1280)
        if not any(wanted in fault for fault in found) if wanted else found:
            return f"of {new or old or 'a good page'}: {wanted or 'nothing'}, and not {found}"
    return ""
