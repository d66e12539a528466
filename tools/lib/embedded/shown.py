"""What a browser makes of the page."""
import os

from lib.embedded.browsing import Browser
from lib.tally import Tally

WIDTHS = (420, 1_150)  # of a phone, and of a screen
SLOW = 5  # milliseconds that a small question may take after the first, by the median of 20
TAB, ENTER = "\ue004", "\ue007"
# the most times that Tab is pressed to get to an element
FIELDS = 40
# how often it is looked for an answer, every 20 milliseconds
WAITS = 500
ANSWERS = """
const bytesOf = (text) => Uint8Array.from(atob(text), (c) => c.charCodeAt(0));
const answers = [];
for (const { words, policy, new: newPolicy } of given[0]) {
  answers.push(await ask(bytesOf(policy), words, bytesOf(newPolicy)));
}
return answers;"""
MILLISECONDS = """
const policy = new TextEncoder().encode(given[0]), times = [];
for (let time = 0; time < 21; time++) {
  const began = performance.now();
  await ask(policy, given[1]);
  times.push(performance.now() - began);
}
return times.slice(1).sort((one, other) => one - other)[10];"""
TEXTS = """return ["words", "status", "output", "errors", "told"].map((id) => document.getElementById(id).innerText);"""
FOCUS = "return document.activeElement.id || document.activeElement.name || '';"
WIDE = "return document.documentElement.scrollWidth;"
MEANT = "return [...document.querySelectorAll('pre abbr')].map((word) => [word.textContent, word.title]);"
LISTED = "return [...document.querySelectorAll('#meanings dt')].map((word) => word.textContent);"
# what the rules of the page refuse: a request, a script and a picture from elsewhere
REFUSED = """
const tried = [];
try { await fetch("https://example.invalid/"); tried.push("fetched"); } catch { tried.push("no fetch"); }
const script = document.createElement("script");
script.textContent = "window.ran = true";
document.body.append(script);
tried.push(window.ran ? "ran" : "no script");
const picture = new Image();
const ended = new Promise((done) => {
  picture.onload = () => done("picture");
  picture.onerror = () => done("no picture");
});
picture.src = "data:image/gif;base64,R0lGODlhAQABAAAAACw=";
tried.push(await ended);
return tried;"""


def to(browser: Browser, name: str) -> bool:
    """Presses Tab until an element has the focus; says whether it got it."""
    for _ in range(FIELDS):
        if browser.run(FOCUS) == name:
            return True
        browser.press(TAB)
    return False


def by_keys(tally: Tally, browser: Browser, url: str, policy: str) -> None:
    """A question is asked without a pointer."""
    browser.open(url)
    browser.type_into("#file", os.path.abspath(policy))
    for field, text in (("user", "ANNA"), ("command", "C PAYROLL"), ("console", "C1")):
        tally.wants(f"Tab gets to {field}", to(browser, field))
        browser.press(*text)
    browser.press(ENTER)
    words, status, output, errors, told = answered(browser)
    name = os.path.basename(policy)
    command = f"opcmds explain --user ANNA --command 'C PAYROLL' --console C1 --why < {name}"
    tally.equal("the command line", words, command)
    tally.wants("the status", status.startswith("Status "), status)
    tally.wants("an answer", output.startswith("NEEDS ") and not errors, (output, errors))
    tally.wants("the file is named", told.startswith(f"{name}: "), told)
    tally.wants("Tab gets to the answer", to(browser, "output"))
    meant = browser.run(MEANT)
    tally.wants("words are explained", dict(meant).get("NEEDS", "") != "", meant)
    tally.equal("the explained words are listed", set(browser.run(LISTED)), {word for word, _ in meant})


def answered(browser: Browser) -> list[str]:
    """The texts of the page, once there is an answer."""
    for _ in range(WAITS):
        found = browser.run(TEXTS)
        if found[1]:
            return found
        browser.run("await new Promise((done) => setTimeout(done, 20));")
    return found


def kinds(tally: Tally, browser: Browser, url: str, policy: str) -> None:
    """Each kind of question is asked, with what it shows at both widths."""
    for kind in ("who", "may", "check", "diff", "sheet"):
        browser.open(url)
        browser.type_into("#file", os.path.abspath(policy))
        browser.run(f"document.querySelector('[value={kind}]').click();")
        if kind == "diff":
            browser.type_into("#new", os.path.abspath(policy))
        if kind == "may":
            browser.type_into("[name=user]", "ANNA")
        if kind == "who":
            browser.type_into("[name=command]", "C PAYROLL")
        browser.run("document.getElementById('ask').click();")
        _, status, output, errors, _ = answered(browser)
        tally.wants(f"{kind}: an answer", status.startswith("Status ") and not errors, (status, output, errors))
        for width in WIDTHS:
            browser.wide(width)
            tally.wants(f"{kind}: {width} wide", browser.run(WIDE) <= width, browser.run(WIDE))
    tally.wants("the page of sheet is saved", browser.run("return document.getElementById('save').download;") != "")


def judge(tally: Tally, browser: Browser, url: str, policy: str) -> None:
    by_keys(tally, browser, url, policy)
    kinds(tally, browser, url, policy)
    tally.equal("what the rules refuse", browser.run(REFUSED), ["no fetch", "no script", "no picture"])
    with open(policy, encoding="utf-8") as file:
        words = ["explain", "--user", "ANNA", "--command", "C PAYROLL"]
        took = browser.run(MILLISECONDS, file.read(), words)
    tally.wants(f"a small question takes at most {SLOW} ms", took <= SLOW, took)
    print(f"a small question: {took:.1f} ms")


def pictures(browser: Browser, url: str, policy: str, folder: str) -> None:
    """A picture of an answer for each width, light, dark, and without colours."""
    for width in WIDTHS:
        for scheme in ("light", "dark"):
            browser.open(url)
            browser.wide(width)
            browser.tools("Emulation.setEmulatedMedia", features=[{"name": "prefers-color-scheme", "value": scheme}])
            browser.type_into("#file", os.path.abspath(policy))
            for field, text in (("user", "ANNA"), ("command", "C PAYROLL"), ("console", "C1")):
                browser.type_into(f"[name={field}]", text)
            browser.run("document.getElementById('ask').click();")
            answered(browser)
            browser.picture(f"{folder}/page-{width}-{scheme}.png")
            browser.tools("Emulation.setEmulatedVisionDeficiency", type="achromatopsia")
            browser.picture(f"{folder}/page-{width}-{scheme}-grey.png")
            browser.tools("Emulation.setEmulatedVisionDeficiency", type="none")


def answers(browser: Browser, url: str, asked: list[dict[str, object]]) -> list[dict[str, object]]:
    browser.open(url)
    found = []
    for at in range(0, len(asked), 50):
        found += browser.run(ANSWERS, asked[at:at + 50])
    return found
