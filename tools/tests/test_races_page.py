"""docs/races.html in a browser: every order of every scene, by keys, touch and links, and no error, request or scroll."""

from __future__ import annotations

import json
import os
import re
import subprocess
import sys
import tempfile
import time
import unittest
from pathlib import Path
from typing import Any

import browser
from shared import BUILT, CLI, DEOLMUTT, TOP

PAGE = TOP / "docs/races.html"
PICTURES = (TOP / "docs/delivery.svg", TOP / "docs/listing.svg")
ELEMENT = b"<script>alert(1)</script>"
HOSTILE = b"# %s\nfolder <b>i\nfolder j\njob deliver <b>i <script>alert(1)<script> 99 %s\njob clean <b>i\nfinish 1 1\nfinish 2 1\n" % (ELEMENT, ELEMENT)
LEFT, UP, RIGHT, DOWN, HOME, END, TAB, SPACE = "\ue012", "\ue013", "\ue014", "\ue015", "\ue011", "\ue010", "\ue004", " "
PLACES = ("tmp", "new", "cur")
PHONE, TABLET, DESK = (360, 740), (768, 1024), (1440, 900)

# Opens an address, and steps to the end by keys; gives what each side shows at the beginning and after each step.
STEP_THROUGH = """
const shown = () => [...document.querySelectorAll('.run')].map(run => ({
  rows: Object.fromEntries([...run.querySelectorAll('.state ul')].map(list =>
    [list.getAttribute('aria-label'), [...list.children].map(item => item.textContent)])),
  now: run.querySelector('.now').textContent,
  notes: run.querySelector('.notes').textContent,
  ending: run.querySelector('.ending').textContent,
}));
const stepsOf = run => [...run.querySelectorAll('.steps li')].map(item => item.textContent);
const state = () => ({ address: location.hash, place: document.getElementById('place').textContent, sides: shown(),
  said: document.getElementById('said').textContent, width: document.documentElement.scrollWidth });
const [address, steps] = arguments;
return new Promise(done => {
  const begin = () => {
    const kept = [state()];
    for (let step = 0; step < steps; step += 1) {
      document.body.dispatchEvent(new KeyboardEvent('keydown', { key: 'ArrowRight', bubbles: true }));
      kept.push(state());
    }
    done([kept, [...document.querySelectorAll('.run')].map(stepsOf)]);
  };
  if (location.hash === address) begin();
  else { addEventListener('hashchange', begin, { once: true }); location.hash = address; }
});
"""
# Where the bar is, and where the directories of each side are.
BOXES = """
const box = one => { const { top, bottom } = one.getBoundingClientRect(); return [top, bottom]; };
return { bar: box(document.getElementById('bar')), states: [...document.querySelectorAll('.state')].map(box), high: innerHeight };
"""
# In each run the heights at which its parts begin and end, of those that have a text or names.
PARTS = """
return [...document.querySelectorAll('.run')].map(run => ['now', 'state', 'ending'].map(kind => {
  const { top, bottom } = run.querySelector(`.${kind}`).getBoundingClientRect();
  return [top, bottom];
}));
"""
# The races whose names in the list are wider than there is room for, beside the arrow.
CLIPPED = """
const select = document.getElementById('scene');
const { font, paddingLeft, paddingRight } = getComputedStyle(select);
const pen = document.createElement('canvas').getContext('2d');
pen.font = font;
const room = select.clientWidth - parseFloat(paddingLeft) - parseFloat(paddingRight) - 16;
return [...select.options].map(one => one.text).filter(text => pen.measureText(text).width > room);
"""
# What is wider than the box that it stands in, where no bar scrolls it.
OVERFLOWS = """
return [...document.querySelectorAll('main *, #bar *')].filter(one => one.clientWidth && one.scrollWidth > one.clientWidth + 1
  && !one.matches('.unseen, select, .dot, .who')).map(one => one.outerHTML.slice(0, 80));
"""


def data_of(page: Path) -> list[dict]:
    """The scenes that a page holds."""
    text = page.read_text(encoding="utf-8")
    return json.loads(re.search(r'id="data">(.*?)</script>', text, re.S)[1])


def rows_of(side: dict, state: int) -> dict[str, list[str]]:
    """The names of a state, as the page shows them."""
    is_alone = len(side["folders"]) == 1
    return {
        f"{place}/" if is_alone else f"{folder}/{place}/": names
        for folder, places in zip(side["folders"], side["states"][state])
        for place, names in zip(PLACES, places)
    }


def text_of(side: dict, step: list) -> str:
    """The sentence of a step."""
    return f"{side['actors'][step[0]][0]} {''.join(step[1])}"


class BrowserTest(unittest.TestCase):
    """A test with the page in Chromium."""

    @classmethod
    def setUpClass(cls) -> None:
        cls.browser = browser.Browser()
        cls.addClassCleanup(cls.browser.close)
        cls.scenes = data_of(PAGE)

    def setUp(self) -> None:
        self.browser.size(*DESK)
        self.set_motion("no-preference")
        self.open("")

    def open(self, address: str) -> None:
        """Opens the page anew at an address in it."""
        self.browser.post("/url", {"url": "about:blank"})
        self.browser.post("/url", {"url": PAGE.resolve().as_uri() + address})

    def set_motion(self, wanted: str) -> None:
        """What the system asks for."""
        self.browser.command("Emulation.setEmulatedMedia", features=[{"name": "prefers-reduced-motion", "value": wanted}])

    def text(self, of: str) -> str:
        """The text of an element."""
        return self.browser.run("return document.querySelector(arguments[0]).textContent", of)

    def address(self) -> str:
        """The address in the page."""
        return self.browser.run("return location.hash")


@unittest.skipUnless(browser.is_there(), f"{browser.PACKAGES} are not there")
@unittest.skipUnless(PAGE.exists(), "docs/races.html is not there")
class Page(BrowserTest):
    """The page as readers have it."""

    def check_orders(self, scene: dict, orders: list[int], width: int) -> None:
        """Steps through an order of each side, and compares what is shown at each step with what the page holds."""
        sides = scene["sides"]
        order_of = [side["orders"][number] for side, number in zip(sides, orders)]
        most = max(len(order[4]) for order in order_of)
        is_paired = len(sides) < 2 or scene["partners"][orders[0]] == orders[1]
        words = f"#{scene['name']}/{orders[0] + 1}" + ("" if is_paired else f".{orders[1] + 1}")
        kept, steps = self.browser.run(STEP_THROUGH, f"{words}/0", most)
        for side, order, shown in zip(sides, order_of, steps):
            self.assertEqual(shown, [text_of(side, side["steps"][number]) for number in order[4]])
        for at, state in enumerate(kept):
            self.assertEqual((state["address"], state["place"]), (f"{words}/{at}", f"{at} / {most}"))
            self.assertLessEqual(state["width"], width)
            for side, order, shown in zip(sides, order_of, state["sides"]):
                self.check_side(side, order, at, shown)
                self.assertIn(f"{side['who']}: {shown['now'].replace('The beginning: no step was taken.', 'the beginning')}", state["said"])

    def check_side(self, side: dict, order: list, at: int, shown: dict[str, Any]) -> None:
        """What a side shows after so many steps."""
        steps = [side["steps"][number] for number in order[4]]
        done = min(at, len(steps))
        step = steps[done - 1] if done else None
        self.assertEqual(shown["rows"], rows_of(side, step[4] if step else order[3]))
        self.assertEqual(shown["now"], text_of(side, step) if step else "The beginning: no step was taken.")
        self.assertEqual(shown["ending"], order[2] if done == len(steps) else "")
        for note in step[3] if step else ():
            for part in note[1:]:
                self.assertIn(part, shown["notes"])

    def test_each_order_of_each_scene(self) -> None:
        self.set_motion("reduce")
        for scene in self.scenes:
            with self.subTest(scene["name"]):
                last = [len(side["orders"]) - 1 for side in scene["sides"]]
                for number in range(max(last) + 1):
                    self.check_orders(scene, [min(number, one) for one in last], DESK[0])

    def test_the_first_and_the_worst_order_at_three_widths(self) -> None:
        self.set_motion("reduce")
        for width, height in (PHONE, TABLET, DESK):
            self.browser.size(width, height)
            for scene in self.scenes:
                with self.subTest(f"{scene['name']} at {width}"):
                    for first in {0, scene["sides"][0]["own"]}:
                        second = [scene["partners"][first]] if len(scene["sides"]) > 1 else []
                        self.check_orders(scene, [first, *second], width)

    def test_one_look_says_which_program_loses_what(self) -> None:
        for width, height in (PHONE, DESK):
            self.browser.size(width, height)
            for scene in self.scenes:
                self.open(f"#{scene['name']}")
                lines = self.browser.run("return [...document.querySelectorAll('#headline span')].map(one => one.innerText.trim())")
                self.assertEqual([line.split(maxsplit=1)[1] for line in lines], [side["headline"][1] for side in scene["sides"]])
                bottom = self.browser.run("return document.querySelector('#headline span:last-child').getBoundingClientRect().bottom")
                self.assertLess(bottom, height / 2)
            self.open("")
            self.assertEqual(self.text("#headline .lost"), "✕ mflag loses a flag")
            self.assertEqual(self.text("#headline .good"), "✓ Deolmutt loses nothing")
            ending = self.browser.run("return document.querySelector('.ending.lost').getBoundingClientRect().bottom")
            self.assertLess(ending, self.browser.run(BOXES)["bar"][0])

    def test_no_text_is_clipped(self) -> None:
        for width, height in (PHONE, TABLET, DESK):
            self.browser.size(width, height)
            for scene in self.scenes:
                with self.subTest(f"{scene['name']} at {width}"):
                    self.open(f"#{scene['name']}")
                    self.browser.run("document.querySelectorAll('details').forEach(one => { one.open = true; })")
                    self.assertEqual(self.browser.run(OVERFLOWS), [])
            self.assertEqual(self.browser.run(CLIPPED), [])

    def test_the_sentence_is_right_above_the_directories_and_the_end_right_below(self) -> None:
        for width, height in (PHONE, DESK):
            self.browser.size(width, height)
            for scene in self.scenes:
                self.open(f"#{scene['name']}")
                for now, state, ending in self.browser.run(PARTS):
                    self.assertTrue(0 <= state[0] - now[1] <= 12 and 0 <= ending[0] - state[1] <= 12, scene["name"])

    def test_it_opens_where_the_loss_is_seen(self) -> None:
        mflag, ours = self.scenes[0]["sides"]
        self.assertEqual(self.address().split("/")[:2], ["#two-flaggers", str(mflag["own"] + 1)])
        self.assertEqual(self.text(".ending.lost"), "The flag R is lost. mflag (B) ended with status 0.")
        self.assertEqual([order[1] for order in mflag["orders"]], ["lost"] * 6)
        self.assertEqual([order[1] for order in ours["orders"]], ["good"] * 6)
        self.assertIn("Nothing is lost", self.text(".ending.good"))
        self.assertEqual(self.browser.run("return document.querySelectorAll('.dot.lost[role]').length"), 6)

    def test_a_link_opens_what_it_says(self) -> None:
        self.open("#listing-beside-move/1.2/1")
        self.assertEqual((self.address(), self.text("#place").split()[0]), ("#listing-beside-move/1.2/1", "1"))
        self.assertTrue(self.browser.run("return document.title").startswith("A listing beside a move: mlist and Deolmutt"))
        for wrong in ("#none/1/1", "#", "#two-flaggers/x/y", "#%3Cb%3E/-1/-1", "#two-flaggers"):
            self.open(wrong)
            self.assertTrue(self.address().startswith("#two-flaggers/2/"), wrong)
        self.open("#two-flaggers/99/99")
        self.assertEqual(self.address(), "#two-flaggers/6/5")

    def test_keys(self) -> None:
        self.open("#two-flaggers/2/0")
        ways = {"2/2": RIGHT * 2, "2/1": LEFT, "3/1": DOWN, "1/1": UP * 2, "1/5": END, "1/0": HOME}
        for address, keys in ways.items():
            self.browser.press(*keys)
            self.assertEqual(self.address(), f"#two-flaggers/{address}")

    def test_the_dots_are_reached_by_keys(self) -> None:
        self.open("#two-flaggers/2/3")
        self.browser.press(TAB, TAB)
        self.assertIn("order 2, ABAB: lost", self.browser.run("return document.activeElement.ariaLabel"))
        self.browser.press(RIGHT)
        self.assertEqual(self.address(), "#two-flaggers/3/3")
        for _ in range(20):
            self.browser.press(TAB)
            if "nothing lost" in (self.browser.run("return document.activeElement.ariaLabel") or ""):
                break
        self.browser.press(RIGHT)
        self.assertRegex(self.address(), r"#two-flaggers/3\.\d/3")
        self.assertEqual(self.browser.run("return document.querySelectorAll('[aria-checked=true]').length"), 2)

    def test_a_scene_is_chosen_by_keys(self) -> None:
        self.browser.press(TAB)
        self.assertEqual(self.browser.run("return document.activeElement.id"), "scene")
        self.browser.press(DOWN)
        self.assertTrue(self.address().startswith("#tag-beside-rename/"))

    def test_a_click_on_a_dot_and_on_a_step(self) -> None:
        self.browser.run("document.querySelectorAll('.dot[role]')[4].click()")
        self.assertTrue(self.address().startswith("#two-flaggers/5/"))
        self.browser.run("document.querySelectorAll('.steps li')[1].click()")
        self.assertEqual(self.address(), "#two-flaggers/5/2")
        self.assertEqual(self.browser.run("return document.querySelectorAll('[aria-current=step]').length"), 2)

    def touch(self, *path: tuple[float, float]) -> None:
        """A finger that goes this way."""
        kinds = ["touchStart", *["touchMove"] * (len(path) - 2), "touchEnd"] if len(path) > 1 else ["touchStart", "touchEnd"]
        for kind, (x, y) in zip(kinds, path if len(path) > 1 else path * 2):
            points = [] if kind == "touchEnd" else [{"x": x, "y": y}]
            self.browser.command("Input.dispatchTouchEvent", type=kind, touchPoints=points)

    def test_touch(self) -> None:
        self.browser.size(*PHONE)
        self.browser.command("Emulation.setTouchEmulationEnabled", enabled=True)
        self.addCleanup(self.browser.command, "Emulation.setTouchEmulationEnabled", enabled=False)
        self.open("#two-flaggers/2/2")
        self.touch((300, 300), (200, 305), (80, 308), (80, 308))
        self.assertEqual(self.address(), "#two-flaggers/2/3")
        self.touch((80, 300), (200, 305), (300, 308), (300, 308))
        self.assertEqual(self.address(), "#two-flaggers/2/2")
        corner = "const { left, top } = document.getElementById('forward').getBoundingClientRect(); return [left + 5, top + 5]"
        x, y = self.browser.run(corner)
        self.touch((x, y))
        self.assertEqual(self.address(), "#two-flaggers/2/3")

    def test_on_a_phone_the_directories_are_in_sight(self) -> None:
        self.browser.size(*PHONE)
        self.set_motion("reduce")
        for scene in self.scenes:
            self.open(f"#{scene['name']}/{scene['sides'][0]['own'] + 1}/0")
            for _ in range(int(self.text("#place").split()[-1])):
                self.browser.run("document.getElementById('forward').click()")
                boxes = self.browser.run(BOXES)
                self.assertLessEqual(boxes["bar"][1], boxes["high"])
                for top, bottom in boxes["states"]:
                    self.assertTrue(0 <= top and bottom <= boxes["bar"][0], f"{scene['name']} {self.text('#place')} {boxes}")

    def test_play_goes_to_the_end(self) -> None:
        self.browser.run("document.getElementById('play').click()")
        self.assertEqual(self.text("#place"), "0 / 6")
        self.assertIn("Pause", self.text("#play"))
        end = time.monotonic() + 20
        while self.text("#place") != "6 / 6" and time.monotonic() < end:
            time.sleep(0.2)
        self.assertEqual((self.text("#place"), self.text("#play")), ("6 / 6", "▶ Play"))

    def test_pause_stops_it(self) -> None:
        self.browser.press(SPACE)
        time.sleep(1.6)
        self.browser.press(SPACE)
        place = self.text("#place")
        self.assertNotEqual(place, "0 / 6")
        time.sleep(1.6)
        self.assertEqual(self.text("#place"), place)

    def test_a_name_that_moves_slides_unless_motion_is_off(self) -> None:
        for setting, wanted in (("no-preference", True), ("reduce", False)):
            self.set_motion(setting)
            self.open("#listing-beside-move/3/0")
            forward = "document.getElementById('forward').click(); return document.getAnimations().length > 0"
            self.assertEqual(any([self.browser.run(forward) for _ in range(3)]), wanted)

    def test_the_log_that_is_downloaded(self) -> None:
        self.open("#two-flaggers/2/0")
        taken = "const made = URL.createObjectURL; let blob; URL.createObjectURL = one => { blob = one; return made.call(URL, one); };"
        clicked = "document.querySelectorAll('.made button')[arguments[0]].click(); URL.createObjectURL = made; return blob.text();"
        lines = self.browser.run(taken + clicked, 0).splitlines()
        self.assertEqual(lines[:3], ["maildir_log 1", "folder box", "file box/cur/u:2,S 1000"])
        self.assertIn("1000 B rename box/cur/u:2,S box/cur/u:2,RS notfound", lines)
        self.assertIn("1 B rename i/cur/u:2,FS i/cur/u:2,FRS ok", self.browser.run(taken + clicked, 1).splitlines())

    def test_the_command_that_makes_it(self) -> None:
        kept, ours = self.browser.run("return [...document.querySelectorAll('.made pre')].map(one => one.textContent)")
        self.assertIn("tools/explore --setup", kept)
        self.assertEqual(ours, "tools/races crates/examples/data/two-flaggers.script -o OUT.html")

    def test_the_link_that_is_copied(self) -> None:
        self.open("#two-flaggers/3/2")
        taken = "const writeText = text => { window.copied = text; return %s; };"
        clip = "Object.defineProperty(navigator, 'clipboard', { value: { writeText }, configurable: true });"
        clicked = "document.getElementById('link').click(); await null; await null; return document.getElementById('link').textContent"
        self.assertEqual(self.browser.run(taken % "Promise.resolve()" + clip + clicked), "Copied")
        self.assertTrue(self.browser.run("return window.copied").endswith("races.html#two-flaggers/3/2"))
        self.assertEqual(self.browser.run(taken % "Promise.reject()" + clip + clicked), "Copy the address")

    def test_no_error_and_no_request(self) -> None:
        self.browser.log("browser"), self.browser.log("performance")
        self.browser.go(PAGE)
        for _ in range(4):
            self.browser.press(LEFT)
        self.assertEqual(self.browser.log("browser"), [])
        sent = [json.loads(entry["message"])["message"] for entry in self.browser.log("performance")]
        asked = [one["params"]["request"]["url"] for one in sent if one["method"] == "Network.requestWillBeSent"]
        self.assertEqual([url.split("#")[0] for url in asked if not url.startswith("data:")], [PAGE.resolve().as_uri()])

    @unittest.skipUnless(BUILT, "deolmutt and maildir_cli are not built")
    def test_markup_in_a_script_does_nothing(self) -> None:
        with tempfile.TemporaryDirectory() as folder:
            script, page = Path(folder) / "<i>.script", Path(folder) / "out.html"
            script.write_bytes(HOSTILE)
            subprocess.run([TOP / "tools/races", "--deolmutt", DEOLMUTT, "--cli", CLI, script, "-o", page], capture_output=True, check=True)
            self.browser.log("browser")
            self.browser.go(page)
            shown = ""
            for key in (HOME, *[RIGHT] * 4, DOWN, END):
                self.browser.press(key)
                self.assertEqual(self.browser.run("return document.querySelectorAll('i:not(.dot), script:not(#data)').length"), 1)
                shown += self.browser.run("return document.body.innerText")
            self.assertEqual(self.browser.log("browser"), [])
            for text in (ELEMENT.decode(), "<script>alert(1)<script>", "<b>i/tmp"):
                self.assertIn(text, shown)

    def test_a_reader_without_scripts_has_tables(self) -> None:
        self.browser.command("Emulation.setScriptExecutionDisabled", value=True)
        try:
            self.open("")
            shown = self.browser.command("Runtime.evaluate", expression="document.body.innerText")["result"]["value"]
        finally:
            self.browser.command("Emulation.setScriptExecutionDisabled", value=False)
        for scene in self.scenes:
            for text in (scene["about"], *(text for side in scene["sides"] for text in (side["count"], side["orders"][side["own"]][2]))):
                self.assertIn(text, shown)

    def test_all_that_takes_keys_has_a_name(self) -> None:
        nodes = self.browser.command("Accessibility.getFullAXTree")["nodes"]
        named = [(node["role"]["value"], node.get("name", {}).get("value")) for node in nodes if not node["ignored"]]
        roles = {"button", "combobox", "radio", "radiogroup", "group", "article", "image", "list", "link"}
        self.assertEqual([role for role, name in named if role in roles - {"list", "group"} and not name], [])
        self.assertTrue({"button", "combobox", "radio", "radiogroup", "article", "status", "main", "link"} <= {role for role, _ in named})


def luminance(colour: str) -> float:
    """The relative luminance of a colour, by WCAG 2."""
    parts = [int(colour[at : at + 2], 16) / 255 for at in (1, 3, 5)]
    red, green, blue = (part / 12.92 if part <= 0.04045 else ((part + 0.055) / 1.055) ** 2.4 for part in parts)
    return 0.2126 * red + 0.7152 * green + 0.0722 * blue


def contrast(one: str, other: str) -> float:
    """The contrast of two colours, by WCAG 2."""
    low, high = sorted((luminance(one), luminance(other)))
    return (high + 0.05) / (low + 0.05)


def whole(colour: str) -> str:
    """A colour with two digits for each part."""
    return colour if len(colour) == 7 else "#" + "".join(2 * digit for digit in colour[1:])


class Colours(unittest.TestCase):
    """The colours of the page and of the pictures."""

    GROUNDS = {"text": "ground box good-box lost-box said-box", "soft": "ground box", "link": "ground", "ground": "first second third text"}
    GROUNDS |= {kind: f"ground box {kind}-box" for kind in ("good", "lost", "said")}

    def check_colours(self, scheme: str, least: float, text: str, grounds: str) -> None:
        """The contrast of a colour on those of them that the scheme has."""
        colours = dict(re.findall(r"--([a-z-]+): ?(#[0-9a-f]{3,6})", scheme))
        for ground in grounds.split():
            if text in colours and ground in colours:
                with self.subTest(f"{text} on {ground}"):
                    self.assertGreaterEqual(contrast(whole(colours[text]), whole(colours[ground])), least)

    def test_text_has_the_contrast_of_wcag_aa(self) -> None:
        style = (TOP / "tools/races_lib/page.css").read_text(encoding="utf-8")
        schemes = re.findall(r":root \{(.*?)\}", style, re.S)
        for picture in PICTURES:
            schemes += re.findall(r"svg\{(--.*?)\}", picture.read_text(encoding="utf-8"), re.S)
        self.assertEqual(len(schemes), 6)
        for scheme in schemes:
            for text, grounds in self.GROUNDS.items():
                self.check_colours(scheme, 4.5, text, grounds)
            self.check_colours(scheme, 3, "line", "ground box")


class Reach(unittest.TestCase):
    """The size of the page, and where it leads."""

    def test_the_page_is_below_a_megabyte_and_takes_nothing_from_elsewhere(self) -> None:
        text = PAGE.read_text(encoding="utf-8")
        self.assertLess(len(text.encode()), 1_000_000)
        self.assertEqual(re.findall(r'(?:src|href)="(?!data:|THEOREM\.md|JUDGED?\.md)[^"]*"', text), [])
        self.assertNotRegex(text, r"@import|url\(|fetch\(|XMLHttpRequest")

    def test_other_sites_have_a_picture_of_it(self) -> None:
        self.assertIn('<meta property="og:image" content="races.png">', PAGE.read_text(encoding="utf-8"))
        self.assertEqual((TOP / "docs/races.png").read_bytes()[:8], b"\x89PNG\r\n\x1a\n")

    def test_the_readme_begins_with_it(self) -> None:
        head = (TOP / "README.md").read_text(encoding="utf-8").splitlines()[:15]
        self.assertTrue(any("](docs/races.html)" in line for line in head))
        self.assertTrue(any(line.startswith("![") and ".svg)" in line for line in head))

    def test_without_chromium_the_tests_are_skipped_by_name(self) -> None:
        tests = "from test_races_page import Page; import unittest; unittest.main(argv=['tests', '-v', 'Page'])"
        with tempfile.TemporaryDirectory() as empty:
            how = {"cwd": Path(__file__).resolve().parent, "env": os.environ | {"PATH": empty}}
            done = subprocess.run([sys.executable, "-c", tests], capture_output=True, text=True, check=False, **how)
        self.assertEqual(done.returncode, 0, done.stderr)
        self.assertIn(f"skipped '{browser.PACKAGES} are not there'", done.stderr)
