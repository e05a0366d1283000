"""The page: its parts and links by themselves and, where chromium is there, in a real browser."""
import json
import os
import random
import re
import shutil
import subprocess
import unittest

from planner.plan import Plan

from .common import ROOT, Room, call, written
from .schema import check

PLAN = os.path.join(ROOT, "example", "plan.txt")
CHAIN = """group "a <1>" 3
group b -3
group c -0.5
group d 9
group e 0
group f 0
group g 0
pair "a <1>" b 2
pair b c 4
pair c d -1
pair f g 2
given "a <1>" 0
"""
FOLLOW = """<script>
const told = [];
function shown() { return [...document.querySelectorAll(".why")].filter(s => getComputedStyle(s).display != "none").map(s => s.id); }
function follow() {
  told.push([location.hash, shown()]);
  const link = document.querySelector(".why:target pre a");
  if (!link) { document.body.dataset.told = JSON.stringify(told); return; }
  addEventListener("hashchange", () => setTimeout(follow, 0), {once: true});
  link.click();
}
addEventListener("load", () => {
  addEventListener("hashchange", () => setTimeout(follow, 0), {once: true});
  document.querySelector("main li a[href='#g2']").click();
});
</script>"""
WAIT = "--virtual-time-budget=5000"
TIME = """<script>addEventListener("load", () => {
  document.body.dataset.told = document.body.offsetHeight && Math.round(performance.now()); });</script>"""


class Pages(Room):
    def page(self, text, *words):
        """The page of a plan."""
        self.put("f.txt", text)
        self.done("report", "f.txt", "-o", "f.html", *words)
        with open("f.html", encoding="utf-8") as file:
            return file.read()


class Page(Pages):
    def test_each_state_has_its_mark_and_word(self):
        page = self.page(CHAIN)
        for item in ('<li class=given style=--w:33%>■ given <b><a href=#g0>&quot;a &lt;1&gt;&quot;</a></b> <i>3</i>',
                     "<li class=forced style=--w:100%>● forced <b><a href=#g3>d</a></b> <i>9</i>",
                     "<li class=flat style=--w:0%>◇ flat <b>e</b> <i>0</i>", "<li class=undecided style=--w:0%>○ undecided <b>f</b> <i>0</i>",
                     "<li class=given>■ given <b>1</b>", "<li class=forced>● forced <b>3</b>", "<li class=flat>◇ flat <b>1</b>",
                     "<li class=undecided>○ undecided <b>2</b>"):
            self.assertIn(item, page)
        first, second = re.search("<section id=first>(.*?)</section>.*<section id=second>(.*?)</section>", page, re.S).groups()
        self.assertEqual(re.findall("#g([0-9])", first + "|" + second), ["3", "0", "2", "1"])

    def test_links_lead_down_to_given_groups(self):
        page = self.page(CHAIN)
        sections = dict(re.findall("<section class=why id=(g[0-9]+)>(.*?)</section>", page, re.S))
        links = {name: re.findall("href=#(g[0-9]+)", text) for name, text in sections.items()}
        self.assertEqual(links, {"g2": ["g1"], "g1": ["g0"], "g0": [], "g3": []})
        self.assertIn("The plan gives it.", sections["g0"])
        self.assertIn("-0.5  its own weight\n  +2  with <a href=#g1>b</a> in the second window\n-0.5  the worst that all others can add (d -0.5)\n"
                      "  +1  above 0: so much at least the second window costs", sections["g2"])
        self.assertEqual(set(re.findall("href=#(g[0-9]+)", page)) - set(sections), set())

    def test_constraints_anchors_grade_and_what_is_proved(self):
        page = self.page(CHAIN, "--anchors")
        for part in ("7 groups, 4 pairs; grade exact, in units of 2^-20: no sum is rounded.", "<h2>Constraints <small>1</small></h2>",
                     "<li>f and g not both in the second window", "<h2>Anchors", "Proved by machine", "Not proved: the reading"):
            self.assertIn(part, page)
        self.assertIn("None were looked for.", self.page("group a 1\n", "--no-constraints", "--force"))
        inexact = self.page("group a 0.1\n", "--force")
        self.assertIn("The grade is inexact: the sums are rounded.", inexact)
        self.assertIn("+0.1  as the presolver rounds it", inexact)
        self.assertIn("◇ flat <b>not told</b>", inexact)

    def test_nothing_comes_from_elsewhere(self):
        self.assertIsNone(re.search(r"https?:|src=|<link|@import|url\(", self.page(CHAIN)))

    def test_json_and_a_file_that_is_there(self):
        self.put("f.html", "before")
        self.put("f.txt", CHAIN)
        self.refused(1, ["f.html is there already; --force writes over it"], "report", "f.txt", "-o", "f.html", "--no-constraints")
        found = json.loads(call("report", "f.txt", "-o", "f.html", "--force", "--json")[1])
        check(self, found, "report")
        self.assertEqual(found["reasons"], 4)


@unittest.skipUnless(shutil.which("chromium"), "there is no chromium here (Debian's package of that name)")
class Browser(Pages):
    def browse(self, file, *words):
        """Opens a file in the browser, and answers the page as it stands then."""
        done = subprocess.run(["chromium", "--headless", "--no-sandbox", "--disable-gpu", "--disable-dev-shm-usage", "--hide-scrollbars", "--window-size=1300,900",
                               *words, f"file://{os.getcwd()}/{file}"], capture_output=True, text=True, timeout=60)
        return done.stdout

    def told(self, page, script, *words):
        """What a script tells that is added to the page."""
        self.put("told.html", page + script)
        found = re.search('data-told="([^"]*)"', self.browse("told.html", "--dump-dom", *words))
        return json.loads(found[1].replace("&quot;", '"'))

    def test_a_click_shows_the_chain_and_its_links_lead_on(self):
        self.assertEqual(self.told(self.page(CHAIN), FOLLOW, WAIT), [["#g2", ["g2", "g1", "g0"]], ["#g1", ["g1", "g0"]], ["#g0", ["g0"]]])

    def test_without_its_script_each_link_shows_one_reason(self):
        page = re.sub("<script>.*</script>", "", self.page(CHAIN), flags=re.S)
        self.assertEqual(self.told(page, FOLLOW, WAIT), [["#g2", ["g2"]], ["#g1", ["g1"]], ["#g0", ["g0"]]])

    def test_printed_it_has_all_reasons(self):
        page = self.page(CHAIN).replace("@media print", "@media all")
        shown = """<script>document.body.dataset.told = [...document.querySelectorAll(".why")].filter(s => s.offsetHeight).length;</script>"""
        self.assertEqual(self.told(page, shown), 4)

    def test_a_screenshot(self):
        self.page(CHAIN)
        self.browse("f.html#g2", "--screenshot=page.png")
        with open("page.png", "rb") as file:
            data = file.read()
        self.assertEqual(data[:8], b"\x89PNG\r\n\x1a\n")
        self.assertEqual((int.from_bytes(data[16:20], "big"), int.from_bytes(data[20:24], "big")), (1300, 900))
        self.assertGreater(len(data), 40000)

    def test_a_plan_of_4096_groups_opens_in_two_seconds(self):
        draw = random.Random(5)
        places = draw.sample(range(4096 * 4096), 40000)
        entries = [(p // 4096, p % 4096, float(draw.randrange(-16, 17))) for p in places if p // 4096 != p % 4096][:32768]
        large = Plan([f"group {i}" for i in range(4096)], [draw.randrange(-200, 201) + 0.1 for _ in range(4096)], entries, {0: 1})
        page = self.page(written(large, "text"), "--no-constraints")
        self.assertGreater(page.count("class=why"), 3500)
        taken = []
        while len(taken) < 5 and min(taken, default=2000) >= 2000:
            taken.append(self.told(page, TIME))
        self.assertLess(min(taken), 2000)
