#!/usr/bin/env python3
"""Looks at pages of `./roster-page` in a headless browser: page.py [FOLDER [DAY..]]

    apt-get install chromium poppler-utils fonts-dejavu-core

For examples/ (g1, g6, the ward, and days that are solved here: the call centre, the shop, the shop by skills) and for days that are
made here (96 periods, 64 shifts, long names, codes that HTML has a use for, labels of 60 bytes, a ceiling of 0, no
roster, a roster beside an old one, a report in place of a certificate) it draws the page, takes a picture in light, in dark, on a narrow screen, as printed and with a derivation
shown into FOLDER (/tmp/roster-pages if none is given), and fails where an element of a chart lies outside its frame,
a text is cut, two texts of a row or of an axis overlap, a letter of a chart is below 9 pixels, a chart or a table of a day of at most 48 periods
scrolls on a window of 1,200 or 1,440 pixels, a derivation leaves its frame and can't be scrolled, a page asks the network for something, the
console says a word, the foot lacks the sum of a text, or the charts and costs of a printed day of at most 48 periods
do not end on its first page. From the page of the call centre it makes docs/page.svg anew.
"""
import hashlib
import pathlib
import re
import subprocess
import sys

sys.dont_write_bytecode = True
from built import program_path

TOP = pathlib.Path(__file__).resolve().parent.parent
DAYS = {"g1": None, "g6": None, "call_centre": 300, "shop": 60, "skills": 60, "ward": None}


def bare(cost, shifts):
    return f"proof {2 if ' ' in shifts[0].rpartition(' ')[0] else 1}\ncost {cost}\nbound 0\n" + "".join(
        f"shift {shift}\n" for shift in shifts) + "bare\nend\n"


STEPS = "work a b c d e f g h\nidle . p q r s t\nstart S\nrule S 1 = X S\nrule S 1 = X\n" + "".join(
    f"rule X 0 = '{code}'\n" for code in "abcdefgh.pqrst")
WIDE = "W" * 32
# Days that are made here: their rules, demand and certificate.
MADE = {
    "marks": ("periods 2\nwork < & \"\nidle >\nstart S\nrule S 1 = '<' '&'\nrule S 1 = '\"' '>'\n",
              "heads 0 2\nneed < 5 1 1 0\nneed \" 5 1 1 1\n", bare(7, ['"> 1', "<& 1"])),
    "ceiling": ("periods 4\nwork a\nidle .\nstart S\nrule S 1 = 'a' 'a' '.' '.'\n",
                "heads 0 2\nneed a 5 1 2 1 0 0\nmost a 2 2 0 0\n", bare(6, ["aa.. 1"])),
    "none": ((TOP / "examples/g1.rules").read_text(), "heads 0 2\nneed a 10 3 1 2 2 1\n",
             "proof 1\ncost none\nbound 0\nbare\nend\n"),
    "crowd": ("periods 24\nwork a\nstart S\nrule S 1 = 'a'\nrule S 0 = 'a' S\n", "heads 0 64\nneed a 9 2" + " 0" * 24,
              bare(64 + 64 * 48, ["a" * 24 + " 1"] * 64)),
    "long": ("periods 96\n" + STEPS, "heads 0 40\nneed a 0 0" + " 3" * 96 + "\nleast a" + " 1" * 96 + "\nmost a" + " 40" * 96,
             bare(30 * 96, [("abcdefgh.pqrst" * 8)[k % 14:][:96] + " 96" for k in range(30)])),
    "names": (f"periods 48\nwork a\nidle .\nstart S\nrule S 0 = {WIDE}\nrule {WIDE} 9999 = 'a'\nrule {WIDE} 9999 = 'a' {WIDE}\n",
              f"group {WIDE} 0 2\nneed a 10000 1" + " 64" * 48,
              bare(2 * 48 * 9999 + 48 * 62 * 10000, [f"{WIDE} " + "a" * 48 + f" {48 * 9999}"] * 2)),
}
TEAMS = "start S\nrule S 0 = Nurse\nrule S 0 = Cook\n" + "".join(
    f"rule {name} 1 = X {name}\nrule {name} 1 = X\n" for name in ("Nurse", "Cook")) + "".join(
    f"rule X 0 = '{code}'\n" for code in "ab.")
NEED = [0, 0, 1, 1, 2, 2, 3, 3, 3, 3, 2, 2, 2, 2, 1, 1, 1, 0]
TEAM_DAY = (f"periods {len(NEED)}\nwork a b\nidle .\n{TEAMS}",
            "group Nurse 0 3\ngroup Cook 0 2\nneed a 5 1 " + " ".join(map(str, NEED)) + "\n")
TEAM = ["Nurse ..aaaaaaaabbbb....", "Nurse ......aaaaaabbbbbb", "Cook ....bbaaaaaaaa...."]


def priced(shifts):
    """The shifts of the day of two teams at their prices, and what the roster costs."""
    shifts = [shift + f" {len(NEED)}" for shift in shifts]
    here = [sum(shift.split()[1][period] == "a" for shift in shifts) for period in range(len(NEED))]
    return shifts, len(NEED) * len(shifts) + sum(max(5 * (need - have), have - need) for need, have in zip(NEED, here))


def report(shifts, cost):
    return f"report 2\nresult stated\ncost {cost}\nshifts {len(shifts)}\n" + "".join(
        f"shift {shift}\n" for shift in shifts)


TEAM_SHIFTS, TEAM_COST = priced(TEAM)
for name, count in ("night", 16), ("half_hours", 48):
    MADE[name] = (f"periods {count}\nwork a\nstart S\nrule S 1 = 'a'\nrule S 0 = 'a' S\n",
                  "heads 0 1\nneed a 9 2" + " 1" * count, bare(1, ["a" * count + " 1"]))
MADE["changed"] = (*TEAM_DAY, bare(TEAM_COST, TEAM_SHIFTS))
MADE["stated"] = (*TEAM_DAY, report(TEAM_SHIFTS, TEAM_COST))
# The old rosters beside which two of them are drawn.
OLD = {
    "changed": bare(*reversed(priced(["Nurse ..aaaaaaaabbbb....", "Nurse ....aaaaaaaabbbb..", "Cook ....bbaaaaaaaa....",
                                      "Cook aaaaaaaaaaaaaaaaaa"]))),
    "stated": report(TEAM_SHIFTS, TEAM_COST),
}
# The labels of days that are made here.
LABELS = {
    "changed": "title A kitchen with nurses\nclock 6:00 60\ncode a At the patients' beds\ncode b Records\n"
               "group Nurse Nurses of ward 3\nmoney EUR\n",
    "stated": "money CHF\n",
    "marks": "title <Day> & \"night\"\nclock 23:30 45\ncode < " + "<&\">" * 15 + "\ncode & " + "'" * 60
             + "\nmoney EUR\npaid > yes\n",
    "names": f"group {WIDE} {'nurses of the night ' * 2}who are so\ncode a at the desk\nclock 7:00 15\n",
    "night": "clock 20:00 60\n",
    "half_hours": "clock 0:00 30\n",
    **{name: (TOP / f"examples/{name}.labels").read_text() for name in ("shop", "skills", "ward")},
}
BROWSER = ["chromium", "--headless", "--no-sandbox", "--disable-gpu", "--hide-scrollbars", "--enable-logging=stderr",
           "--log-level=0", "--virtual-time-budget=2000"]
# Appended to a copy of the page: what lies outside, is cut or overlaps, one line each.
LOOK = """<script>addEventListener('load',()=>{const said=[],near=1;
for(const svg of document.querySelectorAll('svg')){const f=svg.getBoundingClientRect();
for(const e of svg.querySelectorAll('rect,text,path')){const b=e.getBoundingClientRect();if(!b.width&&!b.height)continue;
if(b.left<f.left-near||b.right>f.right+near||b.top<f.top-near||b.bottom>f.bottom+near)
said.push('outside '+e.outerHTML.slice(0,120));}
for(const s of [...[...svg.querySelectorAll('g.row')].map(g=>g.querySelectorAll('text')),svg.querySelectorAll('text.tick')]){
const t=[...s].map(e=>[e,e.getBoundingClientRect()]).filter(p=>p[1].width).sort((a,b)=>a[1].left-b[1].left);
for(let i=1;i<t.length;i++)if(t[i][1].left<t[i-1][1].right-near)said.push('overlap '+t[i-1][0].outerHTML+t[i][0].outerHTML);}}
for(const e of document.querySelectorAll('h1,h2,p,dt,dd,li,figcaption'))
if(e.scrollWidth>e.clientWidth+near&&e.clientWidth)said.push('cut '+e.outerHTML.slice(0,120));
for(const e of document.querySelectorAll('pre.derivation')){e.style.display='block';
if(e.scrollWidth>e.clientWidth+near){document.querySelector(`[aria-describedby='${e.id}']`).focus();
if(getComputedStyle(e).pointerEvents==='none')said.push('wide derivation '+e.id);document.activeElement.blur();}
e.style.display='';}
if(document.documentElement.scrollWidth>innerWidth+near)said.push('wider than the window');
for(const e of document.querySelectorAll('.scroll'))if(e.scrollWidth>e.clientWidth+near)said.push('scrolls '+e.innerHTML.slice(0,60));
for(const e of document.querySelectorAll('svg text')){const v=e.ownerSVGElement,k=v.getBoundingClientRect().width/v.viewBox.baseVal.width;
if(parseFloat(getComputedStyle(e).fontSize)*k<8.9)said.push('small '+e.outerHTML.slice(0,80));}
for(const e of performance.getEntriesByType('resource'))said.push('asks '+e.name);
const p=document.createElement('pre');p.id='look';p.textContent=said.join('\\n');document.body.append(p);})</script>"""


def run(words, **more):
    return subprocess.run(words, capture_output=True, text=True, timeout=120, **more)


def texts(folder, name):
    """The rules, demand and certificate of a day, as files."""
    if name in MADE:
        paths = [folder / f"{name}.{word}" for word in ("rules", "demand", "proof")]
        for path, text in zip(paths, MADE[name]):
            path.write_text(text)
        return paths
    rules, demand = TOP / f"examples/{name}.rules", TOP / f"examples/{name}.demand"
    proof = TOP / f"examples/{name}.proof"
    if DAYS[name]:
        proof = folder / f"{name}.proof"
        if not proof.exists():
            run([program_path(), "solve", rules, demand, proof, str(DAYS[name])])
    return rules, demand, proof


def drawn(folder, name, rules, demand, proof):
    """The page of a day, as a file, and the texts whose sums its foot lacks."""
    words = [rules, demand, proof]
    if name in LABELS:
        labels = folder / f"{name}.labels"
        labels.write_text(LABELS[name])
        words.append(labels)
    if name in OLD:
        old = folder / f"{name}.old.proof"
        old.write_text(OLD[name])
        words.append(old)
    said = run([program_path("roster_page"), "page", *words])
    if said.returncode != 0:
        raise SystemExit(f"{name}: status {said.returncode}: {said.stdout}{said.stderr}")
    page = folder / f"{name}.html"
    page.write_text(said.stdout)
    names = ["RULES", "DEMAND", "REPORT" if proof.read_text().startswith("report") else "PROOF", "LABELS", "OLD"]
    sums = [f"{hashlib.sha256(path.read_bytes()).hexdigest()}  {word}\n" for path, word in zip(words, names)]
    return page, [f"no sum {line}" for line in sums if line not in said.stdout]


def console(said):
    return [line for line in said.stderr.splitlines() if "CONSOLE" in line]


def faults(page, size, may_scroll=""):
    """What the browser finds wrong with a page; a chart or a table whose element begins so may scroll, without it none."""
    copy = page.with_suffix(".look.html")
    copy.write_text(page.read_text().replace("</body>", LOOK + "</body>"))
    said = run(BROWSER + ["--dump-dom", f"--window-size={size}", f"file://{copy}"])
    look = re.search(r'<pre id="look">(.*?)</pre>', said.stdout, re.S)
    if not look:
        return ["the page was not looked at"]
    return [line for line in look.group(1).splitlines()
            if line and (may_scroll is None or not line.startswith(f"scrolls {may_scroll}"))] + console(said)


def pictures(page, periods):
    """Takes the pictures; the charts and costs of a day of at most 48 periods are one printed page."""
    wrong = []
    for word, scheme in ("light", 1), ("dark", 0):
        said = run(BROWSER + [f"--screenshot={page.with_suffix(f'.{word}.png')}", "--window-size=1240,1400",
                              f"--blink-settings=preferredColorScheme={scheme}", f"file://{page}"])
        wrong += console(said)
    run(BROWSER + [f"--screenshot={page.with_suffix('.narrow.png')}", "--window-size=420,1400", f"file://{page}"])
    shown = page.with_suffix(".shown.html")
    shown.write_text(page.read_text().replace("</style>", "#d0{display:block}</style>"))
    run(BROWSER + [f"--screenshot={page.with_suffix('.shown.png')}", "--window-size=1240,1400", f"file://{shown}"])
    printed = page.with_suffix(".pdf")
    run(BROWSER + [f"--print-to-pdf={printed}", "--no-pdf-header-footer", f"file://{page}"])
    first, second = (run(["pdftotext", "-f", number, "-l", number, printed, "-"]).stdout.lstrip() for number in "12")
    begins = ("Shortages", "Surplus", "Codes") if "class='list'" in page.read_text() else ("",)
    if not first or (periods <= 48 and not second.startswith(begins)):
        wrong.append(f"the second printed page begins with {second[:20]!r}")
    run(["pdftoppm", "-png", "-r", "80", "-singlefile", printed, page.with_suffix(".print")])
    return wrong


def picture(page):
    """The chart of the shifts and the last chart of the coverage, as one SVG file."""
    text = page.read_text()
    style = re.search(r"<style>\n(.*?)</style>", text, re.S).group(1).split("@media print")[0]
    light, dark = re.findall(r":root\{[^}]*\}", style)
    rules = [rule for rule in re.findall(r"[^{}\n]+\{[^{}]*\}", style)
             if re.match(r"rect|path|svg text|\.hit\{|\.[wi]\d", rule)]
    charts = re.findall(r"<svg.*?</svg>", text, re.S)
    upper, lower = charts[0], charts[-1]
    width, high, low = (int(re.search(word + r"='(\d+)'", chart).group(1)) for word, chart in
                        (("width", upper), ("height", upper), ("height", lower)))
    upper = re.sub(r" (tabindex|aria-describedby|id)='\w+'", "", upper)
    lower = lower.replace("<svg", f"<svg y='{high}'", 1)
    return (f"<svg xmlns='http://www.w3.org/2000/svg' viewBox='0 0 {width} {high + low}' width='{width}' "
            f"height='{high + low}'>\n<style>\n{light}\n@media(prefers-color-scheme:dark){{{dark}}}\n"
            + "\n".join(rules) + f"\n</style>\n<rect style='fill:var(--card)' width='{width}' height='{high + low}'/>\n"
            + upper + "\n" + lower + "\n</svg>\n")


def main():
    folder = pathlib.Path(sys.argv[1] if len(sys.argv) > 1 else "/tmp/roster-pages").resolve()
    folder.mkdir(parents=True, exist_ok=True)
    wrong = 0
    for name in sys.argv[2:] or [*DAYS, *MADE]:
        paths = texts(folder, name)
        page, lacking = drawn(folder, name, *paths)
        periods = int(re.search(r"^periods (\d+)", paths[0].read_text(), re.M).group(1))
        # The table of the shifts of 48 letters under a group's name of 50 is wider than the smaller window.
        small = "" if periods > 48 else "&lt;table" if name == "names" else None
        said = (lacking + faults(page, "1200,1400", small) + faults(page, "1440,1400", "" if periods > 96 else None)
                + faults(page, "700,1400") + pictures(page, periods))
        if name == "call_centre":
            (TOP / "docs/page.svg").write_text(picture(page))
        wrong += len(said)
        print(f"{name}: {len(said)} faults", *said, sep="\n  ")
    sys.exit(1 if wrong else 0)


if __name__ == "__main__":
    main()
