#!/usr/bin/python3
"""Draws one page of plots from one run of against_execd.sh: how many actions a second by how many run at once, with the least and the
greatest of the rounds; and the distributions of the time until an end is reported, and until a question is answered while 256 agents run.
Each title is a sentence that its figures say. The page says when and how it was measured, and that it is a trial where there were fewer
than seven rounds, or other work was done on the machine. What is drawn of the figures is kept beside the picture, as JSON, from which the
picture can be drawn again; a word `program` that is added to its `run` says of which program it is, if not of the present one. It needs
Debian's python3-matplotlib, and so Debian's own Python.
Use: FIGURES=FILE against_execd.sh PROGRAM ROUNDS rates waits answers, and then plots.py FILE PICTURE.svg; or plots.py KEPT.json PICTURE.svg"""
from __future__ import annotations

import collections
import json
import os
import statistics
import sys
from typing import Any

import matplotlib

matplotlib.use("svg")
# the same figures give the same file, with its texts as texts
matplotlib.rcParams.update({"svg.hashsalt": "ocfexec", "svg.fonttype": "none", "font.size": 9, "axes.titlesize": 9.5, "axes.grid": True,
                            "grid.alpha": 0.3, "axes.spines.top": False, "axes.spines.right": False})
import matplotlib.pyplot as plt  # noqa: E402

# a color that a color-blind reader tells apart, too, and a mark for print in grey
SYSTEMS = {"execd": ("pacemaker-execd", "#d55e00", "s"), "ours-journal": ("ocfexec, journal", "#0072b2", "o"),
           "ours-memory": ("ocfexec, memory", "#56b4e9", "^"), "floor-memory": ("C floor", "#555555", "x")}
POINTS, LAST = 120, 30  # of a curve at most, and how many of the greatest are all kept
ROUNDS, QUIET = 7, 0.5  # of a run that is no trial: its rounds at least, and the machine's load before it at most
COMPARED = 16  # how many run at once in the titles
BETTER = {"arrowstyle": "-|>", "color": "#333333", "linewidth": 1.2}

Kept = dict[str, Any]


def read(path: str) -> Kept:
    """What is drawn of the figures of a run."""
    found: dict[tuple[str, str, str, int], list[float]] = collections.defaultdict(list)
    kept: Kept = {"rates": {}, "shares": {}}
    with open(path, encoding="ascii") as file:
        for line in file:
            kind, *words = line.split()
            if kind == "run":
                kept["run"] = {"date": words[0], "cores": int(words[1]), "rounds": int(words[2]), "load": float(words[3])}
            else:
                system, agent, width, number = words
                # (the floor with rows, and drains, are in the tables alone)
                if system in SYSTEMS:
                    found[kind, system, agent, int(width)].append(float(number))
    if "run" not in kept:
        sys.exit(f"plots.py: {path}: the run has not ended")
    for (kind, system, agent, at_once), values in sorted(found.items()):
        if kind == "rate":
            of_agent = kept["rates"].setdefault(agent, {})
            of_agent.setdefault(system, []).append([at_once, min(values), statistics.median(values), max(values)])
        elif agent == "Compiled":
            kept["shares"].setdefault(f"{kind} {at_once}", {})[system] = curve(sorted(values))
    return kept


def curve(values: list[float]) -> list[list[float]]:
    """Points of a distribution: milliseconds, and the share of all that took no longer."""
    places = [place for place in range(len(values)) if place % (len(values) // POINTS + 1) == 0 or place >= len(values) - LAST]
    return [[float(f"{max(values[place], 0.001):.3g}"), round((place + 1) / len(values), 4)] for place in places]


def within(points: list[list[float]], share: float) -> str:
    """The milliseconds within which this share is."""
    return f"{next(ms for ms, reached in points if reached >= share):.2g}"


def ours(of_systems: dict[str, Any]) -> str:
    """With a journal, if that was measured."""
    return "ours-journal" if "ours-journal" in of_systems else "ours-memory"


def rate_title(agent: str, of_systems: dict[str, Any]) -> str:
    name = "shell" if agent == "Shell" else "compiled"
    if "execd" not in of_systems:
        return f"ocfexec starts {name} agents"
    [own, other] = [next(row[2] for row in of_systems[system] if row[0] == COMPARED) for system in (ours(of_systems), "execd")]
    return f"With {COMPARED} at once, ocfexec starts {own / other:.1f} times as many\n{name} agents a second as pacemaker-execd"


def share_title(what: str, of_systems: dict[str, Any]) -> str:
    own = of_systems[ours(of_systems)]
    said = f"{what} within {within(own, 0.5)} ms, and 99 of 100 within {within(own, 0.99)}"
    if "execd" in of_systems:
        said += f";\npacemaker-execd: {within(of_systems['execd'], 0.5)} and {within(of_systems['execd'], 0.99)}"
    return said


def better(axes: Any, start: tuple[float, float], end: tuple[float, float], beside: dict[str, Any]) -> None:
    """An arrow to where it is better, in parts of the axes, and the word at its beginning."""
    axes.annotate("", xy=end, xytext=start, xycoords="axes fraction", arrowprops=BETTER)
    axes.text(*start, "better ", transform=axes.transAxes, color="#333333", **beside)


def draw_rates(axes: Any, agent: str, of_systems: dict[str, Any]) -> None:
    """Medians by width, with the least and the greatest."""
    widths = [row[0] for row in next(iter(of_systems.values()))]
    for system, rows in of_systems.items():
        _, color, mark = SYSTEMS[system]
        spread = [[middle - least for _, least, middle, _ in rows], [most - middle for _, _, middle, most in rows]]
        axes.errorbar([row[0] for row in rows], [row[2] for row in rows], spread, color=color, marker=mark, markersize=5, capsize=3,
                      linewidth=1.2)
    axes.set_title(rate_title(agent, of_systems), loc="left")
    axes.set(xlabel="agents at once", ylabel="starts a second", xscale="log")
    axes.minorticks_off()
    axes.set_xticks([widths[0], COMPARED, widths[-1]], [str(width) for width in (widths[0], COMPARED, widths[-1])])
    top = -(-max(row[3] for rows in of_systems.values() for row in rows) // 1000) * 1000
    axes.set_yticks([0, top / 2, top])
    axes.set_ylim(0, top * 1.02)
    better(axes, (0.07, 0.72), (0.07, 0.97), {"rotation": 90, "va": "top", "ha": "center"})


def draw_shares(axes: Any, what: str, ticks: tuple[float, float, float], of_systems: dict[str, Any]) -> None:
    """The share of all that took no longer than so many milliseconds."""
    for system, points in of_systems.items():
        axes.step([ms for ms, _ in points], [share for _, share in points], where="post", color=SYSTEMS[system][1], linewidth=1.4)
    axes.set_title(share_title(what, of_systems), loc="left")
    axes.set(xlabel="milliseconds", ylabel="share of all", xscale="log", ylim=(0, 1.02))
    axes.minorticks_off()
    axes.set_xticks(ticks, [f"{tick:g}" for tick in ticks])
    axes.set_yticks([0, 0.5, 1], ["none", "half", "all"])
    axes.axhline(0.99, color="#999999", linewidth=0.7, linestyle=":")
    better(axes, (0.97, 0.1), (0.72, 0.1), {"va": "bottom", "ha": "right"})


def draw_about(axes: Any, kept: Kept) -> None:
    """The systems, and how it was measured; and whether that is a trial."""
    run = kept["run"]
    is_trial = run["rounds"] < ROUNDS or run["load"] > QUIET
    text = f"Measured on {run['date']}: {run['cores']} cores, {run['rounds']} round{'' if run['rounds'] == 1 else 's'},\nload {run['load']} before"
    if is_trial:
        text = f"A TRIAL, not to be compared.\n{text}"
    if "program" in run:
        text += f"; of the program\n{run['program']}"
    axes.axis("off")
    shown = [system for system in SYSTEMS if any(system in of for part in ("rates", "shares") for of in kept[part].values())]
    marks = [matplotlib.lines.Line2D([], [], color=SYSTEMS[system][1], marker=SYSTEMS[system][2]) for system in shown]
    axes.legend(marks, [SYSTEMS[system][0] for system in shown], loc="upper left", frameon=False)
    axes.text(0.02, 0.5, text, color="#c00000" if is_trial else "#333333", va="top", transform=axes.transAxes)
    axes.text(0.02, 0.2, "Rates: the median, the least and the greatest round.\nDotted: 99 of 100.", color="#333333", va="top",
              transform=axes.transAxes)


def draw(kept: Kept, picture: str) -> None:
    figure, axes = plt.subplots(2, 3, figsize=(12, 7))
    for place, (agent, of_systems) in enumerate(sorted(kept["rates"].items(), reverse=True)):
        draw_rates(axes[0][place], agent, of_systems)
    draw_about(axes[0][2], kept)
    shares = [("end 1", "Of one agent, half of the ends are reported\n", (0.3, 1, 3)),
              ("end 256", "Of 256 agents, half of the ends are reported\n", (0.5, 1, 5)),
              ("answer 256", "While 256 agents run, half of the answers come\n", (0.1, 1, 10))]
    for place, (key, what, ticks) in enumerate(shares):
        draw_shares(axes[1][place], what, ticks, kept["shares"][key])
    figure.tight_layout(w_pad=2.5, h_pad=2.5)
    figure.savefig(picture, metadata={"Date": None})


def main() -> None:
    if len(sys.argv) != 3:
        sys.exit("Use: plots.py FIGURES|KEPT.json PICTURE.svg")
    source, picture = sys.argv[1:]
    if source.endswith(".json"):
        with open(source, encoding="ascii") as file:
            kept = json.load(file)
    else:
        kept = read(source)
        with open(os.path.splitext(picture)[0] + ".json", "w", encoding="ascii") as file:
            json.dump(kept, file, separators=(",", ":"))
            file.write("\n")
    draw(kept, picture)


if __name__ == "__main__":
    main()
