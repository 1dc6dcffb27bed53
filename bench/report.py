"""The tables of README.md and the pictures, made of the stored figures. A table is between a line `<!-- NAME -->` and a line `<!-- end -->`; its last line
names the figures that it shows, so that a check needs no matplotlib."""
import re
import statistics

from measuring import FOLDER, MB, goals_of, ratio, spread, stored

PAGE = FOLDER.parent / "README.md"
OURS, THEIRS, LIMIT = "#1668b0", "#d0680a", "#b3261e"


def table(heads, rows):
    return "".join(f"| {' | '.join(map(str, line))} |\n" for line in [heads, ["---"] * len(heads), *rows])


def when(measured):
    at, found = measured["machine"], ", ".join(f"{name} {version}" for name, version in measured["versions"].items())
    return f"{measured['date']}, {at['machine']}, {at['cores']} cores of {at['processor']}, load {at['load']}; {found}.\n"


def cells(row):
    """Returns the cells of a row: the case, our figure, the peer's, the ratio, and the memory of both, beside the peer's and beside the input."""
    unit = f" {row['unit']}"
    theirs, over = (f"{spread(row['peer'])}{unit}, {row['of']}", ratio(row["ours"], row["peer"])) if "peer" in row else ("", "")
    memory = row.get("MB", [])
    said = ", ".join(f"{most:.1f}" for most in memory) + " MB" if memory else ""
    beside = f"{memory[0] / memory[1]:.2f}" if len(memory) > 1 else ""
    times = f"{memory[0] * MB / row['bytes']:.1f}" if memory and row.get("bytes") else ""
    return [row["case"], f"{spread(row['ours'])}{unit}", theirs, over, said, beside, times]


def filled(name):
    measured = stored(name)
    heads = ["Case", "`resb`", "Peer", "Ours over the peer's", "Memory", "Over the peer's", "Over the input"]
    rows = list(map(cells, measured["rows"]))
    used = [at for at in range(len(heads)) if any(row[at] != "" for row in rows)]
    return when(measured) + "\n" + table([heads[at] for at in used], ([row[at] for at in used] for row in rows))


# the tables whose goals README.md has
HEADLINES = ("compile", "cldr", "serve", "daily", "print", "text")


def goals(names):
    rows = [[name, asked, found, "holds" if holds else "**not reached**"]
            for table_name in names if stored(table_name) for row in stored(table_name)["rows"] for name, asked, found, holds in goals_of(row)]
    return table(["Goal", "Asked", "Median (minimum to maximum)", ""], rows)


def page():
    text = PAGE.read_text(encoding="utf-8")
    names = [name for name in re.findall(r"^<!-- (\w+) -->$", text, flags=re.M) if name != "end"]
    for name in names:
        made = goals(HEADLINES) if name == "goals" else filled(name) if stored(name) else None
        if made:
            text = re.sub(rf"<!-- {name} -->\n.*?<!-- end -->", lambda _, made=made: f"<!-- {name} -->\n{made}<!-- end -->", text, flags=re.S)
    return text


def check():
    same = page() == PAGE.read_text(encoding="utf-8")
    print("ok: the tables are those of the stored figures" if same else "wrong: a table of README.md is of other figures: bench/measure --draw")
    return 0 if same else 1


# ---- pictures


def rows_of(name, pattern):
    """Yields the rows whose case matches, each with its number: a size or a count."""
    for row in stored(name)["rows"]:
        found = re.fullmatch(pattern, row["case"])
        if found:
            yield float(found[1].replace(",", "")), row


def line(axes, points, color, name):
    across, runs = zip(*points)
    axes.plot(across, list(map(statistics.median, runs)), color=color, marker="o", markersize=4, label=name)
    axes.fill_between(across, list(map(min, runs)), list(map(max, runs)), color=color, alpha=0.15, lw=0)


def compiled(axes):
    for column, (title, pattern) in enumerate((("Nested text", r"nested text of ([\d.]+) MB"), ("One table of keys", r"a table of ([\d,]+) keys"))):
        rows = [row for _, row in rows_of("compile", pattern)]
        for at, (kind, color, name) in enumerate((("peer", THEIRS, "genrb --formatVersion 1"), ("ours", OURS, "resb compile"))):
            line(axes[column], [(row["bytes"] / MB, row[kind]) for row in rows], color, name)
            line(axes[2 + column], [(row["bytes"] / MB, [row["MB"][1 - at]]) for row in rows], color, name)
        axes[column].set(title=f"{title}: time", ylabel="s of processor time", yscale=("linear", "log")[column])
        axes[2 + column].set(title=f"{title}: memory", xlabel="MB of text", ylabel="MB at most", ylim=(0, None))


def lookups(axes):
    for at, (kind, title) in enumerate((("cold", "Cold: all lookups, in random order"), ("hot", "Hot: 500 lookups, again and again"))):
        rows = list(rows_of("cldr", rf"{kind} lookups in (\d+) bundles"))
        for form, color, name in (("peer", THEIRS, "C server over libicu"), ("ours", OURS, "resb serve")):
            line(axes[at], [(bundles, [1e3 / used for used in row[form]]) for bundles, row in rows], color, name)
        axes[at].set(title=title, xlabel="bundles of CLDR", ylabel="thousand lookups a second", xscale="log", ylim=(0, None))


def expensive(axes):
    """Draws the time of checks of expensive files over that of a plain table of their size, a dot a size, and what is allowed."""
    families = {}
    for row in stored("hostile")["rows"]:
        if row["case"].startswith("check of "):
            families.setdefault(row["case"].removeprefix("check of ").rpartition(", ")[0], []).append(row)
    for up, rows in enumerate(families.values()):
        for row in rows:
            axes[0].plot(ratio(row["ours"], row["peer"]).middle, up, "o", color=OURS, alpha=0.75, markersize=2.5 + (row["bytes"] / MB) ** 0.5)
        axes[0].plot(rows[0]["goals"][0][1], up, "|", color=LIMIT, markersize=13)
    axes[0].set(title="resb check of expensive files: a dot a size, red what is allowed", xlabel="times a plain table of the same size", xscale="log")
    axes[0].set_yticks(range(len(families)), list(families), fontsize=8)


PICTURES = {"compile": (compiled, "compile", 2, 2, (9, 6.4)), "lookups": (lookups, "cldr", 1, 2, (9, 3.6)), "expensive": (expensive, "hostile", 1, 1, (9, 9))}


def write():
    PAGE.write_text(page(), encoding="utf-8")
    try:
        import matplotlib
        matplotlib.use("svg")
        from matplotlib import pyplot, ticker
    except ImportError:
        print("skipped: python3-matplotlib is missing, so nothing is drawn")
        return 0
    for name, (draw, source, down, across, size) in PICTURES.items():
        if stored(source):
            with matplotlib.rc_context({"svg.hashsalt": name, "svg.fonttype": "none", "font.size": 9, "axes.grid": True, "axes.titlesize": 10}):
                picture, axes = pyplot.subplots(down, across, figsize=size, squeeze=False)
                draw(list(axes.flat))
                for one in axes.flat:
                    one.xaxis.set_major_formatter(ticker.FuncFormatter(lambda value, _: f"{value:,.6g}"))
                if name != "expensive":
                    axes.flat[0].legend(frameon=False)
                picture.tight_layout()
                picture.savefig(FOLDER / f"{name}.svg", metadata={"Date": None})
                pyplot.close(picture)
    return 0
