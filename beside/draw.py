"""Pictures of a result. Its help is docs/help/draw.txt."""
import subprocess
from collections.abc import Callable

from beside import basin, common, network

try:
    import matplotlib
    matplotlib.use("svg")
    matplotlib.rcParams.update({"svg.hashsalt": "basin", "svg.fonttype": "none", "font.size": 9, "hatch.linewidth": 0.5,
                                "axes.spines.top": False, "axes.spines.right": False, "text.parse_math": False})
    from matplotlib import pyplot
except ImportError:
    pyplot = None

BLUE, RED = "#2b6c99", "#c0392b"
ENDINGS = ("svg", "png", "pdf")

class NoPicture(common.BadText):
    """A picture can't be drawn, for the reason that is told."""

def read(basin_name, result):
    """A basin, its rights, and the months of its result."""
    tree = basin.read_basin(basin_name)
    months = list(basin.read_result(basin.lines_of(result), tree))
    if not months:
        raise NoPicture("the result has no month")
    return tree, basin.rights_of(tree), months

def known(what, name, names):
    """Refuses a name that isn't there."""
    if name not in names:
        raise NoPicture(f"{what} {name}{common.meant(name, names)}")

def year_marks(ax, months):
    """Puts a mark at each January."""
    firsts = [place for place, month in enumerate(months) if month.month.endswith("-01")]
    labels = [months[place].month[:4] for place in firsts]
    ax.set_xticks(firsts or [0], labels or [months[0].month])

def axes(months, height, title):
    """A figure over the months."""
    figure, ax = pyplot.subplots(figsize=(9, height), layout="constrained")
    ax.set_title(title, loc="left", fontsize=10)
    year_marks(ax, months)
    return figure, ax

def save(figure, out):
    figure.savefig(out, metadata={"Date": None} if out.endswith(".svg") else None, dpi=150)

def draw_right(basin_name, result, right, out):
    _, rights, months = read(basin_name, result)
    known("no right is named", right, months[0].wanted)
    want, got = [month.wanted[right] for month in months], [month.delivered[right] for month in months]
    figure, ax = axes(months, 3, f"{right}, of {rights[right].date}: wanted and delivered in each month")
    places = range(len(months))
    ax.bar(places, got, width=1, color=BLUE, label="delivered")
    lacks = [w - g for w, g in zip(want, got)]
    ax.bar(places, lacks, bottom=got, width=1, color="white", edgecolor=RED, hatch="////", linewidth=0, label="short")
    edges = [place - 0.5 for place in places] + [len(months) - 0.5]
    ax.step(edges, want + want[-1:], where="post", color="black", linewidth=0.8, label="wanted")
    top = max(1, *want)
    called = [place for place in places if right in months[place].callers]
    if called:
        ax.plot(called, [-0.05 * top] * len(called), linestyle="", marker="^", markersize=4, color="black",
                label="in the set of a short senior", clip_on=False)
    ax.set_ylim(-0.08 * top if called else 0, 1.05 * top)
    ax.margins(x=0.01)
    ax.legend(frameon=False, ncols=4, loc="lower right", bbox_to_anchor=(1, 1.08), borderpad=0)
    save(figure, out)

def draw_reservoir(basin_name, result, node, out):
    tree, _, months = read(basin_name, result)
    zones = sorted((it for it in tree.get("zone", []) if it["reservoir"] == node), key=lambda it: it["level"])
    known("no reservoir stands at", node, months[0].closing)
    figure, ax = axes(months, 3, f"{node}: storage at the end of each month, by zones")
    shades = pyplot.get_cmap("Blues_r")
    if zones:
        colours = [shades(0.15 + 0.6 * place / max(1, len(zones) - 1)) for place in range(len(zones))]
        ax.stackplot(range(len(months)), [[month.delivered[zone["name"]] for month in months] for zone in zones],
                     labels=[f"{zone['date'][:4]} {zone['name']}" for zone in zones], colors=colours, step="mid")
        ax.legend(frameon=False, ncols=len(zones), loc="lower right", bbox_to_anchor=(1, 1))
    held = [month.closing[node] for month in months]
    ax.step(range(len(months)), held, where="mid", color="black", linewidth=0.8)
    ax.set_ylim(0)
    save(figure, out)

def shares(months, right, is_zone):
    """How much of a right's want was lacking in each month, or of a zone's was there; nothing where it wanted none."""
    for month in months:
        want, got = month.wanted[right], month.delivered[right]
        yield float("nan") if not want else got / want if is_zone else 1 - got / want

def panel(figure, ax, months, rights, title, colours, ends):
    """A row for each right and a column for each month. Where nothing is wanted there is a hatch, and no colour."""
    is_zone = rights[0].kind == "zone"
    ax.set_facecolor("white")
    ax.patch.set(hatch="xxxx", edgecolor="#cccccc")
    rows = [list(shares(months, right.name, is_zone)) for right in rights]
    image = ax.imshow(rows, aspect="auto", cmap=colours, vmin=0, vmax=1, interpolation="nearest")
    ax.set_yticks(range(len(rights)), [f"{right.name} {right.date[:4]}" for right in rights])
    ax.set_title(title, loc="left", fontsize=10)
    year_marks(ax, months)
    bar = figure.colorbar(image, ax=ax, ticks=[0, 0.5, 1], pad=0.01)
    bar.ax.set_yticklabels(ends)

def from_white(colours):
    """The colours of a map by its name, begun with white."""
    shades = pyplot.get_cmap(colours)([0.35, 0.6, 1.0])
    return matplotlib.colors.LinearSegmentedColormap.from_list(colours, ["white", *shades])

def draw_shortages(basin_name, result, out):
    _, rights, months = read(basin_name, result)
    users = [it for it in rights.values() if it.kind != "zone"]
    zones = [it for it in rights.values() if it.kind == "zone"]
    panels = [(users, "How much of each right's want was lacking: white is met, hatched is nothing wanted", "OrRd",
               ["met", "half", "all"]),
              (zones, "How much of each storage zone was full at the month's end", "Blues", ["empty", "half", "full"])]
    panels = [it for it in panels if it[0]]
    if not panels:
        raise NoPicture("the basin has no rights")
    figure, all_axes = pyplot.subplots(len(panels), squeeze=False, layout="constrained",
                                       figsize=(9, 0.8 * len(panels) + 0.6 + 0.25 * len(rights)),
                                       gridspec_kw={"height_ratios": [len(it[0]) + 0.5 for it in panels]})
    for ax, (listed, title, colours, ends) in zip(all_axes[:, 0], panels):
        panel(figure, ax, months, listed, title, from_white(colours), ends)
    save(figure, out)

def draw_yearly(basin_name, name, out):
    rights, ensemble = basin.rights_of(basin.read_basin(basin_name)), basin.read_ensemble(basin.lines_of(name))
    users = [right for right in ensemble.yearly if basin.right_of(rights, right).kind != "zone"]
    if not users:
        raise NoPicture("the basin has no rights but zones, whose contents make no yearly sum")
    years, across = ensemble.traces ** 2, min(3, len(users))
    down = -(-len(users) // across)
    figure, all_axes = pyplot.subplots(down, across, squeeze=False, layout="constrained", figsize=(9, 0.8 + 1.8 * down))
    for ax in all_axes.flat[len(users):]:
        ax.set_visible(False)
    for ax, right in zip(all_axes.flat, users):
        amounts, counts = zip(*basin.reached(ensemble.yearly[right]))
        ax.step([0, *(100 * count / years for count in counts)], [amounts[0], *amounts], where="pre", color=BLUE)
        ax.set(xlim=(0, 100), ylim=(0, 1.05 * max(1, amounts[0])))
        ax.set_title(f"{right} {rights[right].date[:4]}", loc="left", fontsize=10)
    figure.supxlabel("percent of the years in which at least so much came", fontsize=9)
    figure.suptitle(f"Yearly deliveries: {years} years of {ensemble.traces} traces, which begin with {ensemble.first}",
                    x=0.01, ha="left", fontsize=10)
    save(figure, out)

def draw_network(basin_name, result, month, right, out):
    tree = basin.read_basin(basin_name)
    rights = basin.rights_of(tree)
    now = next((it for it in basin.read_result(basin.lines_of(result), tree) if it.month == month), None)
    if now is None:
        raise NoPicture(f"the result has no month {month}")
    if right != "-":
        known("no right is named", right, rights)
    try:
        scales = {text: scale(text) for text in map(str.encode, network.layouts(tree, now, right))}
        # (the first of the ways is read most easily)
        text = next(text for text, size in scales.items() if size >= 0.9 * max(scales.values()))
        subprocess.run(["dot", "-T" + out.rpartition(".")[2], "-o", out], input=text, check=True)
    except FileNotFoundError:
        raise common.Stop("graphviz is needed for a network: apt-get install graphviz", 2) from None
    except subprocess.CalledProcessError as error:
        raise NoPicture(f"graphviz could not draw {out} (status {error.returncode})") from None

def scale(text):
    """How large a network can be drawn on its page: the whole of it is 1 where it fits as it is."""
    plain = subprocess.run(["dot", "-Tplain", "-Gsize=1000,1000"], input=text, check=True, capture_output=True).stdout
    width, height = map(float, plain.split(None, 4)[2:4])
    return min(1, network.PAGE[0] / width, network.PAGE[1] / height)

DRAWS: dict[str, tuple[Callable[..., None], int]] = {
    "right": (draw_right, 4), "reservoir": (draw_reservoir, 4), "shortages": (draw_shortages, 3),
    "network": (draw_network, 5), "yearly": (draw_yearly, 3)}

def main(words: list[str]) -> int:
    _, words = common.options(words)
    draw, count = DRAWS.get(words[0] if words else "", (draw_right, -2))
    if len(words) != count + 1:
        raise common.WrongWords(f"{' '.join(words) or 'no words'}: these are no words for a picture")
    if words[-1].rpartition(".")[2] not in ENDINGS:
        raise NoPicture(f"{words[-1]} ends with none of {', '.join('.' + it for it in ENDINGS)}")
    if pyplot is None and draw is not draw_network:
        raise common.Stop("matplotlib is needed: apt-get install python3-matplotlib", 2)
    draw(*words[1:])
    return 0
