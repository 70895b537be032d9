"""The templates of hallview's pages, written a second time: for view_page.py. Style and script are those of the crate hallview_pages."""
import base64
import hashlib
import os
import re

CRATE = os.path.join(os.path.dirname(os.path.abspath(__file__)), "..", "crates", "hallview_pages", "src")
TEMPLATES = {}


def template(name, text):
    """Names a text with a hole at each `{}`."""
    TEMPLATES[name] = text.split("{}")


def constant(name, text):
    """Names a text without a hole, which may have `{}`."""
    TEMPLATES[name] = [text]


ENTITIES = str.maketrans({"&": "&amp;", "<": "&lt;", ">": "&gt;", '"': "&quot;", "'": "&#39;"})


def escape(text):
    """What stands for a text between tags, and between the double quotes of an attribute."""
    return text.translate(ENTITIES)


class Page:
    """A page as far as it is written."""

    def __init__(self):
        self.texts = []

    def put(self, name, *values):
        """Writes a template with these values."""
        parts = TEMPLATES[name]
        assert len(values) + 1 == len(parts), (name, values)
        self.texts.append(parts[0])
        for value, part in zip(values, parts[1:]):
            self.texts += [escape(value), part]

    def text(self):
        return "".join(self.texts)


def constant_of_crate(file):
    """The text of the only constant in a file of the crate."""
    with open(os.path.join(CRATE, file), encoding="utf-8") as lines:
        text = re.search(r': &str =\s+"((?:[^"\\]|\\.)*)";', lines.read(), re.DOTALL)[1]
    return re.sub(r"\\(.)", lambda match: {"n": "\n"}.get(match[1], match[1]), text)


STYLE = constant_of_crate("style.rt")
SCRIPT = constant_of_crate("script.rt")

template("head", """<!DOCTYPE html>
<html lang="en">
<head>
<meta charset="utf-8"/>
<meta name="viewport" content="width=device-width, initial-scale=1"/>
<title>{}</title>
<style>""")
constant("style", STYLE)
template("body", """</style>
</head>
<body>
<main>
<h1>{}</h1>
<p>At <time datetime="{}">{}</time></p>
""")
template("main_end", """</main>
<footer>
<p>hallview reads only; it never changes a hall. For programs: <a href="/metrics">metrics</a> <a href="/state.json">state</a></p>
</footer>
<script>""")
constant("script", SCRIPT)
template("end", """</script>
</body>
</html>
""")

# what is on a page
template("nav", """<nav aria-label="On this page">
<ul>
""")
template("nav_calm", """<li><a href="#trouble">{}</a></li>
""")
template("nav_trouble", """<li><a href="#trouble"><strong>{}</strong></a></li>
""")
template("nav_rest", """<li><a href="#work">{}</a></li>
<li><a href="#machines">{}</a></li>
<li><a href="#day">The last day</a></li>
""")
template("nav_all", """<li><a href="/">All halls</a></li>
""")
template("nav_end", """</ul>
</nav>
""")

# the table of halls
template("halls", """<section id="halls">
<h2>Halls</h2>
""")
template("halls_table", """<div role="group" aria-label="Halls" tabindex="0">
<table>
<thead>
<tr><th scope="col">Hall</th><th scope="col">Desk</th><th scope="col">List</th><th scope="col" class="n">Machines</th><th scope="col" class="n">In trouble</th><th scope="col" class="n">At work</th><th scope="col" class="n">Orders that wait</th></tr>
</thead>
<tbody>""")
template("hall", """<tr><th scope="row"><a href="{}">{}</a></th>""")
template("hall_up", """<td>up</td><td>{}</td>""")
template("hall_down", """<td><strong>down</strong></td><td><strong>{}</strong></td>""")
template("hall_counts", """<td class="n">{}</td><td class="n">{}</td><td class="n">{}</td><td class="n">{}</td>
</tr>""")
template("halls_end", """</tbody>
</table>
</div>
""")
template("hall_fault", """<p role="alert"><strong>{}</strong> Look at the desk: <code>{}</code></p>
""")
template("note", """<p>{}</p>
""")


# a hall's counts
template("counts_open", """<details open="">
<summary>{}</summary>
""")
template("counts_shut", """<details>
<summary>{}</summary>
""")
template("counts", """<div role="group" aria-label="{}" tabindex="0">
<table>
<thead>
<tr><th scope="col">Status</th><th scope="col" class="n">All</th><th scope="col">Share</th>""")
template("counts_pool", """<th scope="col" class="n"><a href="{}">{}</a></th>""")
template("counts_others", """<th scope="col" class="n">{}</th>""")
template("counts_body", """
</tr>
</thead>
<tbody>""")
template("count", """<tr class="{}"><th scope="row"><a href="{}">{}</a></th><td class="n">{}</td><td><svg width="100" height="10" aria-hidden="true"><rect width="{}" height="10"/></svg>{}</td>""")
template("count_pool", """<td class="n">{}</td>""")
template("count_none", """<td class="n none">0</td>""")
template("count_end", """
</tr>""")
template("counts_foot", """</tbody>
<tfoot>
<tr><th scope="row">All</th><td class="n">{}</td><td></td>""")
template("counts_end", """
</tr>
</tfoot>
</table>
</div>
</details>
""")
template("section_end", """</section>
""")

# in trouble
template("trouble", """<section id="trouble">
<h2>{}</h2>
""")
template("group", """<details id="{}" open="">
<summary><h3>{}</h3></summary>
""")
template("group_do", """<p><span>{}</span>""")
template("group_all", """ <span>{}</span>""")
template("group_code", """ <code>{}</code>""")
template("group_do_end", """</p>
""")
template("group_table", """<div role="group" aria-label="{}" tabindex="0">
<table>
<thead>
<tr>""")
template("col", """<th scope="col">{}</th>""")
template("group_body", """</tr>
</thead>
<tbody>""")
template("row", """<tr><th scope="row"><a href="{}">{}</a></th>""")
template("row_late", """<tr class="trouble"><th scope="row"><a href="{}">{}</a></th>""")
template("cell", """<td>{}</td>""")
template("cell_strong", """<td><strong>{}</strong></td>""")
template("cell_open", """<td>""")
template("cell_text", """<span>{}</span>""")
template("cell_code", """ <code>{}</code>""")
template("cell_end", """</td>""")
template("row_end", """
</tr>""")
template("group_end", """</tbody>
</table>
</div>
</details>
""")
template("group_more", """</tbody>
</table>
</div>
<p><a href="{}">{}</a></p>
</details>
""")

# at work
template("work", """<section id="work">
<h2>{}</h2>
""")
template("work_table", """<div role="group" aria-label="At work" tabindex="0">
<table>
<caption>{}</caption>
<thead>
<tr>""")
template("work_bar", """<td><svg width="100" height="10" aria-hidden="true"><rect width="{}" height="10"/></svg>{}</td>""")
template("table_end", """</tbody>
</table>
</div>
""")
template("work_more", """<p><a href="{}">{}</a></p>
""")

# the filter
template("machines", """<section id="machines">
<h2>Machines</h2>
<form method="get" action="/#machines">
<label>Address or other text <input type="search" name="q" value="{}"/></label>
""")
template("select", """<label>{}<select name="{}">
<option value="">any</option>
""")
template("option", """<option value="{}">{}</option>
""")
template("option_chosen", """<option value="{}" selected="">{}</option>
""")
template("select_end", """</select></label>
""")
template("form_sort", """<input type="hidden" name="sort" value="{}"/>
""")
template("form_end", """<button>Show</button>
</form>
""")
template("machines_clear", """<p>{}<a href="{}">Show all</a></p>
""")
template("pages", """<nav aria-label="Pages of machines">
<ul>
""")
template("pages_link", """<li><a href="{}">{}</a></li>
""")
template("machines_table", """<div role="group" aria-label="Machines" tabindex="0">
<table>
<caption>{}</caption>
<thead>
<tr>""")
template("sort", """<th scope="col"><a href="{}">{}</a></th>""")
template("sort_up", """<th scope="col" aria-sort="ascending"><a href="{}">{}</a></th>""")
template("sort_down", """<th scope="col" aria-sort="descending"><a href="{}">{}</a></th>""")

# the last day
template("day", """<section id="day">
<h2>The last day</h2>
""")
template("plot", """<figure>
<figcaption>{}</figcaption>
<svg viewBox="0 0 1440 400" preserveAspectRatio="none" role="img" aria-label="{}">
""")
template("plot_path", """<path class="{}" d="{}"/>
""")
template("plot_end", """<path class="tick" d="M360 0V400M720 0V400M1080 0V400"/>
</svg>
<div class="axis" aria-hidden="true"><span>24 h ago</span> <span>18 h</span> <span>12 h</span> <span>6 h</span> <span>now</span></div>
<ul>
""")
template("plot_kind", """<li class="{}">{}</li>
""")
template("plot_table", """</ul>
<details>
<summary>As a table</summary>
<div role="group" aria-label="{}" tabindex="0">
<table>
<caption>{}</caption>
<thead>
<tr><th scope="col">Status</th><th scope="col" class="n">24 h ago</th><th scope="col" class="n">18 h ago</th><th scope="col" class="n">12 h ago</th><th scope="col" class="n">6 h ago</th><th scope="col" class="n">Last</th><th scope="col" class="n">Fewest</th><th scope="col" class="n">Most</th></tr>
</thead>
<tbody>""")
template("plot_row", """<tr><th scope="row">{}</th><td class="n">{}</td><td class="n">{}</td><td class="n">{}</td><td class="n">{}</td><td class="n">{}</td><td class="n">{}</td><td class="n">{}</td>
</tr>""")
template("figure_end", """</tbody>
</table>
</div>
</details>
</figure>
""")

# a machine
template("machine_nav", """<nav aria-label="Back">
<ul>
<li><a href="/">All machines</a></li>
<li><a href="{}">{}</a></li>
</ul>
</nav>
""")
template("machine_do", """<section id="do">
<h2>{}</h2>
<p>{}</p>
""")
template("machine", """<section id="members">
<h2>As the desk lists it</h2>
<div role="group" aria-label="As the desk lists it" tabindex="0">
<table>
<caption>{}</caption>
<tbody>""")
template("member", """<tr><th scope="row">{}</th><td>{}</td>
</tr>""")
template("moves", """<section id="moves">
<h2>Moves</h2>
<p>{}</p>
""")
template("moves_table", """<div role="group" aria-label="Moves" tabindex="0">
<table>
<caption>The newest first; times are when hallview saw it</caption>
<thead>
<tr><th scope="col">At</th><th scope="col">From</th><th scope="col">To</th><th scope="col">After</th></tr>
</thead>
<tbody>""")
template("move", """<tr><th scope="row"><time datetime="{}">{}</time></th><td>{}</td><td>{}</td><td>{}</td>
</tr>""")


# ---- the response


def source_hash(text):
    return "'sha256-%s'" % base64.b64encode(hashlib.sha256(text.encode("utf-8")).digest()).decode("ascii")


def fields():
    """The fields of a page's response."""
    policy = ("default-src 'none'; style-src %s; script-src %s; connect-src 'self'; form-action 'self'; base-uri 'none'; "
              "frame-ancestors 'none'" % (source_hash(STYLE), source_hash(SCRIPT)))
    return [
        ("Content-Type", "text/html; charset=utf-8"),
        ("Content-Security-Policy", policy),
        ("X-Content-Type-Options", "nosniff"),
        ("Referrer-Policy", "no-referrer"),
        ("Cross-Origin-Resource-Policy", "same-origin"),
        ("Cache-Control", "no-store"),
    ]
