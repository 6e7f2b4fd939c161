"""The colours, lines and sheets of a sequence chart, and of the page around it.

Colours and lines stand as attributes, so that a viewer that knows no style sheet shows the chart.
The sheet has what it looks like on a dark screen, and at an arrow that one points at.
"""

# the texts of a chart, but where an element says another
TEXT = (
    'class="chart" font-family="ui-sans-serif,system-ui,Segoe UI,Helvetica,Arial,sans-serif"'
    ' font-size="11" fill="#1b1f24"'
)
# the names of modules, and what stands smaller and paler
NAME = 'font-size="13" font-weight="700" text-anchor="middle"'
PALE = 'class="pale" font-size="10" fill="#5b6470"'
# boxes, lifelines and folds
BOXES = 'class="box" fill="#eef1f5" stroke="#c3c9d1"'
LIFE = 'class="life" fill="none" stroke="#c3c9d1" stroke-dasharray="2 3"'
FOLD = 'class="fold" fill="#eef1f5"'
# what tells of something that went wrong, and what a module was told
BAD = ' class="bad" fill="#c0182b"'
BOLD = ' font-weight="700"'
# the lines of frames
REQUEST = 'class="request" fill="none" stroke="#0b5cad" stroke-width="1.5"'
REPLY = 'class="reply" fill="none" stroke="#1a7f37" stroke-width="1.5" stroke-dasharray="6 3"'
FAILURE = 'class="failure" fill="none" stroke="#c0182b" stroke-width="1.5" stroke-dasharray="6 3"'
DATA = 'class="data" fill="none" stroke="#7a5195" stroke-width=".8"'
# the cross where a frame was lost, and the bars of a reset
CROSS = 'class="cross" stroke="#c0182b" stroke-width="2" stroke-dasharray="none"'
# what one points at, which is wider than what one sees
HIT = 'class="hit" stroke="none" stroke-width="9" pointer-events="stroke"'

STYLE = """\
.halo{paint-order:stroke;stroke:#fff;stroke-width:3px;stroke-linejoin:round}
a:hover .line,a:focus .line{stroke-width:3}a:focus{outline:none}
a:focus .halo{text-decoration:underline}
@media (prefers-color-scheme:dark){
.paper{fill:#15181c}.chart{fill:#e6e9ee}.pale{fill:#9aa4b1}.halo{stroke:#15181c}
.box,.fold{fill:#232930}.box,.life{stroke:#454d57}
.request{stroke:#6cb3ff}#request path{fill:#6cb3ff}
.reply{stroke:#5ad07a}#reply path{fill:#5ad07a}
.failure,.cross{stroke:#ff7b86}#failure path,.bad{fill:#ff7b86}
.data{stroke:#c9a3e6}#data path{fill:#c9a3e6}
}""".replace("\n", "")

PAGE_STYLE = """\
body{margin:0;display:flex;font:14px ui-sans-serif,system-ui,Segoe UI,Helvetica,Arial,sans-serif;
background:#fff;color:#1b1f24}
main{flex:1;overflow:auto;height:100vh}
aside{width:22em;box-sizing:border-box;padding:1em;overflow:auto;height:100vh;
border-left:1px solid #c3c9d1;overflow-wrap:anywhere}
section{display:none}section:target,section.shown{display:block}
aside:has(.shown) section:target:not(.shown){display:none}
h1,h2{font-size:1em}
@media (prefers-color-scheme:dark){body{background:#15181c;color:#e6e9ee}
aside{border-color:#454d57}}""".replace("\n", "")

# what makes the message of an arrow appear that one points at or reaches by the keyboard
SCRIPT = """\
(function(){var shown=null;function show(e){var a=e.target.closest('a[href]');if(!a)return;
var s=document.getElementById(a.getAttribute('href').slice(1));if(!s)return;
if(shown)shown.classList.remove('shown');s.classList.add('shown');shown=s;}
document.addEventListener('mouseover',show);document.addEventListener('focusin',show);})();\
""".replace("\n", "")


def head(name, size, colour):
    """The head of the arrows of a kind."""
    return (
        f'<marker id="{name}" viewBox="0 0 8 8" refX="8" refY="4" markerWidth="{size}"'
        f' markerHeight="{size}" markerUnits="userSpaceOnUse" orient="auto">'
        f'<path fill="{colour}" d="M0 0L8 4L0 8z"/></marker>'
    )


HEADS = "".join(
    [
        "<defs>",
        head("request", 8, "#0b5cad"),
        head("reply", 8, "#1a7f37"),
        head("failure", 8, "#c0182b"),
        head("data", 7, "#7a5195"),
        "</defs>\n",
    ]
)
