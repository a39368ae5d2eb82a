"The style of a page: on a screen of any width, light or dark, and on paper."

STYLE = """
:root{color-scheme:light dark;--ink:#1b1f24;--paper:#fff;--soft:#57606a;--line:#d0d7de;--band:#f3f5f8;--blue:#0b57b8;
--good:#116329;--bad:#a40e26;--warn:#7d4e00;--bar:#75828f}
@media (prefers-color-scheme:dark){:root{--ink:#e6edf3;--paper:#0f1419;--soft:#a3b0bd;--line:#343d47;--band:#1a2129;
--blue:#7cb7ff;--good:#5bd076;--bad:#ff8f8f;--warn:#e3b341;--bar:#5b6875}}
*{box-sizing:border-box}
body{font:16px/1.5 system-ui,sans-serif;color:var(--ink);background:var(--paper);margin:0 auto;padding:1rem 1.25rem 4rem;max-width:78rem}
h1{font-size:1.5rem;margin:.6rem 0;overflow-wrap:anywhere}h2{font-size:1.25rem;margin:2.2rem 0 .5rem}h3{font-size:1.05rem;margin:1.5rem 0 .4rem}
p,.paragraph{margin:.4rem 0;max-width:72ch;overflow-wrap:anywhere}.soft{color:var(--soft)}
label{margin-right:1.2rem;cursor:pointer}input{width:1.05rem;height:1.05rem;vertical-align:-.15rem}
:focus-visible{outline:3px solid var(--blue);outline-offset:2px}
.skip{position:absolute;left:-99rem}.skip:focus{position:static}
.origin,.verdict,.notes{border:1px solid var(--line);border-left:.5rem solid var(--soft);padding:.5rem 1rem;margin:.6rem 0}
.origin p{margin:0 0 .3rem}.origin dl{display:grid;grid-template-columns:max-content 1fr;gap:.1rem .9rem;margin:0;font-size:.92rem}
dt{font-weight:600}dd{margin:0;min-width:0;overflow-wrap:anywhere}.origin dd+dd{grid-column:2}
.sum{font-family:ui-monospace,monospace;font-size:.8rem}
.verdict{background:var(--band);font-size:1.1rem}
.proved,.optimal{border-left-color:var(--good)}.infeasible{border-left-color:var(--bad)}
.unproved,.unbounded,.stop,.notes{border-left-color:var(--warn)}
.proved strong{color:var(--good)}.unproved strong{color:var(--warn)}
.notes ul{margin:.2rem 0;padding-left:1.2rem}
.wide{overflow-x:auto;margin:.4rem 0}
table{border-collapse:separate;border-spacing:0;font-size:15px;line-height:22px;font-variant-numeric:tabular-nums}
caption{text-align:left;color:var(--soft);padding:.2rem 0}.more{display:none}
th,td{border-top:1px solid var(--line);padding:4px .5rem;text-align:right;vertical-align:top}
.long{display:inline-block;max-width:24rem;white-space:normal;overflow-wrap:anywhere}td{white-space:nowrap}td.t{white-space:normal;min-width:7rem;overflow-wrap:break-word}
thead th{background:var(--band);vertical-align:bottom}tbody:last-child tr:last-child>*,tfoot tr>*{border-bottom:1px solid var(--line)}
thead th:not(.t){min-width:5.5rem;max-width:9rem}
th.t,td.t,tbody th,tfoot th{text-align:left}tbody th{font-weight:600;white-space:pre-wrap;overflow-wrap:break-word;max-width:20rem}
abbr{white-space:nowrap}
tbody th,tfoot th,thead th:first-child{position:sticky;left:0;background:var(--paper)}thead th:first-child{background:var(--band)}
tfoot td,tfoot th{font-weight:600;border-top:2px solid var(--ink)}
.unit{font-weight:400;color:var(--soft);font-size:.88em;overflow-wrap:anywhere}
.e{display:none}#exact:checked~main .e{display:inline}#exact:checked~main .d{display:none}
#most:checked~main tr.zero{display:none}
p .long,.paragraph .long,.verdict .long{display:inline}
.digits{display:inline-block;vertical-align:top;max-width:100%}td .digits{max-width:13rem}.digits summary{cursor:pointer;white-space:normal}
.states{display:grid;grid-template-columns:max-content 1fr;gap:.1rem .9rem;margin:.4rem 0;font-size:.92rem}
summary{cursor:pointer}
pre{overflow-x:auto;background:var(--band);padding:.7rem;font-size:.82rem;line-height:1.35}
.plots{display:flex;flex-wrap:wrap;gap:.8rem}figure{margin:0;max-width:100%}figcaption{font-size:.9rem;font-weight:600;overflow-wrap:anywhere}
svg{max-width:100%;display:block}.plots svg{height:auto}svg text{fill:var(--ink);font:12px system-ui,sans-serif}
.limits svg{width:100%;max-width:44rem;overflow:visible}.limits text{font-size:13px}.limits .name{font-weight:600}
.bar{fill:var(--bar)}.priced{fill:var(--blue)}.frame{fill:none;stroke:var(--line)}.whole{stroke:var(--ink);stroke-width:2}
.axis{stroke:var(--soft);fill:none}.grid{stroke:var(--line)}.zeroline{stroke:var(--ink);stroke-width:1.4}
.bend{stroke:var(--soft);stroke-dasharray:2 4}
.curve{stroke:var(--blue);stroke-width:2.2;fill:none}.jump{stroke:var(--blue);stroke-dasharray:3 3;fill:none}.dot{fill:var(--blue)}
@media screen and (max-width:40rem){
body{padding:.7rem .8rem 3rem}.origin,.verdict,.notes{padding:.5rem .7rem}
.origin dl,.states{grid-template-columns:1fr;gap:0}.origin dd,.states dd{margin:0 0 .3rem}.origin dd+dd{grid-column:1}
tbody th{max-width:9.5rem}thead th:not(.t){min-width:0}td.t{min-width:0}
.more{display:block;font-size:.88em}.more::after{content:" →"}
table{width:max-content}td.t{max-width:15rem}}
@media print{:root{color-scheme:light;--ink:#000;--paper:#fff;--soft:#333;--line:#999;--band:#fff;--blue:#000;--good:#000;--bad:#000;--warn:#000;
--bar:#888}
@page{margin:11mm 11mm 14mm;@bottom-right{content:counter(page) " / " counter(pages);font:8pt system-ui,sans-serif}}
body{max-width:none;padding:0;font-size:9.5pt;line-height:1.35}h1{margin:0 0 .3rem}h2{margin:.9rem 0 .3rem}h3{margin:.6rem 0 .2rem}
p,.paragraph{max-width:none;margin:.2rem 0}
table{font-size:7.5pt;line-height:12px}td{white-space:normal}th,td{padding:1px .15rem}thead th:not(.t){min-width:0}
td.t{min-width:0;padding-left:.5rem}td.i{min-width:34mm}tbody th{max-width:12rem}tbody tr:first-child{break-before:avoid}
.origin dl,.states{font-size:8.5pt}.sum{font-size:7.5pt}svg text,.limits text{font-size:8pt}
.origin,.verdict,.notes{padding:.3rem .7rem;margin:.35rem 0}.verdict{font-size:1em}
.tools,.skip,details:not([open]):not(.digits){display:none}.wide{overflow:visible}
tbody th,tfoot th,thead th:first-child{position:static}
tr,figure,.origin,.verdict,.notes,.states,.end{break-inside:avoid}thead{display:table-header-group}tfoot{display:table-row-group}
h2,h3,caption{break-after:avoid}pre{white-space:pre-wrap}}
"""
