"""The page's style: plain, for a screen of any width and for paper."""
STYLE = """
:root{color-scheme:light}
*{box-sizing:border-box}
body{margin:0 auto;max-width:62rem;padding:1.5rem 1rem 3rem;color:#1b1f24;background:#fff;font:16px/1.45 system-ui,-apple-system,"Segoe UI",Roboto,"DejaVu Sans",sans-serif}
h1{font-size:1.7rem;margin:0}
h2{font-size:1.35rem;margin:0 0 .6rem;overflow-wrap:anywhere}
h2 small{font-size:.7em;font-weight:500;color:#57606a;margin-left:.3em}
h3{font-size:1.05rem;margin:1.5rem 0 .4rem}
p{margin:.4rem 0}
.when{color:#57606a;margin:0 0 .8rem}
section,footer{border-top:1px solid #d0d7de;margin-top:2rem;padding-top:1.4rem}
footer{color:#57606a;font-size:.92rem}
footer h2{font-size:1rem;color:#1b1f24}
.verdict{border-left:.3rem solid;padding:.5rem .8rem;font-weight:600}
.verdict.good{background:#eef8f0}.verdict.warn{background:#fff6e5}.verdict.bad{background:#fdeeec}
.good{color:#1a6b2f}.warn{color:#8a5300}.bad{color:#b42318}
.check{font-weight:600;margin:.5rem 0 0}
dl{display:flex;flex-wrap:wrap;gap:.3rem 1.8rem;margin:.6rem 0}
dl div{min-width:0}
dt{color:#57606a;font-size:.82rem}
dd{margin:0;font-variant-numeric:tabular-nums;overflow-wrap:anywhere}
nav ul{list-style:none;display:flex;flex-wrap:wrap;gap:.2rem 1.2rem;padding:0;margin:.8rem 0 0}
a{color:#0b5cad}
table{border-collapse:collapse;width:100%;margin-top:.5rem;font-variant-numeric:tabular-nums}
th,td{padding:.4rem .5rem;text-align:right;vertical-align:top;border-bottom:1px solid #e4e8ec}
thead th{color:#57606a;font-size:.82rem;font-weight:500;border-bottom-color:#afb8c1}
th:first-child{text-align:left;padding-left:0;overflow-wrap:anywhere}
tbody th{font-weight:600}
td:last-child,th:last-child{padding-right:0}
td,thead th{white-space:nowrap}
.refused th,.refused td{text-align:left;white-space:normal;overflow-wrap:anywhere}
.refused td:first-child{padding-left:0;white-space:nowrap}
.refused th:first-child{white-space:nowrap}
.refused td:nth-child(2){min-width:8rem}
.refused td:last-child{font-family:ui-monospace,"DejaVu Sans Mono",monospace;font-size:.85em;width:42%}
figure{margin:.6rem 0 0}
.lane{display:flex;align-items:center;gap:.8rem;margin-bottom:.5rem}
.who{flex:0 0 11rem;overflow-wrap:anywhere;line-height:1.25}
.who span{display:block;color:#57606a;font-size:.82rem}
svg{flex:1 1 auto;min-width:0;height:4rem;display:block}
svg path{fill:none;vector-effect:non-scaling-stroke;stroke-width:1}
.way{stroke:#0b5cad;stroke-width:1.5}
.nought{stroke:#8c959f}
.bound{stroke:#8c959f;stroke-dasharray:5 4}
.turn{stroke:#b35900}
.axis{position:relative;height:1.3rem;margin-left:11.8rem;font-size:.78rem;color:#57606a}
.axis span{position:absolute;white-space:nowrap}
.axis .end{transform:translateX(-100%)}
figcaption{color:#57606a;font-size:.85rem;margin-top:.3rem}
@media screen and (max-width:44rem){
thead{display:none}
table,tbody,tr,th,td{display:block}
tr{border:1px solid #d0d7de;border-radius:.4rem;padding:.5rem .7rem;margin-bottom:.6rem}
th,td,th:first-child,td:last-child{border:0;padding:.12rem 0}
td{display:flex;justify-content:space-between;align-items:baseline;gap:1rem;text-align:right}
td::before{content:attr(data-name);color:#57606a;font-size:.85rem;flex:none}
.refused td{display:block}
.refused td::before{display:block}
.refused td:last-child{width:auto}
td{white-space:normal;overflow-wrap:anywhere}
.lane{display:block;margin-bottom:.7rem}
.who span{display:inline;margin-left:.4rem}
svg{width:100%;height:3.4rem}
.axis{margin-left:0}
}
@media print{
body{max-width:none;padding:0;font-size:10.5pt}
section{break-before:auto}
table,figure,.lane,tr{break-inside:avoid}
.refused{break-inside:auto}
h2,h3{break-after:avoid}
svg{height:1.4cm}
nav{display:none}
a{color:inherit}
*{-webkit-print-color-adjust:exact;print-color-adjust:exact}
}
"""
