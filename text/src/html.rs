//! Pages that need nothing but themselves.

/// How pages look, on a screen and on paper.
const STYLE: &str = "\
body { font: 15px/1.45 system-ui, sans-serif; max-width: 62em; margin: 2em auto; padding: 0 1em; color: #1b1b1b; background: white; }
h1 { font-size: 1.5em; } h2 { font-size: 1.2em; margin-top: 2em; border-bottom: 1px solid #bbb; } h3 { font-size: 1em; margin-top: 1.5em; }
pre { font: 13px/1.4 monospace; background: #f6f6f4; padding: .8em; overflow-x: auto; white-space: pre-wrap; }
table { border-collapse: collapse; margin: 1em 0; font-variant-numeric: tabular-nums; }
th, td { border: 1px solid #ccc; padding: .2em .7em; text-align: left; }
th { background: #eef0ee; } th.result, td.result { text-align: right; }
td.no { color: #888; } td.none { color: #9c1c1c; background: #fbefef; }
td.path { font-family: monospace; } .warning { color: #7a4a00; }
svg { max-width: 100%; height: auto; } .drawing { overflow-x: auto; }
nav a { margin-right: 1em; }
@media print { body { margin: 0; max-width: none; font-size: 11px; } pre { font-size: 9.5px; } nav { display: none; }
  h2, h3 { break-after: avoid; } tr, li, svg { break-inside: avoid; } .drawing { zoom: .8; } }
";

/// A whole page.
pub fn page(title: &str, body: &str) -> String {
    format!(
        "<!DOCTYPE html>\n<html lang=\"en\">\n<head>\n<meta charset=\"utf-8\">\n\
         <meta name=\"viewport\" content=\"width=device-width\">\n<title>{}</title>\n\
         <style>\n{STYLE}</style>\n</head>\n<body>\n{body}</body>\n</html>\n",
        escaped(title)
    )
}

/// Text as it stands in a page or a drawing.
pub fn escaped(text: &str) -> String {
    let text = text.replace('&', "&amp;").replace('<', "&lt;");
    text.replace('>', "&gt;").replace('"', "&quot;")
}
