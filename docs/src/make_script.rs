//! Prints the script over which reading is timed, `docs/src/script.js`: `make_script [BYTES]`, 262,144 if not given; the same bytes each time.
//! It is a program in the manner of an old toolkit: documented functions, widgets and tables, in the language that is read today.

use std::io::{self, Write};

/// A linear congruential generator, of which the high bits are taken.
struct Random(u64);

impl Random {
    fn below(&mut self, bound: usize) -> usize {
        self.0 = self.0.wrapping_mul(6_364_136_223_846_793_005).wrapping_add(1_442_695_040_888_963_407);
        (self.0 >> 33) as usize % bound
    }

    fn of(&mut self, choices: &[&'static str]) -> &'static str {
        choices[self.below(choices.len())]
    }
}

const VERBS: &[&str] = &[
    "add", "apply", "bind", "build", "clear", "close", "copy", "draw", "find", "focus", "format", "get", "hide", "insert", "join", "load", "measure", "move",
    "open", "parse", "push", "remove", "render", "reset", "scroll", "select", "set", "show", "sort", "split", "toggle", "update",
];
const NOUNS: &[&str] = &[
    "border", "button", "cell", "child", "column", "cookie", "date", "dialog", "element", "entry", "event", "field", "form", "frame", "header", "image",
    "index", "item", "key", "label", "layer", "line", "link", "list", "menu", "node", "offset", "option", "page", "panel", "path", "range", "row", "script",
    "selection", "size", "style", "table", "text", "title", "tree", "value", "width", "window",
];
const SHORT_NAMES: &[&str] = &["a", "b", "el", "e", "fn", "i", "id", "k", "n", "obj", "s", "x", "y", "$", "_t"];
const PROPERTIES: &[&str] = &[
    "length", "parentNode", "firstChild", "className", "innerHTML", "offsetWidth", "offsetHeight", "style", "id", "options", "prototype", "left", "top",
    "default", "class", "for", "target", "nodeName", "$cache", "_handlers",
];
const KEYS: &[&str] = &["name", "title", "left", "top", "width", "class", "default", "for", "visible", "onclick", "data", "children", "if", "text", "in"];
const STRINGS: &[&str] = &[
    "'click'", "'px'", "''", "' '", "'div'", "\"#\"", "'hidden'", "'mousedown'", "'it\\'s not a list'", "\"<li class=\\\"item\\\">\"", "'</li>'",
    "'&nbsp;'", "\"The page could not be loaded.\"", "'\\n'", "'\\\\'", "'http://example.com/'", "'[object Array]'", "\", \"", "'/* none */'", "'0 auto'",
    "'application/x-www-form-urlencoded'", "\"Select a row, then press 'Open'.\"", "'toolkit-panel toolkit-panel-open'", "'\\t'", "\"a{}/b\"",
];
const PATTERNS: &[&str] = &[
    "/^\\s+/", "/\\s+$/g", "/[^a-z0-9_]+/gi", "/-([a-z])/g", "/^#[0-9a-f]{6}$/i", "/[/\\\\]/", "/^(\\d+)px$/", "/<[^>]+>/g", "/\\//g", "/^https?:\\/\\//i",
    "/[\\]\\[(){}]/", "/=/", "/'/g", "/^(?:input|select|textarea)$/i", "/[\"'<>&]/g", "/\\bopen\\b/",
];
const SENTENCES: &[&str] = &[
    "%Verbs the %noun of each %noun, and its %nouns too.",
    "The %noun is kept, so that we need not %verb its %nouns twice.",
    "Some browsers / versions don't %verb the %noun: see \"%noun\" below.",
    "Calls back once for each %noun (in the order of the %nouns).",
    "What the %noun has is not changed; the %noun may be.",
    "TODO: %verb the %nouns as well {slow for long lists}.",
    "If no %noun is given, every %noun stays where it is.",
    "Returns nothing if the %noun isn't open.",
    "The same as %verb(%noun, %noun), but for all of its %nouns at once.",
];

// Templates: %v variable, %f function, %p property, %k key, %s string, %n number, %r pattern, %l label, %c condition, %e expression, %b body; %> %| %< a new line,
// further in, as it is and further out.
const SIMPLE: &[&str] = &["%v", "%v", "%v.%p", "%v.%p", "%s", "%s", "%n", "%v[%n]", "%f(%v)"];
const EXPRESSIONS: &[&str] = &[
    "%v.%f(%e)", "%f(%e, %e)", "%e + %e", "%v + %s + %e", "%v.%p / %n", "(%e + %v.%p) / 2", "%f(%v) / %v / %n", "%v.%p[%v]", "%v.replace(%r, %s)",
    "%r.exec(%v)[1]", "%v.split(%r).join(%s)", "[%e, %e, %e]", "[%s, , %n, ]", "{%k: %e, %k: %e}", "{}", "[]", "%f()", "%v.%p.%f(%v, %e, %n)",
    "function (%v) { return %e; }", "(%v = %e)", "{%k: %s, %k: %n, %k: %v}",
];
const CONDITIONS: &[&str] = &["%v", "%v.%p", "%r.test(%v)", "%f(%v)", "%v.%f(%s)", "%v[%e]", "%v = %f(%e)"];
const STATEMENTS: &[&str] = &[
    "%v = %e;", "%v = %e;", "%v.%p = %e;", "%v.%p = %e;", "%v[%e] = %e;", "%f(%e);", "%f(%v, %e);", "%f(%v, {%k: %e, %k: %e});", "%v.%f(%e);", "%v.%f(%e).%f(%e, %v);",
    "if (%c) return;", "if (%c) return %e;", "if (%c) %v = %e;", "if (%c) %r.exec(%v);", "%v.style.%p = %e + 'px';", "%v = %e / %n + %e;",
    "%v = %v.%p = %e;", "return %e;",
];
const BODIES: &[&str] = &[
    "if (%c) {%b}", "if (%c) {%b}", "if (%c) if (%c) {%b}", "%f(%v, function (%v, %v) {%b});", "%v.%f(%s, function (%v) {%b});",
    "%v.%p = function %f(%v, %v) {%b};", "%l: {%b}", "%f(function () {%b}, %n);",
];
const ITEMS: &[&str] = &[
    "function %f(%v, %v) {%b}", "function %f(%v) {%b}", "function %f() {%b}", "toolkit.%f = function (%v, %v, options) {%b};", "toolkit.%p.%f = function (%v) {%b};",
    "toolkit.%p = {%>%k: %e,%|%k: %s,%|%k: function (%v) {%b},%|%k: [%s, %s, %n, %n],%|%k: {%k: %e, %k: %r},%<};",
    "(function (window, $) {%b})(window, toolkit);",
];

struct Maker {
    random: Random,
    text: String,
    indent: usize,
}

impl Maker {
    fn line(&mut self) {
        self.text.push('\n');
        self.text.extend(std::iter::repeat("    ").take(self.indent));
    }

    fn name(&mut self) {
        match self.random.below(5) {
            0 => self.text += self.random.of(SHORT_NAMES),
            1 | 2 => self.text += self.random.of(NOUNS),
            _ => {
                self.text += self.random.of(NOUNS);
                self.capitalised(NOUNS);
            }
        }
    }

    fn capitalised(&mut self, words: &[&'static str]) {
        let word = self.random.of(words);
        self.text += &word[..1].to_uppercase();
        self.text += &word[1..];
    }

    fn of(&mut self, templates: &[&'static str], depth: usize) {
        let template = self.random.of(templates);
        self.expand(template, depth);
    }

    fn expand(&mut self, template: &str, depth: usize) {
        let mut rest = template.chars();
        while let Some(next) = rest.next() {
            if next != '%' {
                self.text.push(next);
                continue;
            }
            match rest.next() {
                Some('v') => self.name(),
                Some('f') => {
                    self.text += self.random.of(VERBS);
                    self.capitalised(NOUNS);
                }
                Some('p') => self.text += self.random.of(PROPERTIES),
                Some('k') => self.text += self.random.of(KEYS),
                Some('s') => self.text += self.random.of(STRINGS),
                Some('n') => self.text += &[0, 1, 2, 10, 16, 100, 255, 1000, 86_400][self.random.below(9)].to_string(),
                Some('r') => self.text += self.random.of(PATTERNS),
                Some('l') => self.text += self.random.of(&["retry", "done", "outer", "search"]),
                Some('c') => self.of(CONDITIONS, depth + 1),
                Some('e') if depth < 3 && self.random.below(3) == 0 => self.of(EXPRESSIONS, depth + 1),
                Some('e') => self.of(SIMPLE, depth + 1),
                Some('b') => self.body(),
                step => {
                    match step {
                        Some('>') => self.indent += 1,
                        Some('<') => self.indent -= 1,
                        _ => {}
                    }
                    self.line();
                }
            }
        }
    }

    fn body(&mut self) {
        self.indent += 1;
        for _ in 0..2 + self.random.below(if self.indent == 1 { 7 } else { 3 }) {
            if self.random.below(5) < 2 {
                if self.random.below(2) == 0 {
                    self.text.push('\n');
                }
                for _ in 0..1 + self.random.below(4) {
                    self.line();
                    self.text += "// ";
                    self.sentence();
                }
            }
            if self.random.below(8) == 0 {
                self.line();
                self.text += "// ";
                self.of(STATEMENTS, 0);
            }
            self.line();
            if self.indent < 5 && self.random.below(4) == 0 {
                self.of(BODIES, 0);
            } else {
                self.of(STATEMENTS, 0);
            }
            if self.random.below(12) == 0 {
                self.text += "  /* ";
                self.sentence();
                self.text += " */";
            }
        }
        self.indent -= 1;
        self.line();
    }

    fn sentence(&mut self) {
        let mut rest = self.random.of(SENTENCES);
        while let Some((before, after)) = rest.split_once('%') {
            self.text += before;
            // The placeholders have four letters each.
            match &after[..4] {
                "Verb" => self.capitalised(VERBS),
                "verb" => self.text += self.random.of(VERBS),
                _ => self.text += self.random.of(NOUNS),
            }
            rest = &after[4..];
        }
        self.text += rest;
    }

    /// A function, widget or table, with the comment before it.
    fn item(&mut self) {
        self.text += "\n/**";
        for _ in 0..3 + self.random.below(8) {
            self.text += "\n * ";
            self.sentence();
        }
        self.text += "\n *";
        for _ in 0..self.random.below(5) {
            self.text += "\n * @param {";
            self.capitalised(&["boolean", "element", "event", "function", "number", "object", "string"]);
            self.text += "} ";
            self.name();
            self.text += "  ";
            self.sentence();
        }
        self.text += "\n */\n";
        self.of(ITEMS, 0);
        self.text.push('\n');
    }
}

/// A script of so many bytes: items while they fit, and then lines of comments.
fn script(bytes: usize) -> String {
    let mut maker = Maker { random: Random(2009), text: String::new(), indent: 0 };
    loop {
        let before = maker.text.len();
        maker.item();
        if maker.text.len() > bytes {
            maker.text.truncate(before);
            break;
        }
    }
    while maker.text.len() < bytes {
        let line = (bytes - maker.text.len()).min(78);
        let before = maker.text.len();
        if line > 3 {
            maker.text += "// ";
            maker.sentence();
            maker.text.truncate(before + line - 1);
        }
        maker.text.push('\n');
    }
    maker.text
}

fn main() -> io::Result<()> {
    let bytes = std::env::args().nth(1).map_or(262_144, |word| word.parse().expect("a number of bytes"));
    io::stdout().write_all(script(bytes).as_bytes())
}
