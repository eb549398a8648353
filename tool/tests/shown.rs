//! Pages of runs, in a browser: what stands on a page at an instant is what the product's
//! state holds there, and what is clicked does what it should. Where Chromium isn't
//! installed nothing is tried but that a page needs no other file.

mod shared;

use hub::kinds::{is_control, DELAY};
use hub::layout::{held_in, input_in, value_in};
use hub::product;
use hub::store::{self, Store};
use hub::types::{Format, Netlist};
use shared::{hub, Folder};
use std::collections::BTreeSet;
use std::fs;
use std::path::Path;
use std::process::Command;

/// A page: the file, its start words, the names of its words, and the instants that are
/// looked at.
struct Shown {
    file: &'static str,
    words: &'static [(&'static str, usize, u16)],
    names: &'static [&'static str],
    instants: &'static [u32],
}

const PAGES: [Shown; 4] = [
    Shown {
        file: "examples/two_boards.hub",
        words: &[("x0", 0, 3), ("x1", 1, 5)],
        names: &["x0", "x1"],
        instants: &[0, 1, 5, 18, 19, 20, 58, 96, 97],
    },
    Shown {
        file: "examples/eight_groups.hub",
        words: &[
            ("x0", 0, 2),
            ("x1", 1, 1),
            ("x2", 2, 2),
            ("x3", 3, 1),
            ("x7", 7, 3),
        ],
        names: &["x0", "x1", "x2", "x3"],
        instants: &[0, 6, 7, 24, 29, 30, 31, 59, 60],
    },
    Shown {
        file: "examples/first_flag.hub",
        words: &[("clock[63]", 79, 2), ("clock[62]", 78, 1)],
        names: &["left", "board", "fallen"],
        instants: &[0, 2, 9, 27, 30, 31, 52, 53, 80, 120],
    },
    Shown {
        file: "docs/course/stall_17.list",
        words: &[("x0", 0, 3)],
        names: &["x0"],
        instants: &[0, 1, 2, 10, 19, 20, 39, 58],
    },
];

/// Goes to each instant by the slider and writes down what the page then shows.
const LOOK: &str = r#"
const told = document.createElement('pre');
told.id = 'told';
document.body.append(told);
const all = (query, of) => [...document.querySelectorAll(query)].map(of).join(',');
function look(t) {
  const slider = document.getElementById('slider');
  slider.value = t;
  slider.dispatchEvent(new Event('input'));
  const parts = [
    document.getElementById('instant').textContent,
    all('#circuit rect.high', r => r.id),
    all('#circuit path[id].high', p => p.id.split('-')[0].slice(1)),
    all('#dots [data-age]', d => d.dataset.in + '@' + d.dataset.age),
    all('#dots [data-held]', d => d.dataset.in + d.dataset.held),
    all('#source span.on', s => s.dataset.cells.replaceAll(' ', '+')),
    all('#store span', s => s.dataset.word + '=' + s.querySelector('b').textContent),
    all('#labels div', d => d.childNodes[1].textContent + '=' + d.lastChild.textContent),
  ];
  told.append('at ' + parts.join(' | ') + '\n');
}
"#;

/// Clicks, keys and play.
const TRY: &str = r#"
const note = text => told.append(text + '\n');
const click = node => node.dispatchEvent(new MouseEvent('click', { bubbles: true }));
const rowsNow = () => document.querySelectorAll('#labels div').length;
click(document.getElementById('none'));
note('rows ' + rowsNow());
click(document.querySelector('#circuit path.hit'));
note('rows ' + rowsNow());
click(document.querySelector('#circuit path.hit'));
note('rows ' + rowsNow());
click(document.querySelector('#circuit rect[id^=c]'));
note('rows ' + rowsNow());
const inside = () => document.querySelectorAll('#circuit rect[id^=c].gone').length;
click(document.querySelector('#circuit text[id^=t]'));
note('folded ' + document.querySelectorAll('#covers rect').length + ' ' + (inside() > 0));
click(document.querySelector('#covers rect'));
note('folded ' + document.querySelectorAll('#covers rect').length + ' ' + (inside() > 0));
const instant = () => document.getElementById('instant').textContent;
look(5);
click(document.getElementById('more'));
note('step ' + instant());
document.dispatchEvent(new KeyboardEvent('keydown', { key: 'ArrowLeft' }));
note('step ' + instant());
const header = document.querySelector('header');
const height = (width, t) => { header.style.width = width + 'px'; look(t); return header.offsetHeight; };
let moves = 0;
for (let width = 500; width < 1500; width += 10) moves += height(width, 0) !== height(width, 96);
note('moved ' + moves);
click(document.getElementById('start'));
const width = () => Number(document.querySelector('#circuit svg').getAttribute('width'));
const wide = width();
click(document.getElementById('in'));
note('zoom ' + (width() > wide));
click(document.getElementById('play'));
let looks = 0;
const watch = setInterval(() => {
  const played = Number(instant()) > 2;
  if (!played && ++looks < 100) return;
  clearInterval(watch);
  note('played ' + played);
}, 100);
"#;

/// What a browser makes of a page with a script behind its own.
fn seen(folder: &Folder, page: &str, script: &str) -> String {
    let page = page.replace("</script></body>", &format!("{{{script}}}</script></body>"));
    let file = folder.at("tried.html");
    fs::write(&file, page).expect("a page");
    let ran = Command::new("chromium")
        .args([
            "--headless",
            "--no-sandbox",
            "--disable-gpu",
            "--virtual-time-budget=12000",
        ])
        .arg(format!(
            "--user-data-dir={}",
            folder.at("profile").display()
        ))
        .arg("--dump-dom")
        .arg(format!("file://{}", file.display()))
        .output()
        .expect("it runs");
    let dom = String::from_utf8_lossy(&ran.stdout).into_owned();
    let told = dom
        .split("<pre id=\"told\">")
        .nth(1)
        .expect("what the script wrote");
    told.split("</pre>").next().unwrap_or_default().to_string()
}

fn top() -> std::path::PathBuf {
    Path::new(env!("CARGO_MANIFEST_DIR")).join("..")
}

/// A page, and the netlist file of its circuit.
fn made(folder: &Folder, shown: &Shown) -> (String, Vec<u8>) {
    let file = top().join(shown.file).display().to_string();
    let [page, net] = ["page.html", "x.net"].map(|name| folder.at(name).display().to_string());
    let words: Vec<String> = shown
        .words
        .iter()
        .map(|(name, _, word)| format!("{name}={word}"))
        .collect();
    let mut line = vec!["show", &file, "-o", &page, "--to", "130"];
    line.extend(words.iter().map(String::as_str));
    for line in [line, vec!["compile", &file, "-o", &net]] {
        let ran = hub(&line, "");
        assert!(
            ran.status.success(),
            "{}",
            String::from_utf8_lossy(&ran.stderr)
        );
    }
    (
        fs::read_to_string(page).expect("a page"),
        fs::read(net).expect("a netlist"),
    )
}

fn set(part: &str) -> BTreeSet<String> {
    part.trim()
        .split(',')
        .filter(|word| !word.is_empty())
        .map(String::from)
        .collect()
}

/// The cells that have a pulse in them or put one out.
fn is_active(netlist: &Netlist, state: &[u8], cell: u16) -> bool {
    let own = netlist.cells[usize::from(cell)];
    let high = is_control(own.kind) && value_in(state, cell) > 0;
    let inside = own.kind == DELAY && (0..own.delay).any(|age| input_in(state, cell, age));
    let holds = matches!(own.kind, 38 | 39) && held_in(state, cell) > 0;
    high || inside || holds
}

/// Holds what stands on a page at an instant against the state of that instant.
fn compare(shown: &Shown, netlist: &Netlist, state: &[u8], line: &str, page: &str) {
    let parts: Vec<&str> = line.split(" | ").collect();
    let cells = || 0..netlist.cells.len() as u16;
    let kind = |cell: u16| netlist.cells[usize::from(cell)].kind;
    let high = |cell: &u16| is_control(kind(*cell)) && value_in(state, *cell) > 0;
    let drawn = |cell: &u16| page.contains(&format!("<rect id=\"c{cell}\""));
    let mut boxes: BTreeSet<String> = cells()
        .filter(high)
        .filter(drawn)
        .map(|c| format!("c{c}"))
        .collect();
    if high(&netlist.finish) {
        boxes.insert("finish".to_string());
    }
    assert_eq!(set(parts[1]), boxes, "boxes: {line}");
    let wired = |cell: &u16| page.contains(&format!("<path id=\"w{cell}-"));
    let wires = cells()
        .filter(high)
        .filter(wired)
        .map(|c| c.to_string())
        .collect();
    assert_eq!(set(parts[2]), wires, "wires: {line}");
    let mut dots = BTreeSet::new();
    for cell in cells().filter(|cell| kind(*cell) == DELAY) {
        let ages = 0..netlist.cells[usize::from(cell)].delay;
        dots.extend(
            ages.filter(|age| input_in(state, cell, *age))
                .map(|age| format!("{cell}@{age}")),
        );
    }
    assert_eq!(set(parts[3]), dots, "dots: {line}");
    let merges = cells().filter(|cell| matches!(kind(*cell), 38 | 39));
    let bits = |cell: u16| {
        [(1, "a"), (2, "b")]
            .into_iter()
            .filter(move |(bit, _)| held_in(state, cell) & bit > 0)
            .map(move |(_, name)| format!("{cell}{name}"))
    };
    assert_eq!(
        set(parts[4]),
        merges.flat_map(bits).collect(),
        "held: {line}"
    );
    let lit: BTreeSet<String> = spans(page)
        .into_iter()
        .filter(|own| {
            own.split('+').any(|cell| {
                cell.parse()
                    .is_ok_and(|cell| is_active(netlist, state, cell))
            })
        })
        .collect();
    let on: BTreeSet<String> = set(parts[5]);
    assert_eq!(on, lit, "lit: {line}");
    let memories: Vec<u16> = cells().filter(|cell| kind(*cell) == 40).collect();
    for (variable, name) in shown.names.iter().enumerate() {
        let word = format!("{name}={}", value_in(state, memories[variable]));
        assert!(set(parts[6]).contains(&word), "{word}: {line}");
        assert!(set(parts[7]).contains(&word), "{word} in the waves: {line}");
    }
    let start = format!("start={}", value_in(state, 0));
    assert!(set(parts[7]).contains(&start), "{start}: {line}");
}

/// The cells of each statement of a page's source.
fn spans(page: &str) -> BTreeSet<String> {
    let spans = page.split("data-cells=\"").skip(1);
    let spans = spans.filter_map(|rest| rest.split('"').next());
    spans
        .filter(|cells| !cells.is_empty() && !cells.contains('$'))
        .map(|cells| cells.replace(' ', "+"))
        .collect()
}

fn is_installed() -> bool {
    let found = Command::new("chromium").arg("--version").output().is_ok();
    if !found {
        eprintln!("chromium isn't installed: no page is looked at");
    }
    found
}

#[test]
fn pages_show_what_the_states_hold() {
    let installed = is_installed();
    for shown in &PAGES {
        let folder = Folder::new("shown");
        let (page, file) = made(&folder, shown);
        let others = page.replace("http://www.w3.org/2000/svg", "");
        assert!(
            !others.contains("http") && !others.contains("src="),
            "one file is all"
        );
        let netlist = product::read_netlist(&file).expect("a netlist");
        let all: BTreeSet<String> = spans(&page)
            .iter()
            .flat_map(|own| own.split('+').map(String::from).collect::<Vec<_>>())
            .collect();
        for (cell, own) in netlist.cells.iter().enumerate() {
            assert!(
                own.kind != DELAY || all.contains(&cell.to_string()),
                "cell {cell} is a statement's"
            );
        }
        if !installed {
            continue;
        }
        let looks: String = shown
            .instants
            .iter()
            .map(|t| format!("look({t});\n"))
            .collect();
        let told = seen(&folder, &page, &format!("{LOOK}{looks}"));
        let lines: Vec<&str> = told
            .lines()
            .filter(|line| line.starts_with("at "))
            .collect();
        assert_eq!(lines.len(), shown.instants.len(), "{told}");
        let mut start: Store = [0; store::LENGTH];
        for (_, place, word) in shown.words {
            start[*place] = *word;
        }
        let (mut state, mut answer) = product::begin(Format::Full, &file, &start).expect("a run");
        for (instant, line) in shown.instants.iter().zip(lines) {
            while answer.instant < *instant {
                let ahead = instant - answer.instant;
                answer = product::go(Format::Full, &file, &mut state, ahead).expect("a run");
            }
            assert!(line.starts_with(&format!("at {instant} |")), "{line}");
            compare(shown, &netlist, &state, line, &page);
        }
    }
}

#[test]
fn pages_do_what_is_asked() {
    if !is_installed() {
        return;
    }
    let folder = Folder::new("asked");
    let (page, _) = made(&folder, &PAGES[0]);
    let told = seen(&folder, &page, &format!("{LOOK}{TRY}"));
    let told: Vec<&str> = told
        .lines()
        .filter(|line| !line.starts_with("at "))
        .collect();
    let expected = [
        "rows 0",
        "rows 1",
        "rows 0",
        "rows 1",
        "folded 1 true",
        "folded 0 false",
        "step 6",
        "step 5",
        "moved 0",
        "zoom true",
        "played true",
    ];
    assert_eq!(told, expected);
}
