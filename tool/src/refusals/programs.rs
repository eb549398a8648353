//! Refusals 1 to 8, 22, 24, 25 and 28, of programs.

use super::{asking, calls, least_delay, Mark, Report};
use crate::answers::counted;
use crate::input::{Form, Given};
use crate::kinds;
use crate::preorder::{self, Below};
use crate::product;
use crate::source::Source;
use crate::types::{Beside, Fault, Node, Refusal};

/// The most procedures of a program.
const MOST_PROCEDURES: usize = 8;

/// The refusal of a program that was given as its bytes.
pub fn of_bytes(report: Report, given: &Given) -> Report {
    of_nodes(report, given, &product::nodes(&given.bytes), None)
}

/// The same of a text's or an outline's program. The product doesn't tell the
/// bytes of a text's program that it refuses: it is asked about the tool's own
/// reading, which must meet the same refusal.
pub fn of_source(report: Report, given: &Given) -> Result<Report, Fault> {
    let source = given.source()?;
    let bytes = product::program_bytes(&source.nodes);
    if product::check(given.beside(), &bytes) != Err(report.refusal) {
        return Err(given.misread());
    }
    Ok(of_nodes(report, given, &source.nodes, Some(&source)))
}

fn of_nodes(mut report: Report, given: &Given, nodes: &[Node], source: Option<&Source>) -> Report {
    match report.refusal.number {
        1 if given.aside.procedures > MOST_PROCEDURES => {
            report.rule = "a program has at most eight procedures".into();
            report.remedy =
                "put the steps of two procedures into one, or into their callers".into();
            report.found = Some(counted(given.aside.procedures, "procedure"));
        }
        1 if nodes.is_empty() => {
            report.found = Some(match given.form {
                Form::Outline => "no node".into(),
                _ => counted(given.bytes.len(), "byte"),
            });
            report.remedy = "give a program of at least one node, such as ok".into();
        }
        1 if source.is_none() => {
            report.found = Some(format!("{} bytes", given.bytes.len()));
        }
        1 => {
            report.found = Some(format!("{} nodes", nodes.len()));
            report.remedy = "make the program shorter".into();
        }
        6 => of_tree(&mut report, given, nodes, source),
        7 => of_delay(&mut report, given, nodes, source),
        8 => of_clash(&mut report, given, nodes, source),
        22 => of_exit(&mut report, given, nodes, source),
        24 => of_call(&mut report, given, nodes, source),
        25 => of_shared(&mut report, given, nodes, source),
        28 => of_added(&mut report, given, nodes, source),
        _ => of_node(&mut report, given, nodes, source),
    }
    report
}

/// Refusals 2 to 5, at a node.
fn of_node(report: &mut Report, given: &Given, nodes: &[Node], source: Option<&Source>) {
    let Refusal { number, place } = report.refusal;
    if number == 4 {
        let (rule, remedy) = match is_array(nodes[place]) {
            true => ("this node names an array above a3", "use a0 to a3"),
            false => ("this node names a variable above x15", "use x0 to x15"),
        };
        (report.rule, report.remedy) = (rule.into(), remedy.into());
    }
    match source.and_then(|source| source.places.get(place)) {
        Some(found) => report.marks = vec![Mark::new(&given.bytes, found.whole, "")],
        None => report.found = Some(node_shown(nodes, place)),
    }
}

/// Refusal 6: nodes that are missing at the end, or a first one that is left.
fn of_tree(report: &mut Report, given: &Given, nodes: &[Node], source: Option<&Source>) {
    let place = report.refusal.place;
    if matches!(given.form, Form::Text | Form::Short) {
        report.rule = "a short text is one statement, and has no procedures".into();
        report.remedy =
            "leave --procedures out; a long text declares its procedures, and tells them".into();
        report.found = Some(counted(given.aside.procedures, "procedure"));
        return;
    }
    if place < nodes.len() {
        report.rule = "this node is left over: the program is whole before it".into();
        report.remedy = "leave it out, or put both statements into a sequence".into();
        return show(report, given, nodes, source, &[(place, "")]);
    }
    let Some(Below { node, child }) = preorder::places(nodes).1 else {
        let (roots, _) = preorder::roots(nodes);
        let missing = match roots.len() {
            root if root < given.aside.procedures => format!("procedure {root}"),
            _ => "the main program".to_string(),
        };
        report.rule = format!("the nodes run out: {missing} is missing");
        report.remedy =
            "write one statement for each procedure, and one for the main program".into();
        report.found = Some(format!("{} in all", counted(place, "node")));
        return;
    };
    let role = kinds::children(nodes[node].kind)[child];
    report.rule = format!("the nodes run out: the {role} of this node is missing");
    report.remedy = "put each node's children after it, all of them".into();
    show(report, given, nodes, source, &[(node, "")]);
}

fn of_delay(report: &mut Report, given: &Given, nodes: &[Node], source: Option<&Source>) {
    let place = report.refusal.place;
    report.least = least_delay(given.beside(), nodes, place);
    let short = Beside {
        pulse: 1,
        ..given.beside()
    };
    // Whether a shorter pulse would do with less.
    let long = report.least > least_delay(short, nodes, place);
    let with = match long {
        true => format!("with pulses of {} instants ", given.aside.pulse),
        false => String::new(),
    };
    let least = counted(report.least.unwrap_or(u8::MAX).into(), "instant");
    report.rule = match nodes[place].kind {
        24 => "this delay is too small for index and value, which both have to settle in it".into(),
        27 => format!(
            "this delay is too small: {with}a procedure starts at least {least} after its call"
        ),
        kind if kind == 25 || long => {
            format!("this delay is too small: {with}going round a loop takes at least {least}")
        }
        _ => report.rule.clone(),
    };
    let written = match (given.form, nodes[place].kind) {
        (Form::Text | Form::Short, 17) => "write tick ",
        (Form::Text | Form::Short | Form::Outline, _) => "write @",
        _ => "set it to ",
    };
    report.remedy = match report.least {
        Some(least) => format!("the least delay here is {least}: {written}{least} or more"),
        None => {
            "no delay up to 255 is enough: work the expression out in several assignments".into()
        }
    };
    show_delays(report, given, nodes, source);
}

/// Shows all delays that are too small, the refusal's own first.
fn show_delays(report: &mut Report, given: &Given, nodes: &[Node], source: Option<&Source>) {
    let place = report.refusal.place;
    let least = |node: usize| least_delay(given.beside(), nodes, node);
    let too_small = |node: &usize| least(*node).is_none_or(|least| nodes[*node].delay < least);
    let others = (place + 1..nodes.len()).filter(too_small);
    let caption = |node: usize| match least(node) {
        Some(least) => format!("too small as well, the least is {least}"),
        None => "too small as well, and no delay is enough".to_string(),
    };
    let others = others.map(|node| (node, caption(node)));
    let all: Vec<(usize, String)> = [(place, String::new())].into_iter().chain(others).collect();
    match source {
        Some(source) => {
            let mark = |(node, caption): &(usize, String)| {
                let place = source.places[*node];
                let delay = place.delay.filter(|span| span.start < span.end);
                Mark::new(&given.bytes, delay.unwrap_or(place.mark), caption)
            };
            report.marks = all.iter().map(mark).collect();
        }
        None => {
            let shown = |(node, caption): &(usize, String)| match caption.is_empty() {
                true => node_shown(nodes, *node),
                false => format!("{}, {caption}", node_shown(nodes, *node)),
            };
            report.found = Some(all.iter().map(shown).collect::<Vec<_>>().join("; "));
        }
    }
}

fn of_clash(report: &mut Report, given: &Given, nodes: &[Node], source: Option<&Source>) {
    let place = report.refusal.place;
    let Some(uses) = asking::clash(given.beside(), nodes, place) else {
        return;
    };
    report.uses = Some(uses);
    let Node { n, .. } = nodes[uses[0]];
    let (name, thing) = match is_array(nodes[uses[0]]) {
        true => (given.names().array(n), "array"),
        false => (given.names().word(n), "variable"),
    };
    let own = |of: &str| (thing == of).then_some(n);
    (report.variable, report.array) = (own("variable"), own("array"));
    let told = uses.map(|node| format!("{name} is {} here", done(nodes[node])));
    report.rule = match uses.map(|node| done(nodes[node])) {
        [left, right] if left == right => {
            format!("{name} is {left} on both sides of a parallel statement")
        }
        [left, right] => {
            format!("{name} is {left} on one side of a parallel statement and {right} on the other")
        }
    };
    let apart = apart(given.form);
    report.remedy =
        format!("use another {thing} on one side, or put the sides one after the other {apart}");
    match source {
        Some(source) => {
            let mark = |span, caption| Mark::new(&given.bytes, span, caption);
            let sign = mark(
                source.places[place].mark,
                "these two sides run together".to_string(),
            );
            let [left, right] = uses.map(|node| source.places[node].mark);
            let [first, second] = told;
            report.marks = vec![sign, mark(left, first), mark(right, second)];
        }
        None => {
            let [left, right] = uses.map(|node| node_shown(nodes, node));
            let parallel = node_shown(nodes, place);
            report.found = Some(format!("{parallel}; {left}; {right}"));
        }
    }
}

fn of_exit(report: &mut Report, given: &Given, nodes: &[Node], source: Option<&Source>) {
    let exit = report.refusal.place;
    let mut told = vec![(exit, "")];
    match asking::between(given.beside(), nodes, exit) {
        Some([around, parallel]) => {
            report.rule =
                "a parallel statement stands between this exit and the loop around it".into();
            report.remedy =
                "put the loop into this side, or exit after the parallel statement".into();
            told.push((parallel, "these two sides run together"));
            told.push((around, "the loop is around both"));
        }
        None => {
            report.rule = "this exit has no loop around it".into();
            report.remedy = "put it into a loop; it ends no while and no repeat".into();
        }
    }
    show(report, given, nodes, source, &told);
}

fn of_call(report: &mut Report, given: &Given, nodes: &[Node], source: Option<&Source>) {
    let call = report.refusal.place;
    let (root, called) = (calls::root_of(nodes, call), usize::from(nodes[call].n));
    if called == root && root < given.aside.procedures {
        report.rule = "this procedure calls itself".into();
        report.remedy = "go round in a loop".into();
    } else if called < given.aside.procedures {
        let name = given.names().procedure(nodes[call].n);
        report.rule = format!("procedure {name} stands later than this call");
        report.remedy = "put the procedure before those that call it".into();
    } else {
        report.rule = format!("there is no procedure {called}");
        report.remedy = match given.aside.procedures {
            0 => "write the procedure before the main program".into(),
            1 => "call procedure 0, the only one that there is".into(),
            count => format!("call one of procedures 0 to {}", count - 1),
        };
    }
    show(report, given, nodes, source, &[(call, "")]);
}

fn of_shared(report: &mut Report, given: &Given, nodes: &[Node], source: Option<&Source>) {
    let parallel = report.refusal.place;
    let Some((procedure, sides)) = calls::shared(given.aside.procedures, nodes, parallel) else {
        return;
    };
    let names = given.names();
    let name = names.procedure(procedure as u16);
    report.rule = format!("both sides of a parallel statement reach procedure {name}");
    let apart = apart(given.form);
    report.remedy =
        format!("put the sides one after the other {apart}, or give each a procedure of its own");
    let caption = |call: usize| match nodes[call].n {
        called if usize::from(called) == procedure => format!("procedure {name} is called here"),
        called => {
            let called = names.procedure(called);
            format!("procedure {called} is called here, which reaches procedure {name}")
        }
    };
    let [left, right] = sides.map(caption);
    let told = [
        (parallel, "these two sides run together"),
        (sides[0], &left),
        (sides[1], &right),
    ];
    show(report, given, nodes, source, &told);
}

/// Refusal 28: what only the imperative circuit has, and how many such nodes there are.
fn of_added(report: &mut Report, given: &Given, nodes: &[Node], source: Option<&Source>) {
    let place = report.refusal.place;
    let (thing, instead) = match nodes[place].kind {
        10 | 24 => ("arrays", "keep the words in x0 to x15"),
        25 | 26 => ("loops that an exit ends", "write while or repeat"),
        _ => ("calls", "write the procedure's statement here"),
    };
    report.rule = format!("a functional circuit has no {thing}");
    report.remedy = format!("{instead}; or take the imperative circuit, without --functional");
    show(report, given, nodes, source, &[(place, "")]);
    let such = nodes.iter().filter(|node| asking::is_added(**node)).count();
    if such > 1 {
        let here = report.found.take().map(|here| here + "; ");
        let here = here.unwrap_or_default();
        report.found = Some(format!("{here}{such} such nodes in all"));
    }
}

/// Shows nodes with what is said of each, in the text where there is one.
fn show(
    report: &mut Report,
    given: &Given,
    nodes: &[Node],
    source: Option<&Source>,
    told: &[(usize, &str)],
) {
    match source {
        Some(source) => {
            let mark = |(node, caption): &(usize, &str)| {
                Mark::new(&given.bytes, source.places[*node].mark, *caption)
            };
            report.marks = told.iter().map(mark).collect();
        }
        None => {
            let shown = told.iter().map(|(node, _)| node_shown(nodes, *node));
            report.found = Some(shown.collect::<Vec<_>>().join("; "));
        }
    }
}

/// How two sides are put one after the other.
fn apart(form: Form) -> &'static str {
    match form {
        Form::Text | Form::Short => "with ';'",
        _ => "in a sequence",
    }
}

/// What a use does to its variable or array.
fn done(node: Node) -> &'static str {
    match node.kind {
        18 | 24 => "written",
        _ => "read",
    }
}

/// Whether a node is about an array.
fn is_array(node: Node) -> bool {
    matches!(node.kind, 10 | 24)
}

fn node_shown(nodes: &[Node], place: usize) -> String {
    let Node { kind, delay, n } = nodes[place];
    format!("node {place} has kind {kind}, delay {delay}, n {n}")
}
