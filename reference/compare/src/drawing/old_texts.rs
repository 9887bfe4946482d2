//! Many texts for `rewrite`: of every sort, mostly in forms that only the old rules take, right, damaged and unusual, and the examples.

use crate::drawing::examples;
use crate::drawing::folders::{small, UNUSUAL};
use crate::drawing::forms::{Form, Role};
use crate::drawing::graphs::{extreme_graphs, Lent};
use crate::drawing::sorts::{Content, Sort};
use crate::drawing::texts::{damaged, joined, Draft};
use crate::harness::files::Entry;
use reference::graph::{MOST_OLD_PRICE, MOST_PRICE};
use reference::{Kind, Random};

/// What stands under old.mtx, and what it was drawn from.
pub struct OldText {
    /// What the text is called where it is shown.
    pub name: String,
    pub entry: Entry,
    /// The content before it was written and damaged; nothing for an example.
    pub content: Option<Content>,
    /// The form of the only number that need not be plain, if this was drawn.
    pub form: Option<Form>,
}

impl OldText {
    /// A text of its own.
    pub fn new(name: String, entry: Entry) -> OldText {
        OldText {
            name,
            entry,
            content: None,
            form: None,
        }
    }

    /// Something drawn from a content.
    fn of(name: String, entry: Entry, content: Content) -> OldText {
        OldText {
            content: Some(content),
            ..OldText::new(name, entry)
        }
    }

    /// The text; an absent file is an empty one.
    pub fn text(&self) -> &[u8] {
        self.entry.text().unwrap_or_default()
    }
}

/// The right content of a text: mostly small.
fn right(random: &mut Random) -> Content {
    let kind = random.pick(&[Kind::Bipartite, Kind::General]);
    let graph = match random.below(40) {
        0 | 1 => Lent::largest(random, kind, 1024),
        2..=20 => small(random, kind),
        _ => Lent::any(random),
    };
    let sort = random.pick(&Sort::ALL);
    Content::of(random, sort, graph)
}

/// A number gets a value at the end of some range, or beyond it.
fn set_extreme(random: &mut Random, content: &mut Content) {
    let (role, values): (Role, &[i64]) = match random.below(5) {
        0 => (Role::Size, &[0, 1, 5, 64, 65, 128, 129, 1_024, 1_025]),
        1 => (Role::Index, &[0, 1, 64, 65, 128, 129]),
        2 => (
            Role::Signed,
            &[-1_000_001, -1_000_000, 1_000_000, 1_000_001],
        ),
        3 => (Role::Signed, &[-1, 64, 65, 2_000_000, 2_000_001]),
        _ => (Role::Signed, &[-1, 64, 65, 4_000_000, 4_000_001]),
    };
    let value = random.pick(values);
    content.draft.set(random, role, value);
}

/// One to three prices go beyond those that the old rules take.
fn go_beyond(random: &mut Random, content: &mut Content) {
    for _ in 0..1 + random.below(3) {
        let price = random.between(MOST_OLD_PRICE + 1, MOST_PRICE);
        content.draft.set(random, Role::Signed, price.into());
    }
}

/// Something is made wrong: a number, some prices, the ends of an edge, or the graph that a subgraph belongs to, which loses an edge.
fn spoil(random: &mut Random, content: &mut Content) {
    let has_ends = matches!(content.sort, Sort::Graph | Sort::Subgraph);
    match random.below(6) {
        0 if has_ends => content.draft.repeat_ends(random),
        1 if content.sort == Sort::Subgraph => content.graph.lose_last_edge(),
        2 | 3 if content.sort == Sort::Prices => go_beyond(random, content),
        _ => set_extreme(random, content),
    }
}

/// The lines of a content: one number in so many in an old form, now and then a few in any form.
fn lines(random: &mut Random, content: &Content) -> Vec<Vec<u8>> {
    let draft = content.draft.clone();
    let draft = match random.below(8) {
        0 => draft,
        1 => draft.in_old_forms(random, 4).with_other_forms(random, 1),
        2 | 3 => draft.in_old_forms(random, 1),
        _ => draft.in_old_forms(random, 4),
    };
    draft.lines(random)
}

/// A text of any sort, of which now and then something is wrong.
fn any(random: &mut Random, name: String) -> OldText {
    let mut content = right(random);
    if random.below(4) == 0 {
        spoil(random, &mut content);
    }
    let lines = lines(random, &content);
    let text = match random.below(3) {
        0 => damaged(random, lines),
        _ => joined(random, &lines),
    };
    OldText::of(name, Entry::Text(text), content)
}

/// Each unusual thing in the place of a text of each sort, in which every number is in an old form.
fn unusual(random: &mut Random) -> Vec<OldText> {
    let mut texts = Vec::new();
    for sort in Sort::ALL {
        for kind in [Kind::Bipartite, Kind::General] {
            for thing in UNUSUAL {
                let graph = small(random, kind);
                let content = Content::of(random, sort, graph);
                let draft = content.draft.clone().in_old_forms(random, 1);
                let lines = draft.lines(random);
                let text = joined(random, &lines);
                let name = format!("{kind:?}, {}, {thing:?}", sort.words());
                texts.push(OldText::of(name, thing.entry(random, text), content));
            }
        }
    }
    texts
}

/// Something of a sort for a graph; a subgraph has all its edges.
fn whole(random: &mut Random, sort: Sort, graph: Lent) -> Content {
    let mut content = Content::of(random, sort, graph);
    if sort == Sort::Subgraph {
        let all: Vec<_> = (0..content.graph.row.len()).collect();
        content.draft = Draft::of_subgraph(content.graph.kind, &content.graph.lend(), &all);
    }
    content
}

/// The text of a content, plain and with every number in an old form.
fn in_both_forms(random: &mut Random, name: &str, content: &Content) -> [OldText; 2] {
    let plain = content.draft.clone();
    let old = plain.clone().in_old_forms(random, 1);
    [plain, old].map(|draft| {
        let lines = draft.lines(random);
        let entry = Entry::Text(joined(random, &lines));
        OldText::of(name.into(), entry, content.clone())
    })
}

/// The largest texts of each sort, and those with an edge more.
fn longest(random: &mut Random) -> Vec<OldText> {
    let mut texts = Vec::new();
    for sort in Sort::ALL {
        for kind in [Kind::Bipartite, Kind::General] {
            for edges in [1024, 1025] {
                let graph = Lent::largest(random, kind, edges);
                let content = whole(random, sort, graph);
                let name = format!("{kind:?} of {edges} edges, {}", sort.words());
                texts.extend(in_both_forms(random, &name, &content));
            }
        }
    }
    texts
}

/// Signed numbers at the ends of their ranges and beyond them.
const EXTREME_NUMBERS: [(Sort, i64); 14] = [
    (Sort::Graph, -1_000_001),
    (Sort::Graph, -1_000_000),
    (Sort::Graph, 1_000_000),
    (Sort::Graph, 1_000_001),
    (Sort::Bounds, -1),
    (Sort::Bounds, 0),
    (Sort::Bounds, 64),
    (Sort::Bounds, 65),
    (Sort::Prices, -1),
    (Sort::Prices, 0),
    (Sort::Prices, 2_000_000),
    (Sort::Prices, 2_000_001),
    (Sort::Prices, 4_000_000),
    (Sort::Prices, 4_000_001),
];

/// Texts with a number at the end of a range or beyond it, and nothing else that is wrong.
fn extreme(random: &mut Random) -> Vec<OldText> {
    let mut texts = Vec::new();
    for graph in extreme_graphs(random) {
        for sort in [Sort::Graph, Sort::Subgraph] {
            let name = format!("{}, {graph:?}", sort.words());
            let content = whole(random, sort, graph.clone());
            texts.extend(in_both_forms(random, &name, &content));
        }
    }
    for (sort, value) in EXTREME_NUMBERS {
        let mut content = Content::in_form(random, sort, Role::Signed, Form::Plain);
        content.draft.set(random, Role::Signed, value);
        let name = format!("{}, {value}", sort.words());
        texts.extend(in_both_forms(random, &name, &content));
    }
    texts
}

/// Texts with prices beyond those that the old rules take, and nothing else that is wrong.
fn beyond(random: &mut Random) -> Vec<OldText> {
    let mut texts = Vec::new();
    for kind in [Kind::Bipartite, Kind::General] {
        let mut graphs: Vec<_> = (0..20).map(|_| small(random, kind)).collect();
        graphs.push(Lent::largest(random, kind, 1024));
        for graph in graphs {
            let mut content = Content::of(random, Sort::Prices, graph);
            go_beyond(random, &mut content);
            let name = format!("{} prices, some beyond the old range", content.count);
            texts.extend(in_both_forms(random, &name, &content));
        }
    }
    texts
}

/// The texts of the examples.
fn of_examples() -> impl Iterator<Item = OldText> {
    let texts = examples::texts().into_iter();
    texts.map(|(name, entry)| OldText::new(name, entry))
}

/// Texts of each sort in which one number of each role has each form, all others the one way.
fn in_each_form(random: &mut Random) -> Vec<OldText> {
    let mut texts = Vec::new();
    for sort in Sort::ALL {
        for &role in sort.roles() {
            for form in Form::ALL {
                let content = Content::in_form(random, sort, role, form);
                let lines = content.draft.lines(random);
                let entry = Entry::Text(joined(random, &lines));
                let name = format!("{}, {} as {}", sort.words(), form.words(), role.words());
                texts.push(OldText {
                    form: Some(form),
                    ..OldText::of(name, entry, content)
                });
            }
        }
    }
    texts
}

/// The texts of the examples, those in each form, the unusual, the longest and the extreme ones, those with prices beyond the old range, and `count` others.
pub fn all(seed: u64, count: usize) -> Vec<OldText> {
    let mut random = Random::new(seed);
    let mut texts: Vec<_> = of_examples().collect();
    texts.extend(in_each_form(&mut random));
    texts.extend(unusual(&mut random));
    texts.extend(longest(&mut random));
    texts.extend(extreme(&mut random));
    texts.extend(beyond(&mut random));
    texts.extend((0..count).map(|at| any(&mut random, format!("{at} of seed {seed}"))));
    texts
}
