//! The sorts of text, and right texts of each.

use crate::drawing::folders::small;
use crate::drawing::forms::{Form, Role};
use crate::drawing::graphs::{bounds, prices, Lent};
use crate::drawing::texts::Draft;
use reference::graph::MOST_OLD_PRICE;
use reference::{Kind, Random};

/// A sort of text.
#[derive(Clone, Copy, Debug, PartialEq, Eq)]
pub enum Sort {
    Graph,
    Bounds,
    Prices,
    Subgraph,
}

impl Sort {
    pub const ALL: [Sort; 4] = [Sort::Graph, Sort::Bounds, Sort::Prices, Sort::Subgraph];

    /// Texts of this sort, in words.
    pub fn words(self) -> &'static str {
        match self {
            Sort::Graph => "graphs",
            Sort::Bounds => "bounds",
            Sort::Prices => "prices",
            Sort::Subgraph => "subgraphs",
        }
    }

    /// The roles that numbers have in a text of this sort.
    pub fn roles(self) -> &'static [Role] {
        match self {
            Sort::Graph => &Role::ALL,
            Sort::Bounds | Sort::Prices => &[Role::Size, Role::Signed],
            Sort::Subgraph => &[Role::Size, Role::Index],
        }
    }
}

/// A text of a sort before it is written, and the graph that it belongs to.
#[derive(Clone, Debug)]
pub struct Content {
    pub sort: Sort,
    pub graph: Lent,
    pub draft: Draft,
    /// How many bounds or prices there are.
    pub count: u32,
}

impl Content {
    /// Something right of a sort for a right graph, with prices that the old rules take too.
    pub fn of(random: &mut Random, sort: Sort, graph: Lent) -> Content {
        let (n, m) = (graph.vertices(), graph.row.len());
        let mut count = 0;
        let mut numbers = |numbers: Vec<i32>| {
            count = numbers.len() as u32;
            Draft::of_numbers(&numbers)
        };
        let draft = match sort {
            Sort::Graph => Draft::of_graph(&graph.lend()),
            Sort::Bounds => numbers(bounds(random, n)),
            Sort::Prices => {
                let most = random.pick(&[3, 64, MOST_OLD_PRICE]);
                numbers(match random.below(20) {
                    0 => vec![MOST_OLD_PRICE; n + m],
                    _ => prices(random, n + m, most, false),
                })
            }
            Sort::Subgraph => {
                let one_in = random.pick(&[1, 2, 2, 3]);
                let mut chosen: Vec<_> = (0..m).filter(|_| random.below(one_in) == 0).collect();
                if random.below(3) == 0 {
                    chosen.reverse();
                }
                Draft::of_subgraph(graph.kind, &graph.lend(), &chosen)
            }
        };
        Content {
            sort,
            graph,
            draft,
            count,
        }
    }

    /// Something right of a sort for a small graph of either kind.
    pub fn small(random: &mut Random, sort: Sort) -> Content {
        let kind = random.pick(&[Kind::Bipartite, Kind::General]);
        let graph = small(random, kind);
        Content::of(random, sort, graph)
    }

    /// Something of a sort for a small graph, with one number of a role, which the sort has, in a form.
    pub fn in_form(random: &mut Random, sort: Sort, role: Role, form: Form) -> Content {
        loop {
            let mut content = Content::small(random, sort);
            if content.draft.put(random, role, form) {
                return content;
            }
        }
    }
}
