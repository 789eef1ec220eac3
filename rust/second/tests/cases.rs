//! The verdicts that the case studies claim.

mod support;

use second::{Outcome, Sides};
use support::*;

fn judge_case(name: &str, graph: &str, property: &str) -> Outcome {
    judge(&case(&format!("{name}/{graph}.txt")), &case(&format!("{name}/{property}.txt")))
}

fn model_case(name: &str, interface: &str, property: &str) -> Outcome {
    model(&case(&format!("{name}/{interface}.txt")), &case(&format!("{name}/{property}.txt")))
}

fn watch_case(name: &str, graph: &str, start: u8) -> Outcome {
    let [interface, graph, rules] =
        ["interface", graph, "rules"].map(|file| case(&format!("{name}/{file}.txt")));
    watch(&interface, &graph, &rules, start)
}

fn compose_case(name: &str, property: &str, start: u8) -> Outcome {
    let names = ["interface", "graph", "interface2", property, "rules"];
    let [known_interface, known_graph, other_interface, property, rules] =
        names.map(|file| case(&format!("{name}/{file}.txt")));
    let sides = Sides {
        known_interface: &known_interface,
        known_graph: &known_graph,
        other_interface: &other_interface,
        property: &property,
    };
    compose(&sides, &rules, start)
}

fn assert_verdict(outcome: &Outcome, expected: u32) {
    assert!(
        matches!(outcome, Outcome::Said { verdict, .. } if *verdict == expected),
        "{outcome:?}"
    );
}

/// Checks that the models of some properties of a case simulate each other.
fn assert_equal_models(name: &str, properties: &[&str]) {
    let interface = case(&format!("{name}/interface.txt"));
    let bytes = |property| model_bytes(&interface, &case(&format!("{name}/{property}.txt")));
    let models: Vec<Vec<u8>> = properties.iter().map(bytes).collect();
    for first in &models {
        for second in &models {
            assert_verdict(&compare(first, second), 1);
        }
    }
}

#[test]
fn a_never_calls_b() {
    let name = "a-never-calls-b";
    for property in ["property", "property2"] {
        assert_eq!(compose_case(name, property, 1), positive());
        assert_eq!(compose_case(name, property, 2), positive());
    }
    assert_eq!(compose_case(name, "property-true", 1), explained("1 0 0 0 1 0 / 1 0 2 2 5 7"));
    assert_model_size(&model_case(name, "interface2", "property"), 12, 56);
    assert_model_size(&model_case(name, "interface2", "property2"), 10, 48);
    let interface = case("a-never-calls-b/interface2.txt");
    let [first, second] = ["property", "property2"]
        .map(|property| model_bytes(&interface, &case(&format!("{name}/{property}.txt"))));
    assert_verdict(&compare(&first, &second), 2);
    assert_verdict(&compare(&second, &first), 2);
}

#[test]
fn evenodd_composed() {
    let name = "evenodd-composed";
    assert_eq!(compose_case(name, "property", 1), positive());
    assert_model_size(&model_case(name, "interface2", "property"), 6, 20);
    assert_eq!(judge_case(name, "graph2", "property"), positive());
    let sheet = "0 0 0 11 0 2 / 0 11 0 255 0 255 / 0 2 0 4 0 255 / 0 4 1 1 0 255 / 1 1 0 255 0 255";
    assert_eq!(judge_case(name, "graph2-bad", "property"), explained(sheet));
}

#[test]
fn evenodd_tailrec() {
    let name = "evenodd-tailrec";
    assert_eq!(judge_case(name, "graph", "property"), positive());
    assert_eq!(watch_case(name, "graph", 1), positive());
    assert_model_size(&model_case(name, "interface", "property"), 10, 52);
    let [interface, graph, property] =
        ["interface", "graph", "property"].map(|file| case(&format!("{name}/{file}.txt")));
    assert_verdict(&compare(&graph, &model_bytes(&interface, &property)), 1);
}

#[test]
fn example37() {
    let [first, second] = ["example37/graph.txt", "example37/graph2.txt"].map(case);
    for (one, other, entry) in [(&first, &second, 6), (&second, &first, 1)] {
        let outcome = compare(one, other);
        assert!(
            matches!(&outcome, Outcome::Said { verdict: 2, values, .. } if *values == [entry]),
            "{outcome:?}"
        );
    }
    let models = [("property", 12, 64, first), ("property2", 8, 48, second)];
    for (property, nodes, edges, expected) in models {
        assert_eq!(
            model_case("example37", "interface", property),
            said(1, &[nodes, edges], expected)
        );
    }
}

#[test]
fn figure4() {
    let expected = said(1, &[4, 24], case("figure4/graph.txt"));
    assert_eq!(model_case("figure4", "interface", "property"), expected);
    assert_model_size(&model_case("figure4", "interface", "property-true"), 8, 48);
    assert_equal_models("figure4", &["property", "property-true"]);
    assert_eq!(watch_case("figure4", "graph", 1), refused(10, 0, 0));
}

#[test]
fn inlining_fig5() {
    let trail = "0 0 0 0 0 0 / 0 0 1 0 2 0 / 2 0 1 0 4 0 / 4 0 1 0 5 0 / 5 0 1 0 6 0 / 6 0 3 1 7 7";
    assert_eq!(watch_case("inlining-fig5", "folded-expected", 1), explained(trail));
    assert_eq!(judge_case("inlining-fig5", "graph", "property"), positive());
}

#[test]
fn purse_decomposition() {
    let name = "purse-decomposition";
    assert_eq!(compose_case(name, "property", 5), positive());
    assert_eq!(compose_case(name, "property-weak", 5), explained("9 0 0 0 9 0 / 9 0 2 5 9 7"));
}

#[test]
fn purse_with_both_sides_unwritten() {
    let [interface1, interface2, rules] = ["interface", "interface2", "rules"]
        .map(|file| case(&format!("purse-decomposition/{file}.txt")));
    let trails = [
        ("property", "9 0 0 0 9 0 / 9 0 2 5 9 7"),
        ("property-literal", "49 0 0 0 49 0 / 49 0 2 5 49 7"),
    ];
    for (name, trail) in trails {
        let property1 = case(&format!("purse-sigma-p/{name}.txt"));
        let [clean, weak] = ["property", "property-weak"].map(|name| {
            let property2 = case(&format!("purse-decomposition/{name}.txt"));
            compose_both([&interface1, &property1, &interface2, &property2], &rules, 5)
        });
        assert_eq!(clean, positive());
        assert_eq!(weak, explained(trail));
    }
}

#[test]
fn purse_sigma_l() {
    let name = "purse-sigma-l";
    let expected = said(1, &[8, 120], case("purse-sigma-l/model-expected.txt"));
    assert_eq!(model_case(name, "interface", "property"), expected);
    assert_model_size(&model_case(name, "interface", "property-literal"), 28, 312);
    assert_equal_models(name, &["property", "property-literal"]);
    for property in ["property", "property-literal"] {
        assert_eq!(judge_case(name, "graph", property), positive());
        assert_verdict(&judge_case(name, "graph-bad", property), 2);
    }
}

#[test]
fn purse_sigma_p() {
    let name = "purse-sigma-p";
    let expected = said(1, &[8, 88], case("purse-sigma-p/model-expected.txt"));
    assert_eq!(model_case(name, "interface", "property"), expected);
    assert_eq!(case("purse-sigma-p/model-expected.txt"), case("purse-decomposition/graph.txt"));
    assert_model_size(&model_case(name, "interface", "property-literal"), 48, 272);
    assert_equal_models(name, &["property", "property-literal"]);
    for property in ["property", "property-literal"] {
        assert_eq!(judge_case(name, "graph", property), positive());
    }
}
