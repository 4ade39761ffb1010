//! The calls, as a user of the crate makes them.

use cedar_proved::{
    format_policies, layout_policies, parse_expression, position_of, try_format_policies,
    try_layout_policies, try_parse_expression, try_position_of, try_write_policies, write_policies,
    Effect, Entity, Error, Fault, Faults, Layout, Operator, Policy, PolicySet, Related, Scope,
};
use std::thread;

const TWO: &str = "@note @id(\"a\")
permit(principal == ?principal, action, resource in (?resource)); // one
forbid(principal is A::U in G::\"g\", action in [Action::\"x\", A::Action::\"y\"], resource,);";

#[test]
fn policies_have_their_parts() {
    let set = PolicySet::parse(TWO).unwrap();
    assert_eq!(set.len(), 2);
    let first = set.get("policy0").unwrap();
    assert_eq!(first.effect(), Effect::Permit);
    assert_eq!(
        first.annotations().collect::<Vec<_>>(),
        [("id", "a"), ("note", "")]
    );
    assert_eq!(
        (first.annotation("id"), first.annotation("other")),
        (Some("a"), None)
    );
    assert_eq!(
        first.slots().collect::<Vec<_>>(),
        ["?principal", "?resource"]
    );
    assert_eq!(&TWO[first.range()], &TWO[..TWO.find(" // one").unwrap()]);
    let second = set.get("policy1").unwrap();
    assert_eq!(second.effect(), Effect::Forbid);
    assert!(!second.is_template() && second.slots().next().is_none());
    assert_eq!(second.principal().operator(), Operator::Is);
    assert_eq!(second.principal().entity_type(), Some("A::U"));
    let actions: Vec<_> = second
        .action()
        .entities()
        .map(|it| (it.entity_type(), it.id()))
        .collect();
    assert_eq!(actions, [("Action", "x"), ("A::Action", "y")]);
    assert_eq!(second.resource().operator(), Operator::All);
    assert_eq!(second.place().from.line, 3);
    assert!(set.get("policy2").is_none() && set.get("policy01").is_none());
    assert!("".parse::<PolicySet>().unwrap().is_empty());
}

#[test]
fn faults_have_their_places() {
    let text = "permit(principal, action, resource) when { \"\u{1f600}\u{e9}\" == foo(1) };";
    let faults = PolicySet::parse(text).unwrap_err();
    assert_eq!(faults.len(), 1);
    let fault = faults.iter().next().unwrap();
    assert_eq!(
        (fault.kind(), fault.message()),
        ("UnknownFunction", "`foo` is not a valid function")
    );
    let place = fault.place().unwrap();
    assert_eq!(place.from, position_of(text, place.bytes.start));
    assert_eq!((place.from.column, place.from.utf16_column), (52, 53));
    assert_eq!(faults.to_string(), "1:52: `foo` is not a valid function");
    assert!(faults
        .shown("a.cedar", text)
        .starts_with("a.cedar:1:52: `foo` is not a valid function\n"));
    let faults = parse_expression("(1 ,").unwrap_err();
    assert!(faults.iter().all(|fault| fault.expected().len() > 0));
    let error: Box<dyn std::error::Error + Send + Sync> = Box::new(Error::from(faults));
    assert!(error.to_string().starts_with("1:4: unexpected token `,`"));
}

#[test]
fn texts_are_written_anew() {
    assert_eq!(
        parse_expression("ip(\"::1\").isIpv4()").unwrap(),
        "ip ( \"::1\" ) . isIpv4 ( )"
    );
    let text = "// all\npermit(principal,action,resource);";
    assert_eq!(
        format_policies(text).unwrap(),
        "permit ( principal , action , resource ) ;\n"
    );
    assert_eq!(
        write_policies("@a permit(principal,action,resource) when { ((1) < 2) };").unwrap(),
        "@a(\"\") permit (principal, action, resource) when { 1 < 2 };\n"
    );
    assert!(write_policies("permit(a);").is_err());
    let laid = layout_policies(text, Layout::default()).unwrap();
    assert_eq!(laid, "// all\npermit (principal, action, resource);\n");
    let narrow = layout_policies(
        text,
        Layout {
            width: 20,
            indent: 4,
        },
    )
    .unwrap();
    assert!(narrow.starts_with("// all\npermit (\n    principal,\n"));
}

#[test]
fn calls_that_tell_want_of_memory_answer_the_same() {
    let layout = Layout::default();
    for text in ["permit(principal,action,resource);", "1 + 2", "permit("] {
        let set = PolicySet::try_parse(text).map(|set| set.len());
        assert_eq!(set.ok(), PolicySet::parse(text).map(|set| set.len()).ok());
        let both = [
            (try_parse_expression(text), parse_expression(text)),
            (try_format_policies(text), format_policies(text)),
            (try_write_policies(text), write_policies(text)),
            (
                try_layout_policies(text, layout),
                layout_policies(text, layout),
            ),
        ];
        for (tried, called) in both {
            match (tried, called) {
                (Err(Error::Faults(tried)), Err(called)) => {
                    assert_eq!(tried.to_string(), called.to_string())
                }
                (tried, called) => assert_eq!(tried.unwrap(), called.unwrap()),
            }
        }
        assert_eq!(try_position_of(text, 3).unwrap(), position_of(text, 3));
    }
}

#[test]
fn faults_are_shown_at_their_lines() {
    let text = "permit(principal, action, resource);\r\n\tpermit(principal \u{e9}, action);\r\n";
    let faults = PolicySet::parse(text).unwrap_err();
    let shown = faults.shown("a.cedar", text);
    assert!(shown.contains("\n  | \tpermit(principal \u{e9}, action);\n  | \t                 ^ "));
    for other in ["", "\u{1f600}".repeat(9).as_str()] {
        assert!(!faults.shown("a.cedar", other).is_empty()); // it isn't the text that was parsed
    }
    let text = "permit(";
    let faults = PolicySet::parse(text).unwrap_err();
    assert!(faults.shown("", text).contains("\n  | permit(\n"));
    let many = "permit(a);\n".repeat(20_000);
    let faults = PolicySet::parse(&many).unwrap_err();
    assert!(faults.len() >= 20_000);
    assert!(faults.shown("", &many).lines().count() >= 60_000);
    assert_eq!((&faults).into_iter().len(), faults.len());
}

#[test]
fn a_zero_ends_no_text() {
    let set = PolicySet::parse("permit(principal == A::\"a\\0b\", action, resource);").unwrap();
    let policy = set.iter().next().unwrap();
    assert_eq!(policy.principal().entities().next().unwrap().id(), "a\0b");
    let text = "// a\0b\npermit(a);";
    assert!(layout_policies(text, Layout::default())
        .unwrap()
        .starts_with("// a\0b\n"));
    assert_eq!(position_of("a\0b", 2).column, 3);
    assert_eq!(position_of("", usize::MAX).column, 1);
}

#[test]
fn answers_move_between_threads() {
    fn asked<T: Send + Sync>(value: T) -> T {
        value
    }
    // What answers lend moves too.
    let _ = asked::<[Option<(Policy, Scope, Entity, Fault, Related)>; 0]>;
    let threads: Vec<_> = (0..8)
        .map(|_| {
            thread::spawn(|| {
                let sets: Vec<PolicySet> = (0..100)
                    .map(|_| asked(PolicySet::parse(TWO).unwrap()))
                    .collect();
                let faults: Vec<Faults> = (0..100)
                    .map(|_| asked(PolicySet::parse("permit(").unwrap_err()))
                    .collect();
                (sets, faults)
            })
        })
        .collect();
    for thread in threads {
        let (sets, faults) = thread.join().unwrap();
        assert!(sets
            .iter()
            .all(|set| set.len() == 2 && set.iter().len() == 2));
        assert!(faults.iter().all(|faults| faults.len() == 1));
    }
}

#[test]
fn deep_texts_take_a_small_stack() {
    let run = || {
        let levels = 1 << 19;
        let text = "(".repeat(levels) + "1" + &")".repeat(levels);
        assert!(parse_expression(&text).is_ok());
        let text = "principal".to_owned() + &".a".repeat(levels);
        assert!(parse_expression(&text).is_ok());
    };
    thread::Builder::new()
        .stack_size(256 << 10)
        .spawn(run)
        .unwrap()
        .join()
        .unwrap();
}
