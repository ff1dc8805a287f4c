//! The wrapper's eight calls, with their `Result`, against the reference. Nothing is here where nothing is linked.
#![cfg(any(target_arch = "x86_64", feature = "native"))]

use cuddlelamb_check::compare::case;
use cuddlelamb_check::library::Request;
use cuddlelamb_check::linked::{own_plan, own_rooms, own_table, wrappers_table};
use cuddlelamb_check::reference::{self, Refused, LONGEST_LISTING, LONGEST_TEXT};

/// Every generated case is made from this and an index.
const SEED: u64 = 20_250_104;

fn refused(refused: cuddlelamb::Refused) -> Refused {
    assert!(refused.refusal().is_some(), "every refusal has a name: {refused:?}");
    Refused { number: refused.number, line: refused.line }
}

/// Puts a request to the wrapper and to the reference; where the results differ, it fails.
fn assert_same(request: &Request) {
    match request {
        Request::Read { text } => {
            let given = cuddlelamb::read(text).map_err(refused).map(own_table);
            assert_eq!(given, reference::read(text), "{request:?}");
        }
        Request::Plan { table, budget, order, fates } => {
            let (mut lent, mut other) = ((order.clone(), fates.clone()), (order.clone(), fates.clone()));
            let given = cuddlelamb::plan(&wrappers_table(table), *budget, &mut lent.0, &mut lent.1);
            let expected = reference::plan(table, *budget, &mut other.0, &mut other.1);
            assert_eq!(given.map_err(refused).map(own_plan), expected, "{request:?}");
            assert_eq!(lent, other, "{request:?}");
        }
        Request::Rooms { table, budget, turns, rooms } => {
            let (mut lent, mut other) = ((turns.clone(), rooms.clone()), (turns.clone(), rooms.clone()));
            let given = cuddlelamb::rooms(&wrappers_table(table), *budget, &mut lent.0, &mut lent.1);
            let expected = reference::rooms(table, *budget, &mut other.0, &mut other.1);
            assert_eq!(given.map_err(refused).map(own_rooms), expected, "{request:?}");
            assert_eq!(lent, other, "{request:?}");
        }
        Request::List { text, out } => {
            let (mut lent, mut other) = (out.clone(), out.clone());
            let given = cuddlelamb::list(text, &mut lent).map_err(refused);
            assert_eq!(given, reference::list(text, &mut other), "{request:?}");
            assert_eq!(lent, other, "{request:?}");
        }
        Request::ListWithBudget { text, budget, out } => {
            let (mut lent, mut other) = (out.clone(), out.clone());
            let given = cuddlelamb::list_with_budget(text, *budget, &mut lent).map_err(refused);
            assert_eq!(given, reference::list_with_budget(text, *budget, &mut other), "{request:?}");
            assert_eq!(lent, other, "{request:?}");
        }
        Request::Write { table, out } => {
            let (mut lent, mut other) = (out.clone(), out.clone());
            let given = cuddlelamb::write(&wrappers_table(table), &mut lent).map_err(refused);
            assert_eq!(given, reference::write(table, &mut other), "{request:?}");
            assert_eq!(lent, other, "{request:?}");
        }
        Request::Allocate { mean, variance, assurance } => {
            let given = cuddlelamb::allocate(*mean, *variance, *assurance).map_err(refused);
            assert_eq!(given, reference::allocate(*mean, *variance, *assurance), "{request:?}");
        }
        Request::Costs { model } => {
            assert_eq!(cuddlelamb::costs(*model).map_err(refused), reference::costs(*model), "{request:?}");
        }
    }
}

#[test]
fn generated_cases() {
    println!("seed {SEED}");
    (0..2_000).flat_map(|index| case(SEED, index)).for_each(|request| assert_same(&request));
}

/// The constants of the wrapper are those of the reference.
#[test]
fn constants() {
    assert_eq!(
        (cuddlelamb::SPEEDS, cuddlelamb::JOBS, cuddlelamb::HOLDS),
        (reference::SPEEDS, reference::JOBS, reference::HOLDS)
    );
    assert_eq!((cuddlelamb::TEXT, cuddlelamb::LISTING), (LONGEST_TEXT, LONGEST_LISTING));
    assert_eq!(cuddlelamb::SUPPLIED_SPEEDS, reference::SUPPLIED_SPEEDS);
}
