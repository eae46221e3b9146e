//! The worked example (docs/RULES.md, Programs) and P5 of the crate `examples`, through the wrapper.
use waikurpeho::bounds::MOST_BOXES;
use waikurpeho::{calls, Container, Finding, Kind, Line, Order, Placer, Refusal, Rule, Sheet};

fn worked() -> Sheet {
    let order = Order::new(Container::new(10.0, 10.0, 10.0).with_spacing(1.0)).with(Kind::new(7, 2, [4.0; 3]).with_rule(Rule::Fixed));
    let line = |x| Line { id: 7, instance: 0, orientation: 0, bin: 0, at: [x, 0.0, 0.0] };
    Sheet { order, lines: vec![line(0.0), line(4.5)], unplaced: vec![] }
}

#[test]
fn the_worked_sheet() {
    let expected = vec![
        Finding::Repeated { line: 1, id: 7, instance: 0 },
        Finding::TooClose { first: 0, second: 1, distance: 0.5, spacing: 1.0 },
        Finding::Missing { id: 7 },
    ];
    assert_eq!(worked().check(), Ok(expected));
    assert_eq!(worked().fill(), Ok(128));
}

#[test]
fn too_little_room_changes_nothing() {
    let mut words = [99; 14];
    assert_eq!(calls::check_into(&worked().to_bytes(), &mut words), Err(Refusal::Room { needed: 3 }));
    assert_eq!(words, [99; 14]);
}

#[test]
fn the_analysts_march() {
    let order = Order::new(Container::new(0.3, 0.1, 0.1)).with(Kind::new(1, 3, [0.1; 3]));
    let plan = |placer| order.plan(placer).unwrap();
    for placer in [Placer::Points, Placer::Layers] {
        assert_eq!((plan(placer).sheet.check(), plan(placer).considered, &plan(placer).sheet.order), (Ok(vec![]), 3, &order));
    }
    assert_eq!((plan(Placer::Points).sheet.lines.len(), plan(Placer::Layers).sheet.lines.len()), (3, 2));
    assert_eq!(plan(Placer::Layers).sheet.unplaced, [1]);
    assert_eq!(order.plan_first(Placer::Points, 1).unwrap().sheet.lines.len(), 1);
}

/// An order with one thing changed, and the refusal that it gets.
fn refused(change: impl Fn(&mut Order)) -> Option<Refusal> {
    let mut order = worked().order;
    change(&mut order);
    order.plan(Placer::Layers).err()
}

#[test]
fn each_refusal() {
    assert_eq!(refused(|_| ()), None);
    assert_eq!(calls::plan(Placer::Layers, &[], 1), Err(Refusal::Shape));
    assert_eq!(refused(|order| order.kinds[0].quantity = MOST_BOXES as u32 + 1), Some(Refusal::Count));
    assert_eq!(refused(|order| order.container.margin = f64::NAN), Some(Refusal::Range));
    assert_eq!(refused(|order| order.kinds[0].quantity = 0), Some(Refusal::Record));
    assert_eq!(refused(|order| order.kinds.push(order.kinds[0].clone())), Some(Refusal::RepeatedId));
    assert_eq!(Order::new(Container::new(0.5, 1.0, 1.0)).plan(Placer::Points).unwrap().sheet.fill(), Err(Refusal::Uneven));
}
